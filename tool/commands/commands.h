/* The subcommands. Each is lent the words after its name and gives the exit code. */
#ifndef COMMANDS_H
#define COMMANDS_H

int run_slot(int count, char **words);
int run_map(int count, char **words);
int run_order(int count, char **words);
int run_tray(int count, char **words);
int run_offer(int count, char **words);
int run_frame(int count, char **words);
int run_play(int count, char **words);
int run_replay(int count, char **words);
int run_load(int count, char **words);
int run_demo(int count, char **words);

#endif
