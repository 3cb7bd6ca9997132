/* The speeds that a serial port can have. */
#ifndef SPEEDS_H
#define SPEEDS_H

#include <stdbool.h>

struct termios;

/* Whether a port can have this speed; `known` (room for 128) becomes a list of those that it can have. */
bool has_speed(unsigned long baud, char known[128]);

/* Gives settings of a port this speed, if it can have it. */
bool set_speed(struct termios *settings, unsigned long baud);

#endif
