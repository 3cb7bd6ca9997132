/* The figures of the rules, and figures at their edges, held to the library and to the model alike. */
#ifndef FIGURES_H
#define FIGURES_H

#include "desk.h"

void run_figures(trial *t);

/* Those of trays, of slots, of sessions, of hosts, and of recordings, a file for each. */
void tray_figures(trial *t);
void slot_figures(trial *t);
void exchange_figures(trial *t);
void refusal_figures(trial *t);
void altered_figures(trial *t);
void record_figures(trial *t);
void load_figures(trial *t);
void command_figures(trial *t);
void range_figures(trial *t);
void talk_figures(trial *t);
void host_call_figures(trial *t);
void replay_figures(trial *t);
void recorded_figures(trial *t);

/* A version field with a text. */
void field_of(const char *text, uint8_t field[VERSION_FIELD]);

/* A fresh session. RAM and work buffer hold 00, the flash F0. */
setting setting_of(uint32_t kind, size_t ram_length, size_t flash_length, size_t work_length);

/* A fresh host with a command; without bytes the payload has zeros, and stays until the next one is made. The answer
   buffer holds EE. */
setting host_setting(uint32_t opcode, const char *payload, size_t length, size_t answer_length);

/* A host's bytes in one call: the device's bytes, and what the record then holds. */
typedef struct {
    uint32_t kind;
    size_t ram_length, flash_length, work_length;
    const char *host;
    size_t host_length;
    const char *device;
    size_t device_length;
    uint32_t phase, length, held, reason;
} exchange;

#define BYTES(text) text, sizeof(text) - 1
#define GREETING "\x02\x01\x00\x03"

/* The exchange from a setting's record, which may be a given one. The desk stays for a look at its memories. */
void exchange_from(trial *t, desk *d, const setting *s, const exchange *x);
void exchange_figure(trial *t, desk *d, const exchange *x);

#endif
