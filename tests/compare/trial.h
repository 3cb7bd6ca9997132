/* One case while it runs: where its choices come from, and the first difference that it met. */
#ifndef TRIAL_H
#define TRIAL_H

#include "choices.h"

typedef struct {
    choices *c;
    bool telling; /* prints what it does */
    char difference[400];
    uint64_t calls;
} trial;

typedef struct {
    const char *name;
    uint32_t weight;
    void (*run)(trial *t);
} case_kind;

/* Each file of cases has one of these. */
void version_case(trial *t);
void tray_case(trial *t);
void select_case(trial *t);
void offer_case(trial *t);
void command_case(trial *t);
void image_header_case(trial *t);
void product_header_case(trial *t);
void frame_case(trial *t);
void rom_stream_case(trial *t);
void uartboot_stream_case(trial *t);
void rom_record_case(trial *t);
void uartboot_record_case(trial *t);
void host_stream_case(trial *t);
void host_record_case(trial *t);
void joined_case(trial *t);
void length_case(trial *t);
void recording_case(trial *t);

/* Notes a difference; the first one stays. */
__attribute__((format(printf, 2, 3))) void differ(trial *t, const char *format, ...);
__attribute__((format(printf, 2, 3))) void tell(trial *t, const char *format, ...);
void tell_bytes(trial *t, const char *name, const uint8_t *bytes, size_t count);
bool differs(const trial *t);

void same_number(trial *t, const char *what, uint64_t library, uint64_t model);
void same_bytes(trial *t, const char *what, const uint8_t *library, const uint8_t *model, size_t count);

#endif
