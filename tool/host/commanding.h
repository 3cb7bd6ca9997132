/* Commands to uartboot over an open line: the library's host says what is sent, what is awaited, and when a command is
   done. */
#ifndef COMMANDING_H
#define COMMANDING_H

#include "line.h"
#include "log.h"
#include "pace.h"
#include "undalisho.h"

/* Some phases of a host, as undalisho.h has them. */
enum {
    SENDS_HEADER = 1,
    TAKES_HEADER_ACK = 2,
    TAKES_CRC_HIGH = 6,
    SENDS_NAK = 8,
    TAKES_LENGTH_HIGH = 10,
    TAKES_ANSWER = 12
};

typedef struct {
    uint32_t opcode;
    content payload;
    content answer;  /* room for it */
    size_t answered; /* how many bytes of it have come */
} uartboot_command;

typedef struct {
    line line;
    event_log log;
    unsigned long seconds; /* how long nothing may happen, beyond what bytes need on the wire */
    pace pace;
    long long arrived; /* when what was sent last has arrived */
    uint8_t came[256]; /* from the device: the bytes from `at` to `end` were not taken yet */
    size_t at, end;
    uartboot_command *now;             /* the command that is being sent */
    uint32_t record[UND_RECORD_WORDS]; /* its host */
    uint32_t before[UND_RECORD_WORDS]; /* the same before the last call, */
    uint8_t shown;                     /* and the first byte that this was shown */
} commanding;

/* Sends a command, and waits until it is done; an answer is then in its buffer. The next command begins with what this
   one has left. Gives DONE, or the exit code after it has said what went wrong. */
int send_command(commanding *c, uartboot_command *command);

#endif
