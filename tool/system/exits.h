/* How the program ends. */
#ifndef EXITS_H
#define EXITS_H

enum {
    DONE = 0,     /* what was asked for is done */
    REFUSED = 1,  /* the library or the chip has refused it, a file is not what it has to be, or a visit differs */
    MISUSED = 2,  /* the command line is wrong */
    FAILED = 3,   /* a file, the terminal or the line failed */
    SILENT = 4,   /* nothing came where something was due */
    NOISE = 5,    /* bytes came, but none that was due */
    UARTBOOT = 6, /* uartboot runs already, where the boot ROM was expected */
    BUSY = 7,     /* another program uses the port */
    STOPPED = 8   /* the user has stopped it */
};

#endif
