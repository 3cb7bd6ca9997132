/* Signals, as a descriptor that can be waited for. */
#ifndef SIGNALS_H
#define SIGNALS_H

#include <stdbool.h>

/* From now on each signal by which a user ends a program asks for the end, so that it can leave lines and files in
   order; but if there is a reset button, SIGUSR1 presses it. A signal that is ignored stays so. A second time in one
   process changes nothing. */
bool signals_catch(bool with_button);

/* Readable once a signal has come. */
int signals_fd(void);

/* Whether the end was asked for. */
bool signals_stop(void);

/* Whether the reset button was pressed since this was last asked. */
bool signals_reset(void);

/* Whether one of the two above is waiting. */
bool signals_pending(void);

#endif
