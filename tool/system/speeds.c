/* The speeds beyond 38400 are not POSIX's; where the system has them, they are used. */
#define _DEFAULT_SOURCE
#include "speeds.h"

#include <stddef.h>
#include <stdio.h>
#include <termios.h>

typedef struct {
    unsigned long baud;
    speed_t speed;
} speed_row;

static const speed_row speeds[] = {
    {1200, B1200},       {2400, B2400}, {4800, B4800}, {9600, B9600}, {19200, B19200}, {38400, B38400},
#ifdef B57600
    {57600, B57600},
#endif
#ifdef B115200
    {115200, B115200},
#endif
#ifdef B230400
    {230400, B230400},
#endif
#ifdef B460800
    {460800, B460800},
#endif
#ifdef B921600
    {921600, B921600},
#endif
#ifdef B1000000
    {1000000, B1000000},
#endif
};

static const speed_row *find_speed(unsigned long baud)
{
    for (size_t i = 0; i < sizeof speeds / sizeof *speeds; i++)
        if (speeds[i].baud == baud)
            return &speeds[i];
    return NULL;
}

bool has_speed(unsigned long baud, char known[128])
{
    size_t at = 0;
    known[0] = 0;
    for (size_t i = 0; i < sizeof speeds / sizeof *speeds && at < 100; i++)
        at += (size_t)snprintf(known + at, 128 - at, " %lu", speeds[i].baud);
    return find_speed(baud) != NULL;
}

bool set_speed(struct termios *settings, unsigned long baud)
{
    const speed_row *row = find_speed(baud);
    return row && cfsetispeed(settings, row->speed) == 0 && cfsetospeed(settings, row->speed) == 0;
}
