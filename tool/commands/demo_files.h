/* The demo's files: a flash with two images, and what is loaded into the monitor. */
#ifndef DEMO_FILES_H
#define DEMO_FILES_H

#include "files.h"

/* 1.9 in slot 1 starts; slot 2 has the older 1.2. */
content demo_flash(void);

/* A stand-in for uartboot, and after it an image with version 1.10. */
content demo_package(void);

/* The payloads of the commands that erase slot 2, and that copy the package's image there. */
content demo_erase(void);
content demo_copy(void);

#endif
