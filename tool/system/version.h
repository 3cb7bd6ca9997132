/* The program's version, as the Makefile has it. */
#ifndef VERSION
#define VERSION "unknown"
#endif
