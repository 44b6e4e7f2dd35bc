/* Under which name a host tells what went wrong. */
#ifndef SHARED_PROGRAM_H
#define SHARED_PROGRAM_H

/* Each host has its own. */
extern const char program[];

#endif
