/* The user's signals wait while something is being kept. */
#ifndef HOST_SIGNALS_H
#define HOST_SIGNALS_H

#include <signal.h>

/* From the first byte written until the answer is printed the user's signals wait. So one who stops the program finds no fresh file left behind, and
   what has been kept has been told. Only a kill can come in between. */
void signals_wait(sigset_t *before);
void signals_come(const sigset_t *before);

/* A closed pipe and a limit on the length of files are to be errors of a write, which are told, and not the end of the program. */
void signals_as_errors(void);

#endif
