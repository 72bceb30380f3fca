/* The user's signals wait while something is being kept. */
#include <stdlib.h>

#include "signals.h"

void signals_wait(sigset_t *before)
{
    sigset_t users;
    sigemptyset(&users);
    sigaddset(&users, SIGINT);
    sigaddset(&users, SIGTERM);
    sigaddset(&users, SIGHUP);
    sigaddset(&users, SIGQUIT);
    /* It can fail only for arguments that are wrong. */
    if (sigprocmask(SIG_BLOCK, &users, before) != 0)
        abort();
}

void signals_come(const sigset_t *before)
{
    if (sigprocmask(SIG_SETMASK, before, NULL) != 0)
        abort();
}

void signals_as_errors(void)
{
    const struct sigaction ignored = {.sa_handler = SIG_IGN};
    if (sigaction(SIGPIPE, &ignored, NULL) != 0 || sigaction(SIGXFSZ, &ignored, NULL) != 0)
        abort();
}
