/* The lock of an open file: one process has it, and it dies with the process, however that ends. */
#ifndef HOST_LOCK_H
#define HOST_LOCK_H

#include <stdbool.h>
#include <sys/types.h>

enum lock { LOCK_TAKEN, LOCK_HELD, LOCK_FAILED };

/* Takes the lock if nobody has it; never waits. LOCK_FAILED leaves errno. */
enum lock lock_take(int file);

/* The process that has it; 0 where that cannot be told. */
pid_t lock_holder(int file);

#endif
