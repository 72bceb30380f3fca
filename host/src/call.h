/* One call of the program, as its arguments say it, and the row of the table of commands that it is. */
#ifndef HOST_CALL_H
#define HOST_CALL_H

#include <stdbool.h>

/* Options beside --json and --wait, which every command takes. */
enum option { OPTION_OVER = 1, OPTION_TSV = 2 };

struct call;

struct command {
    const char *name;
    int least, most;   /* how many arguments it takes */
    unsigned options;  /* which options it takes */
    const char *usage; /* its arguments */
    const char *about; /* what it does, for --help */
    int (*run)(const struct call *call);
};

struct call {
    const struct command *command;
    const char *store; /* the store's name as typed */
    char **arguments;
    int count;
    unsigned options;
    unsigned wait; /* seconds that a writer waits for another one */
    bool json;
};

/* The table's end has no name. */
extern const struct command commands[];

/* change.c */
int run_open(const struct call *call);
int run_import(const struct call *call);
int run_withdraw(const struct call *call);
int run_check(const struct call *call);

/* snapshot.c, table.c */
int run_snapshot(const struct call *call);
int run_table(const struct call *call);

/* look.c */
int run_files(const struct call *call);
int run_status(const struct call *call);
int run_verify(const struct call *call);

#endif
