/* The answers of the calls, as they are told. */
#ifndef HOST_ANSWER_H
#define HOST_ANSWER_H

#include "call.h"
#include "place.h"

/* What an answer is about. */
struct subject {
    const char *name;          /* as it stands at the line's front */
    const char *key;           /* under which the name stands in JSON, or NULL */
    struct text file;          /* the file that was judged, if there is one */
    const struct place *place; /* where its fault is, or NULL */
};

/* Prints an answer; the exit status is STATUS_DONE where it was accepted and has been printed. */
int tell_answer(const struct call *call, const struct subject *subject, odm_answer answer);

#endif
