/* The command that writes a snapshot, to standard output or to a file of its own. */
#include <inttypes.h>
#include <string.h>
#include <unistd.h>

#include "answer.h"
#include "fresh.h"
#include "print.h"
#include "signals.h"
#include "store_file.h"

/* In the same safe way as a store. */
static int put_text(const struct call *call, const char *name, const struct spot *spot, struct text text)
{
    struct fault fault;
    int file = -1;
    fresh_sweep(spot);
    enum put put = fresh_put(spot, text.at, text.length, &file, &fault);
    if (file >= 0)
        close(file);
    if (put == PUT_THERE)
        return tell(call, STATUS_REFUSED, name, "refused: it is there already");
    return put == PUT_DONE ? STATUS_DONE : tell_fault(call, STATUS_IO, name, &fault);
}

static bool is_store(const struct call *call, const struct spot *spot)
{
    struct spot store;
    struct fault fault;
    bool same = spot_find(call->store, &store, &fault) && strcmp(spot->path, store.path) == 0;
    spot_leave(&store);
    return same;
}

/* A snapshot in a file of its own: over another file only if told so, and over the store never. */
static int put_snapshot(const struct call *call, const char *name, struct text text)
{
    struct spot spot;
    struct fault fault;
    int status;
    if (!spot_find(name, &spot, &fault))
        return tell_fault(call, STATUS_IO, name, &fault);
    if (is_store(call, &spot))
        status = tell(call, STATUS_REFUSED, name, "refused: it is the store itself");
    else if (spot.there && !(call->options & OPTION_OVER))
        status = tell(call, STATUS_REFUSED, name, "refused: it is there already (--over writes over it)");
    else
        status = put_text(call, name, &spot, text);
    spot_leave(&spot);
    return status;
}

/* To standard output goes the snapshot and no word beside it; with --json it stands within the answer. */
static int print_snapshot(const struct call *call, odm_answer answer, struct text text)
{
    struct page page;
    if (!call->json)
        return print_bytes(text.at, text.length, STATUS_DONE);
    FILE *to = page_begin(&page);
    fputs("{\"command\":\"snapshot\",\"file_oid\":", to);
    json_word(to, call->arguments[0]);
    fprintf(to, ",\"accepted\":true,\"refusal\":0,\"words\":\"%s\",\"count\":%" PRIu32 ",\"snapshot\":", odm_refusal_text(0), answer.count);
    json_text(to, text);
    fputs("}\n", to);
    return page_print(&page, STATUS_DONE);
}

static int keep_snapshot(const struct call *call, const struct subject *subject, odm_answer answer, struct text text)
{
    sigset_t before;
    signals_wait(&before);
    int status = put_snapshot(call, call->arguments[2], text);
    if (status == STATUS_DONE)
        status = tell_answer(call, subject, answer);
    signals_come(&before);
    return status;
}

int run_snapshot(const struct call *call)
{
    const char *oid = call->arguments[0], *date = call->arguments[1];
    const struct subject subject = {.name = oid, .key = "file_oid"};
    bool to_file = call->count == 3 && strcmp(call->arguments[2], "-") != 0;
    struct image image;
    struct head head;
    uint8_t output[ODM_SNAPSHOT_MOST];
    int status = store_read(call, &image, &head);
    if (status != STATUS_DONE)
        return status;
    odm_answer answer = image_snapshot(&image, text_of(oid), text_of(date), output, sizeof output);
    struct text text = {output, answer.count};
    if (answer.refusal != ODM_ACCEPTED)
        return call->json || to_file ? tell_answer(call, &subject, answer)
                                     : tell(call, STATUS_REFUSED, oid, "refused %" PRIu32 " (%s)", answer.refusal, odm_refusal_text(answer.refusal));
    return to_file ? keep_snapshot(call, &subject, answer, text) : print_snapshot(call, answer, text);
}
