/* A store kept in a file.
 *
 * The lock is that of the store's file itself. A change gives the name to another file, so whoever has got the lock of a file has to see whether the
 * name still leads to it; if not, somebody has changed the store, and he tries again with the new file. The new file is locked before it gets the
 * name, by the process that holds the old one, so there is no moment at which a second process could find it free. A separate file for the lock would
 * spare that second look, but it would lie about for ever, and who removes it, taking it for a leftover, lets two writers in.
 */
#include <errno.h>
#include <fcntl.h>
#include <inttypes.h>
#include <stdlib.h>
#include <string.h>
#include <time.h>
#include <unistd.h>

#include "fresh.h"
#include "lock.h"
#include "print.h"
#include "store_file.h"

/* How often a waiting writer looks. */
#define LOOK_NANOSECONDS 5000000L

static int tell_form(const struct call *call, enum form form, size_t length, const struct head *head)
{
    const char *name = call->store;
    switch (form) {
    case FORM_EMPTY:
        return tell(call, STATUS_DAMAGED, name, "damaged: the file is empty");
    case FORM_EARLY:
        return tell(call, STATUS_DAMAGED, name,
                    "a store without mark and checksum, as the example before this program kept it: "
                    "begin a new one and import its files");
    case FORM_CUT:
        return tell(call, STATUS_DAMAGED, name, "damaged: it ends after %zu bytes, within its head", length);
    case FORM_OTHER_LENGTH:
        return tell(call, STATUS_DAMAGED, name, "damaged: it has %zu bytes%s, its head says %" PRIu64, length,
                    length == FORM_MOST ? " or more" : "", form_length(head));
    case FORM_CHECKSUM:
        return tell(call, STATUS_DAMAGED, name, "damaged: its checksum is not that of its bytes");
    case FORM_OTHER_LAYOUT:
        return tell(call, STATUS_DAMAGED, name,
                    "a store of layout %" PRIu32 " (%" PRIu32 " numbers, %" PRIu32 " bytes); this program keeps layout %u (%u numbers, %u bytes)",
                    head->layout, head->numbers, head->bytes, ODM_LAYOUT, ODM_NUMBERS, ODM_BYTES);
    default:
        return tell(call, STATUS_DAMAGED, name, "no store: its mark is missing");
    }
}

/* Reads and judges an image: its form first, and then by the library whether it is a store's. */
static int read_image(const struct call *call, int file, struct image *image, struct head *head)
{
    struct bytes bytes;
    if (!read_whole(file, FORM_MOST, &bytes))
        return tell(call, STATUS_IO, call->store, "cannot be read: %s", strerror(errno));
    struct text text = {bytes.at, bytes.length};
    enum form form = form_read(text, head, image);
    free(bytes.at);
    if (form != FORM_GOOD)
        return tell_form(call, form, text.length, head);
    if (!image_is_valid(image))
        return tell(call, STATUS_DAMAGED, call->store, "damaged: refused %d (%s)", ODM_NOT_VALID, odm_refusal_text(ODM_NOT_VALID));
    return STATUS_DONE;
}

/* A pipe's name would make `open` wait for a writer; O_NONBLOCK keeps it from that, and does nothing to plain files. */
static int open_plain(const struct call *call, const char *path, int how, int *file)
{
    struct stat stat;
    *file = open(path, how | O_NONBLOCK | O_CLOEXEC);
    if (*file < 0)
        return tell(call, STATUS_IO, call->store, "cannot be opened: %s", strerror(errno));
    if (fstat(*file, &stat) == 0 && S_ISREG(stat.st_mode))
        return STATUS_DONE;
    close(*file);
    return tell(call, STATUS_IO, call->store, "is no plain file");
}

int store_read(const struct call *call, struct image *image, struct head *head)
{
    int file, status = open_plain(call, call->store, O_RDONLY, &file);
    if (status != STATUS_DONE)
        return status;
    status = read_image(call, file, image, head);
    close(file);
    return status;
}

static int64_t milliseconds(void)
{
    struct timespec now;
    /* Every system that this runs on has that clock. */
    if (clock_gettime(CLOCK_MONOTONIC, &now) != 0)
        abort();
    return (int64_t)now.tv_sec * 1000 + now.tv_nsec / 1000000;
}

static int tell_held(const struct call *call, int file)
{
    pid_t holder = lock_holder(file);
    if (holder)
        return tell(call, STATUS_IO, call->store, "held by process %ld; waited %u seconds", (long)holder, call->wait);
    return tell(call, STATUS_IO, call->store, "held by another process; waited %u seconds", call->wait);
}

/* Waits for the lock of this file, until the moment given. */
static int wait_for(const struct call *call, int file, int64_t until)
{
    const struct timespec look = {0, LOOK_NANOSECONDS};
    enum lock lock;
    while ((lock = lock_take(file)) == LOCK_HELD && milliseconds() < until)
        (void)nanosleep(&look, NULL);
    if (lock == LOCK_FAILED)
        return tell(call, STATUS_IO, call->store, "cannot be locked: %s", strerror(errno));
    return lock == LOCK_TAKEN ? STATUS_DONE : tell_held(call, file);
}

/* Locks the file that the name leads to. One that has lost the name while it was waited for is of no use any more. */
static int hold_named(const struct call *call, struct held *held)
{
    int64_t until = milliseconds() + (int64_t)call->wait * 1000;
    for (;;) {
        int status = open_plain(call, held->spot.path, O_RDWR, &held->file);
        if (status != STATUS_DONE)
            return status;
        status = wait_for(call, held->file, until);
        if (status == STATUS_DONE && spot_has(&held->spot, held->file))
            return STATUS_DONE;
        close(held->file);
        if (status != STATUS_DONE)
            return status;
    }
}

/* Leftovers are swept only by one who is about to write beside them anyway. */
static int settle(const struct call *call, struct held *held)
{
    int status = held->spot.there ? hold_named(call, held) : STATUS_DONE;
    if (status == STATUS_DONE)
        fresh_sweep(&held->spot);
    else
        spot_leave(&held->spot);
    return status;
}

static int find(const struct call *call, struct held *held)
{
    struct fault fault;
    held->file = -1;
    return spot_find(call->store, &held->spot, &fault) ? STATUS_DONE : tell_fault(call, STATUS_IO, call->store, &fault);
}

int store_hold(const struct call *call, struct held *held)
{
    int status = find(call, held);
    if (status != STATUS_DONE)
        return status;
    if (held->spot.there)
        return settle(call, held);
    spot_leave(&held->spot);
    return tell(call, STATUS_IO, call->store, "is not there (open begins a store)");
}

static int tell_there(const struct call *call)
{
    if (call->options & OPTION_OVER)
        return tell(call, STATUS_REFUSED, call->store, "refused: another process has begun it at the same moment");
    return tell(call, STATUS_REFUSED, call->store, "refused: it is there already (open --over begins a new store in its place)");
}

int store_claim(const struct call *call, struct held *held)
{
    int status = find(call, held);
    if (status != STATUS_DONE)
        return status;
    if (!held->spot.there || call->options & OPTION_OVER)
        return settle(call, held);
    spot_leave(&held->spot);
    return tell_there(call);
}

int store_load(const struct call *call, const struct held *held, struct image *image)
{
    struct head head;
    return read_image(call, held->file, image, &head);
}

static int tell_put(const struct call *call, enum put put, const struct fault *fault)
{
    switch (put) {
    case PUT_DONE:
        return STATUS_DONE;
    case PUT_THERE:
        return tell_there(call);
    case PUT_UNSURE:
        return tell_fault(call, STATUS_IO, call->store, fault);
    default:
        return tell(call, STATUS_IO, call->store, "%s: %s; nothing has changed", fault->words, strerror(fault->error));
    }
}

/* Mode and owner are looked at as late as can be: they are the user's, who may change them at any time. */
int store_save(const struct call *call, struct held *held, const struct image *image)
{
    uint8_t bytes[FORM_LENGTH];
    struct fault fault;
    int fresh;
    if (held->spot.there && fstat(held->file, &held->spot.stat) != 0)
        return tell(call, STATUS_IO, call->store, "cannot be looked at: %s; nothing has changed", strerror(errno));
    form_write(image, bytes);
    enum put put = fresh_put(&held->spot, bytes, sizeof bytes, &fresh, &fault);
    if (put == PUT_DONE || put == PUT_UNSURE) {
        if (held->file >= 0)
            close(held->file);
        held->file = fresh;
        held->spot.there = true;
    }
    return tell_put(call, put, &fault);
}

void store_leave(struct held *held)
{
    /* The lock goes with the file. All that was written was flushed before, so closing cannot lose anything. */
    if (held->file >= 0)
        close(held->file);
    spot_leave(&held->spot);
}
