/* The commands that change a store, and the one that only asks what a change would be answered. */
#include <errno.h>
#include <fcntl.h>
#include <stdlib.h>
#include <string.h>
#include <unistd.h>

#include "answer.h"
#include "print.h"
#include "signals.h"
#include "store_file.h"

/* Saves, and only then tells the answer. */
static int keep(const struct call *call, struct held *held, const struct image *image, const struct subject *subject, odm_answer answer)
{
    sigset_t before;
    signals_wait(&before);
    int status = store_save(call, held, image);
    if (status == STATUS_DONE)
        status = tell_answer(call, subject, answer);
    signals_come(&before);
    return status;
}

int run_open(const struct call *call)
{
    const struct subject subject = {.name = "open"};
    struct image image;
    struct held held;
    odm_answer answer = image_open(&image, text_of(call->arguments[0]), text_of(call->arguments[1]));
    if (answer.refusal != ODM_ACCEPTED)
        return tell_answer(call, &subject, answer);
    int status = store_claim(call, &held);
    if (status != STATUS_DONE)
        return status;
    status = keep(call, &held, &image, &subject, answer);
    store_leave(&held);
    return status;
}

int run_withdraw(const struct call *call)
{
    const struct subject subject = {.name = call->arguments[0], .key = "file_oid"};
    struct image image;
    struct held held;
    int status = store_hold(call, &held);
    if (status != STATUS_DONE)
        return status;
    status = store_load(call, &held, &image);
    if (status == STATUS_DONE) {
        odm_answer answer = image_withdraw(&image, text_of(subject.name));
        status = answer.refusal == ODM_ACCEPTED ? keep(call, &held, &image, &subject, answer) : tell_answer(call, &subject, answer);
    }
    store_leave(&held);
    return status;
}

/* One byte more than a file may have, so that one that is too long is seen to be. */
static int read_file(const struct call *call, const char *name, struct bytes *bytes)
{
    bool standard = strcmp(name, "-") == 0;
    int file = standard ? STDIN_FILENO : open(name, O_RDONLY | O_CLOEXEC);
    if (file < 0)
        return tell(call, STATUS_IO, name, "cannot be opened: %s", strerror(errno));
    bool whole = read_whole(file, ODM_FILE_MOST + 1, bytes);
    int error = errno;
    if (!standard)
        close(file);
    return whole ? STATUS_DONE : tell(call, STATUS_IO, name, "cannot be read: %s", strerror(error));
}

static void drop_files(struct bytes *files, int count)
{
    for (int i = 0; i < count; i++)
        free(files[i].at);
    free(files);
}

/* All files are read before the first one is taken: the store is not held while a pipe is slow, and a name that is wrong is told before anything has
   changed. */
static int read_files(const struct call *call, struct bytes **files)
{
    *files = calloc((size_t)call->count, sizeof **files);
    if (!*files)
        return tell(call, STATUS_IO, call->store, "no memory for the files");
    for (int i = 0; i < call->count; i++) {
        int status = read_file(call, call->arguments[i], *files + i);
        if (status != STATUS_DONE) {
            drop_files(*files, call->count);
            return status;
        }
    }
    return STATUS_DONE;
}

/* Takes a file into the store in memory, and into the one that is held, if one is. A refusal leaves the image as it was, so that the place of the fault
   is looked for in the store that refused it. */
static int take(const struct call *call, struct held *held, struct image *image, const char *name, const struct bytes *bytes)
{
    struct subject subject = {.name = name, .key = "file", .file = {bytes->at, bytes->length}};
    odm_answer answer = image_import(image, subject.file);
    if (answer.refusal != ODM_ACCEPTED) {
        struct place place = place_of(image, subject.file, answer.refusal);
        subject.place = &place;
        return tell_answer(call, &subject, answer);
    }
    return held ? keep(call, held, image, &subject, answer) : tell_answer(call, &subject, answer);
}

/* Each file is saved before the next is looked at: what was taken stays, whatever comes of the next. The first that is not taken is the last. */
static int take_all(const struct call *call, struct held *held, struct image *image, const struct bytes *files)
{
    int status = STATUS_DONE;
    for (int i = 0; i < call->count && status == STATUS_DONE; i++)
        status = take(call, held, image, call->arguments[i], files + i);
    return status;
}

int run_import(const struct call *call)
{
    struct image image;
    struct bytes *files;
    struct held held;
    int status = read_files(call, &files);
    if (status != STATUS_DONE)
        return status;
    status = store_hold(call, &held);
    if (status == STATUS_DONE) {
        status = store_load(call, &held, &image);
        if (status == STATUS_DONE)
            status = take_all(call, &held, &image, files);
        store_leave(&held);
    }
    drop_files(files, call->count);
    return status;
}

int run_check(const struct call *call)
{
    struct image image;
    struct head head;
    struct bytes *files;
    int status = read_files(call, &files);
    if (status != STATUS_DONE)
        return status;
    status = store_read(call, &image, &head);
    if (status == STATUS_DONE)
        status = take_all(call, NULL, &image, files);
    drop_files(files, call->count);
    return status;
}
