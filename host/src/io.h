/* Whole reads and writes, and what went wrong with a file. */
#ifndef HOST_IO_H
#define HOST_IO_H

#include <stdbool.h>
#include <stddef.h>
#include <stdint.h>

/* What a program that calls this one sees. */
enum status {
    STATUS_DONE = 0,
    STATUS_REFUSED = 1,
    STATUS_USAGE = 2,
    STATUS_IO = 3,
    STATUS_DAMAGED = 4
};

/* Why something with a file was not done: words that follow the file's name, and errno (0 where it has nothing to add). */
struct fault {
    const char *words;
    int error;
};

/* Who starts this program may have closed its standard files. A store's file would then get the number of standard output, and the answer would be
   written into it. So the numbers are taken, in such a way that reading or writing them fails. */
bool take_standard_files(void);

/* Notes errno with the words, and answers false, so that a function can end with it. */
bool failed(struct fault *fault, const char *words);

/* Bytes that this program has allocated. */
struct bytes {
    uint8_t *at;
    size_t length;
};

/* Reads to the end of the file, but no more than `most` bytes. On success the caller frees them. */
bool read_whole(int file, size_t most, struct bytes *bytes);

/* Writes all of it, however often the system takes only a part. */
bool write_whole(int file, const void *bytes, size_t length);

/* Flushes a file or a folder to the disk. */
bool flush(int file);

#endif
