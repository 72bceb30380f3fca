/*
 * The transaction store, for C. Link with the archive that tools/archive writes (target/staticlib/libsnapshot.a); it is for x86-64 and the
 * calling convention of Linux there. host/ is a program around it that keeps a store in a file.
 *
 * A store is two buffers that the caller owns: ODM_NUMBERS numbers and ODM_BYTES bytes. Nothing else is kept anywhere, so a copy of both is a backup.
 * Open looks at their lengths and writes over anything; every other call judges the lengths, then the whole image, before all else. A refused call
 * changes no byte of any buffer; an accepted one leaves a valid image. No call keeps a pointer, allocates, or fails in another way than by its refusal
 * number. A buffer that a call may write (a pointer without const) must not overlap another of that call. A length counts numbers for the numbers and
 * bytes for all else; where it is 0 the pointer is not looked at and may be NULL. The stack that a call needs is below 512 KiB.
 */
#ifndef ODM_STORE_H
#define ODM_STORE_H

#include <stddef.h>
#include <stdint.h>

#ifdef __cplusplus
extern "C" {
#endif

/* The lengths of the two buffers of a store. The layout has another number whenever a length or the meaning of a place in them changes, so that who
   keeps images can tell them apart. */
#define ODM_LAYOUT 1u
#define ODM_NUMBERS 6341u
#define ODM_BYTES 54592u

/* A file is at most so long, and no snapshot is longer than this. */
#define ODM_FILE_MOST 262144u
#define ODM_SNAPSHOT_MOST 148480u

/* What a store holds at most: standing files, changes, bytes of changes, live entities; beyond it is refusal 13. */
#define ODM_FILES_MOST 64u
#define ODM_CHANGES_MOST 2048u
#define ODM_CHANGE_BYTES_MOST 49152u
#define ODM_LIVE_MOST 512u

/* Refusal numbers; 0 is accepted. */
enum odm_refusal {
    ODM_ACCEPTED = 0,
    ODM_BUFFER_LENGTH = 1,     /* a store buffer of another length */
    ODM_NOT_VALID = 2,         /* the image is not valid: no store, or damaged */
    ODM_FILE_TOO_LONG = 3,     /* over 262,144 bytes */
    ODM_WRITTEN_FORM = 4,      /* written form broken, attribute twice, wrong or missing closing tag */
    ODM_ELEMENT = 5,           /* element unknown or under another parent */
    ODM_ATTRIBUTE = 6,         /* attribute unknown, or a required one missing */
    ODM_VALUE = 7,             /* value not of its form */
    ODM_OTHER_STUDY = 8,       /* not this store's study or version */
    ODM_SERIES = 9,            /* series broken */
    ODM_WORD = 10,             /* transaction word missing, not Remove under Remove, not Insert in a Snapshot */
    ODM_ALREADY_LIVE = 11,     /* already live */
    ODM_NOT_LIVE = 12,         /* not live */
    ODM_LIMIT = 13,            /* over 64 files, 2,048 changes, 49,152 change bytes or 512 live */
    ODM_OUTPUT_TOO_SHORT = 14, /* output shorter than the snapshot */
    ODM_NOT_LAST = 15,         /* not the last standing FileOID */
    ODM_MIXED_ITEMS = 16       /* typed and untyped items in one file */
};

/* A refusal number in words. */
static inline const char *odm_refusal_text(uint32_t refusal)
{
    static const char *const words[] = {
        "accepted",
        "a store buffer of another length",
        "the image is not valid",
        "file too long",
        "written form broken, attribute twice, wrong or missing closing tag",
        "element unknown or under another parent",
        "attribute unknown or a required one missing",
        "value not of its form",
        "not this store's study or version",
        "series broken",
        "word missing on a Transactional SubjectData, not Remove under Remove, not Insert in a Snapshot",
        "already live",
        "not live",
        "over 64 files, 2,048 changes, 49,152 change bytes or 512 live",
        "output shorter than the snapshot",
        "not the last standing FileOID",
        "typed and untyped items in one file",
    };
    return refusal < sizeof words / sizeof *words ? words[refusal] : "unknown refusal";
}

/* What a call answers: a refusal number, and a count, which is 0 where it was refused. */
typedef struct {
    uint32_t refusal;
    uint32_t count;
} odm_answer;

/* Writes the empty store of a study and a version over anything; the count is 0. Refuses with 1, 7 (study and version are 1 to 64 name bytes). */
odm_answer odm_open(uint32_t *numbers, size_t numbers_length, uint8_t *bytes, size_t bytes_length,
                    const uint8_t *study, size_t study_length, const uint8_t *version, size_t version_length);

/* Takes a file; the count is the changes that it added. Refuses with 1, 2, 3, then by the file with 4 to 13 or 16. */
odm_answer odm_import(uint32_t *numbers, size_t numbers_length, uint8_t *bytes, size_t bytes_length,
                      const uint8_t *file, size_t file_length);

/* Strikes the last standing file, named by its FileOID; the count is the changes that went with it. Refuses with 1, 2, 15. */
odm_answer odm_withdraw(uint32_t *numbers, size_t numbers_length, uint8_t *bytes, size_t bytes_length,
                        const uint8_t *file_oid, size_t file_oid_length);

/* Writes a snapshot of the live entities under a FileOID and a date (YYYY-MM-DDThh:mm:ss); the count is the bytes written, the rest of the
   output is as before. Refuses with 1, 2, 7, 14. */
odm_answer odm_snapshot(const uint32_t *numbers, size_t numbers_length, const uint8_t *bytes, size_t bytes_length,
                        const uint8_t *file_oid, size_t file_oid_length, const uint8_t *date, size_t date_length,
                        uint8_t *output, size_t output_length);

#ifdef __cplusplus
}
#endif

#endif
