/* What the program says: answers on standard output, troubles on standard error, or with --json both on standard output, one object a line. */
#ifndef HOST_PRINT_H
#define HOST_PRINT_H

#include <stdio.h>

#include "call.h"
#include "image.h"
#include "io.h"

/* A text in the making. Nothing is held back once it is printed, so what was said has been said, whatever happens next. */
struct page {
    FILE *to;
    char *text;
    size_t length;
};

/* Where there is no memory for a few words the program ends here, with STATUS_IO. */
FILE *page_begin(struct page *page);

/* Prints the text and frees it. The status is the one given, or STATUS_IO where standard output does not take it. */
int page_print(struct page *page, int status);

/* Prints bytes as they are. */
int print_bytes(const void *bytes, size_t length, int status);

/* A string of JSON, quotes and all. Bytes that are no UTF-8 are shown by the replacement character. */
void json_text(FILE *to, struct text text);
void json_word(FILE *to, const char *word);

/* Tells a trouble, and answers the status, so that a function can end with it. The words follow the name of what is concerned. */
int tell(const struct call *call, int status, const char *what, const char *format, ...)
    __attribute__((format(printf, 4, 5)));
int tell_fault(const struct call *call, int status, const char *what, const struct fault *fault);

#endif
