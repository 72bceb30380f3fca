/* What the program says. */
#include <errno.h>
#include <stdarg.h>
#include <stdlib.h>
#include <string.h>
#include <unistd.h>

#include "print.h"

static void tell_silent(const char *why)
{
    fprintf(stderr, "odm_store: standard output: cannot be written, what was done stays done: %s\n", why);
}

FILE *page_begin(struct page *page)
{
    page->text = NULL;
    page->length = 0;
    page->to = open_memstream(&page->text, &page->length);
    if (!page->to) {
        tell_silent(strerror(errno));
        exit(STATUS_IO);
    }
    return page->to;
}

int page_print(struct page *page, int status)
{
    bool whole = !ferror(page->to);
    whole = fclose(page->to) == 0 && whole;
    if (whole) {
        status = print_bytes(page->text, page->length, status);
    } else {
        tell_silent(strerror(ENOMEM));
        status = STATUS_IO;
    }
    free(page->text);
    return status;
}

int print_bytes(const void *bytes, size_t length, int status)
{
    if (write_whole(STDOUT_FILENO, bytes, length))
        return status;
    tell_silent(strerror(errno));
    return STATUS_IO;
}

/* The characters of UTF-8 by their first byte, with what the second may be: the Unicode standard's table of well-formed sequences. All further bytes
   are 80 to bf. */
static const struct {
    uint8_t first, last, second_first, second_last, length;
} characters[] = {
    {0x00, 0x7f, 0x00, 0x00, 1}, {0xc2, 0xdf, 0x80, 0xbf, 2}, {0xe0, 0xe0, 0xa0, 0xbf, 3}, {0xe1, 0xec, 0x80, 0xbf, 3}, {0xed, 0xed, 0x80, 0x9f, 3},
    {0xee, 0xef, 0x80, 0xbf, 3}, {0xf0, 0xf0, 0x90, 0xbf, 4}, {0xf1, 0xf3, 0x80, 0xbf, 4}, {0xf4, 0xf4, 0x80, 0x8f, 4},
};

/* How many bytes the character here takes, 0 where the bytes are no UTF-8. */
static size_t character(const uint8_t *at, size_t left)
{
    size_t row = 0;
    while (row < sizeof characters / sizeof *characters && (at[0] < characters[row].first || at[0] > characters[row].last))
        row++;
    if (row == sizeof characters / sizeof *characters || characters[row].length > left)
        return 0;
    if (characters[row].length > 1 && (at[1] < characters[row].second_first || at[1] > characters[row].second_last))
        return 0;
    for (size_t i = 2; i < characters[row].length; i++)
        if ((at[i] & 0xc0) != 0x80)
            return 0;
    return characters[row].length;
}

/* One character inside a string of JSON. */
static void json_character(FILE *to, const uint8_t *at, size_t length)
{
    if (length == 0)
        fputs("\\ufffd", to);
    else if (at[0] == '"' || at[0] == '\\')
        fprintf(to, "\\%c", at[0]);
    else if (at[0] == '\n')
        fputs("\\n", to);
    else if (at[0] < 0x20 || at[0] == 0x7f)
        fprintf(to, "\\u%04x", at[0]);
    else
        fwrite(at, 1, length, to);
}

void json_text(FILE *to, struct text text)
{
    fputc('"', to);
    for (size_t i = 0; i < text.length;) {
        size_t length = character(text.at + i, text.length - i);
        json_character(to, text.at + i, length);
        i += length ? length : 1;
    }
    fputc('"', to);
}

void json_word(FILE *to, const char *word)
{
    json_text(to, text_of(word));
}

static int tell_json(const struct call *call, int status, const char *what, const char *words)
{
    struct page page;
    FILE *to = page_begin(&page);
    fputs("{\"command\":", to);
    if (call->command)
        json_word(to, call->command->name);
    else
        fputs("null", to);
    fprintf(to, ",\"status\":%d,\"what\":", status);
    json_word(to, what);
    fputs(",\"trouble\":", to);
    json_word(to, words);
    fputs("}\n", to);
    return page_print(&page, status);
}

int tell(const struct call *call, int status, const char *what, const char *format, ...)
{
    char words[1024];
    va_list arguments;
    va_start(arguments, format);
    vsnprintf(words, sizeof words, format, arguments);
    va_end(arguments);
    if (call->json)
        return tell_json(call, status, what, words);
    fprintf(stderr, "odm_store: %s: %s\n", what, words);
    return status;
}

int tell_fault(const struct call *call, int status, const char *what, const struct fault *fault)
{
    if (fault->error == 0)
        return tell(call, status, what, "%s", fault->words);
    return tell(call, status, what, "%s: %s", fault->words, strerror(fault->error));
}
