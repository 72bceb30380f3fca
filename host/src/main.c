/* odm_store: a store of clinical data files kept in a file. The commands, and how they are typed. */
#include <stdlib.h>
#include <string.h>

#include "call.h"
#include "print.h"
#include "signals.h"

#define PROGRAM_VERSION "1.0"
#define WAIT_SECONDS 10
#define WAIT_MOST 86400
#define ANY_NUMBER 1000000

const struct command commands[] = {
    {"open", 2, 2, OPTION_OVER, "STUDY VERSION [--over]", "begin a store; --over: in the place of one that is there", run_open},
    {"import", 1, ANY_NUMBER, 0, "FILE ..", "take files, up to the first that is refused; - is standard input", run_import},
    {"withdraw", 1, 1, 0, "FILEOID", "strike the last standing file", run_withdraw},
    {"snapshot", 2, 3, OPTION_OVER, "FILEOID DATE [OUT] [--over]", "write the live entities as a file, to standard output or OUT", run_snapshot},
    {"check", 1, ANY_NUMBER, 0, "FILE ..", "tell what import would answer, and keep nothing", run_check},
    {"files", 0, 0, OPTION_TSV, "[--tsv]", "list the standing files", run_files},
    {"table", 0, 0, OPTION_TSV, "[--tsv]", "list the live entities and their values", run_table},
    {"status", 0, 0, 0, "", "tell how much of the store is used", run_status},
    {"verify", 0, 0, 0, "", "tell whether the store is whole and valid", run_verify},
    {0},
};

static const struct {
    const char *name;
    unsigned option;
} options[] = {{"--over", OPTION_OVER}, {"--tsv", OPTION_TSV}};

static int print_help(void)
{
    struct page page;
    FILE *to = page_begin(&page);
    fputs("usage: odm_store STORE COMMAND ..\n\n", to);
    for (const struct command *c = commands; c->name; c++)
        fprintf(to, "  %-9s %-28s %s\n", c->name, c->usage, c->about);
    fprintf(to,
            "\n  --json       answers as JSON, one object a line\n"
            "  --wait N     wait N seconds for another process that changes the store (%d)\n"
            "  --help, --version\n\n"
            "exit status: 0 accepted, 1 refused, 2 usage, 3 input or output, 4 damaged store\n",
            WAIT_SECONDS);
    return page_print(&page, STATUS_DONE);
}

static int print_version(void)
{
    struct page page;
    fprintf(page_begin(&page), "odm_store %s, layout %u (%u numbers, %u bytes)\n", PROGRAM_VERSION, ODM_LAYOUT, ODM_NUMBERS, ODM_BYTES);
    return page_print(&page, STATUS_DONE);
}

/* A whole number of seconds. */
static bool read_wait(const char *word, unsigned *seconds)
{
    char *end;
    if (!word || *word < '0' || *word > '9')
        return false;
    unsigned long number = strtoul(word, &end, 10);
    if (*end != '\0' || number > WAIT_MOST)
        return false;
    *seconds = (unsigned)number;
    return true;
}

/* Notes an option, or answers false. `next` is the word behind it, and is taken with --wait. */
static bool read_option(struct call *call, const char *word, const char *next, bool *taken)
{
    *taken = false;
    if (strcmp(word, "--json") == 0)
        return call->json = true;
    if (strcmp(word, "--wait") == 0)
        return *taken = read_wait(next, &call->wait);
    for (size_t i = 0; i < sizeof options / sizeof *options; i++)
        if (strcmp(word, options[i].name) == 0) {
            call->options |= options[i].option;
            return true;
        }
    return false;
}

/* Sorts the words: options may stand anywhere before --, the others keep their order. Answers the option that is not known, or NULL. */
static const char *sort_words(char **words, struct call *call, char **others, int *count)
{
    bool only_others = false, taken;
    for (; *words; words++) {
        if (only_others || strncmp(*words, "--", 2) != 0)
            others[(*count)++] = *words;
        else if (strcmp(*words, "--") == 0)
            only_others = true;
        else if (!read_option(call, *words, words[1], &taken))
            return *words;
        else if (taken)
            words++;
    }
    return NULL;
}

static const struct command *find_command(const char *name)
{
    for (const struct command *c = commands; c->name; c++)
        if (strcmp(c->name, name) == 0)
            return c;
    return NULL;
}

static int wrong_usage(const struct call *call, const char *what, const char *words)
{
    return tell(call, STATUS_USAGE, what, "%s; see odm_store --help", words);
}

static bool names_input_twice(const struct call *call)
{
    int times = 0;
    for (int i = 0; i < call->count; i++)
        times += strcmp(call->arguments[i], "-") == 0;
    return times > 1;
}

static int run(struct call *call, char **others, int count)
{
    if (count < 2)
        return wrong_usage(call, "usage", "a store and a command are needed");
    call->store = others[0];
    call->arguments = others + 2;
    call->count = count - 2;
    call->command = find_command(others[1]);
    if (!call->command)
        return wrong_usage(call, others[1], "no such command");
    if (call->count < call->command->least || call->count > call->command->most)
        return tell(call, STATUS_USAGE, "usage", "odm_store STORE %s %s", call->command->name, call->command->usage);
    if (call->options & ~call->command->options)
        return wrong_usage(call, call->command->name, "it takes no such option");
    if (names_input_twice(call))
        return wrong_usage(call, "-", "standard input can be read only once");
    return call->command->run(call);
}

static bool is_asked(char **words, const char *option)
{
    for (; *words && strcmp(*words, "--") != 0; words++)
        if (strcmp(*words, option) == 0)
            return true;
    return false;
}

int main(int argc, char **argv)
{
    struct call call = {.wait = WAIT_SECONDS};
    int count = 0;
    if (!take_standard_files())
        return STATUS_IO;
    signals_as_errors();
    if (is_asked(argv, "--help"))
        return print_help();
    if (is_asked(argv, "--version"))
        return print_version();
    char **others = calloc((size_t)argc + 1, sizeof *others);
    if (!others)
        return tell(&call, STATUS_IO, "arguments", "no memory for them");
    const char *unknown = sort_words(argc > 0 ? argv + 1 : argv, &call, others, &count);
    int status = unknown ? wrong_usage(&call, unknown, "no such option, or a number of seconds is missing") : run(&call, others, count);
    free(others);
    return status;
}
