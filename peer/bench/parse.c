/*
 * How long a parser takes merely to parse: parse ROUNDS SECONDS FILE
 * prints the least and the median time in microseconds, and whether the file was well-formed.
 *
 * Built once with -DWITH_EXPAT and once with -DWITH_LIBXML2. Each calls back for every element, and counts.
 */
#define _POSIX_C_SOURCE 200809L
#include <stdio.h>
#include <stdlib.h>
#include <string.h>
#include <time.h>

static unsigned long elements;

#if defined WITH_EXPAT

#include <expat.h>

static void XMLCALL element(void *unused, const XML_Char *name, const XML_Char **attributes)
{
    (void)unused, (void)name, (void)attributes;
    elements++;
}

static int parse(const char *text, int length)
{
    XML_Parser parser = XML_ParserCreate(NULL);
    if (!parser)
        return 0;
    XML_SetStartElementHandler(parser, element);
    int well = XML_Parse(parser, text, length, 1) == XML_STATUS_OK;
    XML_ParserFree(parser);
    return well;
}

#elif defined WITH_LIBXML2

#include <libxml/parser.h>

static void element(void *unused, const xmlChar *name, const xmlChar *prefix, const xmlChar *uri, int namespaces,
                    const xmlChar **namespace, int attributes, int defaulted, const xmlChar **attribute)
{
    (void)unused, (void)name, (void)prefix, (void)uri, (void)namespaces, (void)namespace, (void)attributes;
    (void)defaulted, (void)attribute;
    elements++;
}

/* Without a tree, and silent about faults. */
static int parse(const char *text, int length)
{
    xmlSAXHandler handler;
    memset(&handler, 0, sizeof handler);
    handler.initialized = XML_SAX2_MAGIC;
    handler.startElementNs = element;
    return xmlSAXUserParseMemory(&handler, NULL, text, length) == 0;
}

#else
#error "choose a parser: -DWITH_EXPAT or -DWITH_LIBXML2"
#endif

static double now(void)
{
    struct timespec t;
    clock_gettime(CLOCK_MONOTONIC, &t);
    return (double)t.tv_sec * 1e6 + (double)t.tv_nsec / 1e3;
}

static int ascending(const void *one, const void *other)
{
    double a = *(const double *)one, b = *(const double *)other;
    return (a > b) - (a < b);
}

/* The whole file, exactly as long; NULL if it cannot be read. */
static char *slurp(const char *path, int *length)
{
    FILE *f = fopen(path, "rb");
    char *text = NULL;
    long end;
    if (f && fseek(f, 0, SEEK_END) == 0 && (end = ftell(f)) > 0 && (text = malloc((size_t)end))) {
        rewind(f);
        *length = (int)fread(text, 1, (size_t)end, f);
    }
    if (f)
        fclose(f);
    return text;
}

int main(int argc, char **argv)
{
    if (argc != 4)
        return 2;
    int rounds = atoi(argv[1]), done = 0, well = 0, length = 0;
    double end = now() + atof(argv[2]) * 1e6;
    char *text = slurp(argv[3], &length);
    double *times = malloc((size_t)(rounds > 0 ? rounds : 1) * sizeof *times);
    if (!text || !times)
        return 2;
    do {
        double start = now();
        well = parse(text, length);
        times[done++] = now() - start;
    } while (done < rounds && now() < end);
    qsort(times, (size_t)done, sizeof *times, ascending);
    printf("%.3f %.3f %s\n", times[0], times[done / 2], well ? "well-formed" : "refused");
    free(times);
    free(text);
    return 0;
}
