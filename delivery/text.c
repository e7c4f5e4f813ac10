#include "text.h"

#include <errno.h>
#include <math.h>
#include <stdarg.h>
#include <stdlib.h>
#include <string.h>

#define MOST_TEXT (16u << 20u) /* bytes; tables and operations of so many atoms have no more than a tenth of it */

void bad_line(const struct text *t, const char *what, ...)
{
    va_list args;
    va_start(args, what);
    fflush(stdout);
    fprintf(stderr, "%s: %s, line %zu: ", program, t->path, t->number);
    vfprintf(stderr, what, args);
    fputc('\n', stderr);
    va_end(args);
    exit(1);
}

void open_text(struct text *t, const char *folder, const char *name)
{
    long long bytes = 0;
    t->f = open_in(folder, name, t->path, &bytes);
    if (bytes > MOST_TEXT)
        fail(t->path, "it is larger than 16 megabytes, and no text of a delivery is");
    t->number = 0;
    t->line = NULL;
    t->size = 0;
}

char *next_word(void)
{
    return strtok(NULL, " \t\r\n");
}

/* whether a byte may stand in a text: ASCII, and of what is not printed only the tabulator and the ends of lines */
static int of_text(char c)
{
    return (c >= ' ' && c <= '~') || c == '\t' || c == '\r' || c == '\n';
}

char *next_line(struct text *t)
{
    errno = 0;
    for (;;) {
        t->number++;
        ssize_t length = getline(&t->line, &t->size, t->f);
        if (length < 0) {
            if (ferror(t->f))
                fail(t->path, strerror(errno));
            return NULL;
        }
        for (ssize_t k = 0; k < length; k++)
            if (!of_text(t->line[k]))
                bad_line(t, "it has a byte that is none of a text");
        char *word = strtok(t->line, " \t\r\n");
        if (word)
            return word;
    }
}

void expect(struct text *t, const char *name)
{
    const char *word = next_line(t);
    if (!word)
        bad_line(t, "the file ends where a line %s is expected", name);
    if (strcmp(word, name) != 0)
        bad_line(t, "it begins with %s where %s is expected", word, name);
}

void close_text(struct text *t, const char *last)
{
    const char *word = next_line(t);
    if (word)
        bad_line(t, "%s stands after %s, which is the last that is expected", word, last);
    free(t->line);
    fclose(t->f);
}

int64_t integer(const struct text *t, const char *name, const char *word)
{
    char *end;
    errno = 0;
    long long x = strtoll(word, &end, 10);
    if (*end != '\0' || errno != 0)
        bad_line(t, "%s has %s, which is no whole number", name, word);
    return x;
}

double real(const struct text *t, const char *name, const char *word)
{
    char *end;
    double x = strtod(word, &end);
    if (*end != '\0')
        bad_line(t, "%s has %s, which is no number", name, word);
    if (!isfinite(x))
        bad_line(t, "%s has %s, which is not finite", name, word);
    return x;
}

void read_words(const struct text *t, const char *name, const char *what, size_t n, int64_t *integers, double *reals)
{
    size_t got = 0;
    for (char *word = next_word(); word; word = next_word(), got++) {
        if (got < n && integers)
            integers[got] = integer(t, name, word);
        if (got < n && reals)
            reals[got] = real(t, name, word);
    }
    if (got != n)
        bad_line(t, "%s has %zu entries, %s asks for %zu", name, got, what, n);
}

void read_integers(struct text *t, const char *name, const char *what, int64_t *out, size_t n)
{
    expect(t, name);
    read_words(t, name, what, n, out, NULL);
}
