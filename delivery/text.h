/* Texts of a delivery: one line at a time, split into words, so that a message can say where something is wrong. */
#ifndef TEXT_H
#define TEXT_H

#include "delivery.h"

#include <stdio.h>

struct text {
    char path[PATH_ROOM];
    FILE *f;
    size_t number; /* of the line, from 1 */
    char *line;
    size_t size;
};

void open_text(struct text *t, const char *folder, const char *name);

/* a message with file and line, and the end */
void bad_line(const struct text *t, const char *what, ...);

/* the first word of the next line that has one, NULL at the end of the file */
char *next_line(struct text *t);

/* the next word of that line, NULL if there is none */
char *next_word(void);

/* the next line begins with this name */
void expect(struct text *t, const char *name);

int64_t integer(const struct text *t, const char *name, const char *word);
double real(const struct text *t, const char *name, const char *word);

/* the rest of the line has n words, whole numbers or numbers; `what` asks for so many */
void read_words(const struct text *t, const char *name, const char *what, size_t n, int64_t *integers, double *reals);

/* a line of a name and n whole numbers */
void read_integers(struct text *t, const char *name, const char *what, int64_t *out, size_t n);

/* nothing follows what is named */
void close_text(struct text *t, const char *last);

#endif
