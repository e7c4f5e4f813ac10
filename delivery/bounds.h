/* What a job is told beside the delivery: whose it is, and the bounds by which it is judged. */
#ifndef BOUNDS_H
#define BOUNDS_H

#include "verdicts.h"

/* The measures that have a bound, each a part of the set's largest number; docs/DELIVERIES.md has the reason of each default. */
enum measure { ORDERS, DRIFT, CHANGE, CRYSTAL, LEFT, MEASURES };

struct bounds {
    double at_most[MEASURES];
};

struct job {
    char set[16];      /* its number, or "not stated" */
    char unit[WORDS];  /* in words, or "not stated" */
    struct bounds bounds;
};

/* job.txt of a folder, in which any line may be missing; without it nothing is stated, and the bounds are the defaults */
void read_job(const char *folder, struct job *j);

/* as a certificate has them: a bound that is not the default is shown beside it */
void bounds_words(const struct bounds *b, char *words);

/* the bounds of such words; 0 if they are not of that form, or one is too wide to judge anything */
int parse_bounds(const char *words, struct bounds *b);

/* whether one of them is wider than its default */
int wider(const struct bounds *b);

#endif
