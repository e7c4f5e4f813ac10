/* What the library says of a delivery, in the words that the job prints and a certificate holds, and whether that is a fault. */
#ifndef VERDICTS_H
#define VERDICTS_H

#include "delivery.h"

/* room for the words of a verdict */
#define WORDS 4096

struct verdict {
    char words[WORDS];
    int fault;
};

/* what a crystal's verdict says where there is nothing to judge by */
#define NO_OPERATIONS "no operations are given"

/* the shift tables keep every rule */
void tables_verdict(const struct delivery *d, struct verdict *v);

/* every shift sends the positions as its row of the tables says, and each atom to one of its element */
void positions_verdict(const struct delivery *d, struct verdict *v);

/* elements, volume and lengths, which are no fault */
void cell_verdict(const struct delivery *d, struct verdict *v);

/* every operation of the crystal is orthogonal, sends the positions as its row says and each atom to one of its element; together they are a group */
void operations_verdict(const struct delivery *d, struct verdict *v);

/* the largest number and the sum of squares; a fault: a number that is not finite, or no possible largest number */
void size_verdict(const struct delivery *d, const struct set *s, struct verdict *v);

/* The measures: a worst value as a part of the largest number, a fault above the bound, and where it is. */
void orders_verdict(const struct delivery *d, const struct set *s, double at_most, struct verdict *v);
void drift_verdict(const struct delivery *d, const struct set *s, double at_most, struct verdict *v);
void crystal_verdict(const struct delivery *d, const struct set *s, double at_most, struct verdict *v);
void change_verdict(const struct delivery *d, const struct set *before, const struct set *after, double at_most, struct verdict *v);

/* all orders of any legs read out the same bits */
void audit_verdict(const struct delivery *d, const struct set *s, struct verdict *v);

/* no displaced atom of second order is pushed on: the smallest number on the diagonal of an on-site block is above 0 */
void on_site_verdict(const struct delivery *d, const struct set *s, struct verdict *v);

/* whether words of a measure, as a certificate states them, are above their bound, or have another bound than this */
int states_fault(const char *words, double at_most);

#endif
