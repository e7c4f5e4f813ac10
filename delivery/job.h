/* What the programs share that symmetrize: faults, refusals, and the calls. */
#ifndef JOB_H
#define JOB_H

#include "delivery.h"

/* how many faults were told */
extern size_t faults;

/* tells a fault of the delivery, on standard output */
void fault(const char *what, ...);

/* a refusal ends the program; nothing has been written then */
void must(uint8_t answer, const char *what);

/* makes all orders of the legs of a set of third order of `len` numbers the same, by the tables of `d`, but for nsym_list; `done`: n_patom * n_satom *
   n_satom bytes to work in */
uint8_t symmetrize_third(const struct delivery *d, const int64_t *nsym_list, double *fc3, size_t len, uint8_t *done);

/* symmetrizes a set of a delivery */
void symmetrize(const struct delivery *d, struct set *s);

#endif
