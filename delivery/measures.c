/* The verdicts on sets: sizes, and the measures that have a bound. */
#include "verdicts.h"
#include "gullyfork.h"
#include "progress.h"
#include "words.h"

#include <math.h>
#include <stdio.h>
#include <stdlib.h>
#include <string.h>

/* Force constants in any unit in use lie far within these; numbers whose bytes stand in the wrong order do not. */
#define LARGEST 1e30
#define SMALLEST 1e-290

/* ---- words */

#define LIST 96   /* bytes of a list of four numbers */
#define PLACE 320 /* of a place in words */
#define WHERE 640 /* of a value and its place */

/* a list of numbers with blanks between */
static void list_words(const size_t *numbers, size_t n, char out[LIST])
{
    size_t at = 0;
    for (size_t k = 0; k < n; k++)
        at += (size_t)snprintf(out + at, LIST - at, "%s%zu", k ? " " : "", numbers[k]);
}

/* where a number of a set stands: its atoms and its directions */
static void place_words(const struct delivery *d, const struct set *s, size_t place, char out[PLACE])
{
    size_t atoms[4], directions[4], n = s->order;
    char rest[LIST], to[LIST];
    for (size_t k = n; k-- > 0; place /= 3)
        directions[k] = place % 3;
    for (size_t k = n; k-- > 1; place /= d->n_satom)
        atoms[k] = place % d->n_satom;
    list_words(atoms + 1, n - 1, rest);
    list_words(directions, n, to);
    snprintf(out, PLACE, "atoms %zu%s %s, directions %s", place, s->full ? "" : " (of the primitive cell)", rest, to);
}

/* the permutation of so many pairs that has this number, from 0 1 2 .. on by rising digits */
static void order_words(size_t n, size_t index, char out[LIST])
{
    size_t left[4] = {0, 1, 2, 3}, taken[4], ways = 1;
    for (size_t k = 2; k <= n; k++)
        ways *= k;
    for (size_t k = 0; k < n; k++) {
        ways /= n - k;
        size_t q = index / ways % (n - k);
        taken[k] = left[q];
        memmove(left + q, left + q + 1, (3 - q) * sizeof *left);
    }
    list_words(taken, n, out);
}

static double largest_of(const struct set *s)
{
    double largest = 0.0;
    for (size_t q = 0; q < s->count; q++)
        if (fabs(s->numbers[q]) > largest)
            largest = fabs(s->numbers[q]);
    return largest;
}

/* the words of a measure; `where` says what the value is, and where */
static void judged(struct verdict *v, uint8_t answer, double value, double largest, double at_most, const char *where)
{
    double part = value == 0.0 ? 0.0 : value / largest;
    char text[NUMBER];
    if (GF_REFUSED(answer)) {
        snprintf(v->words, WORDS, "refused, %d: %s", answer, gf_words(answer));
        v->fault = 1;
        return;
    }
    snprintf(v->words, WORDS, "%s of the largest, at most %g: %s", digits(part, text), at_most, where);
    v->fault = !(part <= at_most);
}

int states_fault(const char *words, double at_most)
{
    char *end;
    double part = strtod(words, &end), bound;
    if (end == words || strncmp(end, " of the largest, at most ", 25) != 0)
        return 1;
    bound = strtod(end + 25, NULL);
    return !(part <= bound) || bound != at_most;
}

/* ---- sizes */

void size_verdict(const struct delivery *d, const struct set *s, struct verdict *v)
{
    size_t most = 0;
    double squares = 0.0;
    char place[PLACE], text[NUMBER], more[NUMBER];
    const double *x = s->numbers;
    v->fault = 1;
    for (size_t q = 0; q < s->count; q++) {
        if (!(fabs(x[q]) <= LARGEST)) {
            place_words(d, s, q, place);
            snprintf(v->words, WORDS, "the number of %s is %s, and no force constant is larger than %g", place, digits(x[q], text), LARGEST);
            return;
        }
        squares += x[q] * x[q];
        most = fabs(x[q]) > fabs(x[most]) ? q : most;
    }
    if (s->count == 0 || x[most] == 0.0) {
        snprintf(v->words, WORDS, "all numbers are zero");
        return;
    }
    place_words(d, s, most, place);
    v->fault = fabs(x[most]) < SMALLEST;
    if (v->fault)
        snprintf(v->words, WORDS, "the largest number, of %s, is %s, and no force constants are all that small", place, digits(x[most], text));
    else
        snprintf(v->words, WORDS, "largest number %s at %s; sum of squares %s", number(x[most], text), place, number(squares, more));
}

void on_site_verdict(const struct delivery *d, const struct set *s, struct verdict *v)
{
    size_t rows = s->full ? d->n_satom : d->n_patom, least = 0;
    char text[NUMBER];
    double smallest = INFINITY;
    for (size_t k = 0; k < rows * 3; k++) {
        size_t i = k / 3, atom = s->full ? i : (size_t)d->p2s[i];
        if (atom >= d->n_satom)
            continue; /* the tables are at fault, and it is said of them */
        double x = s->numbers[(i * d->n_satom + atom) * 9 + k % 3 * 4];
        if (!(x >= smallest)) {
            smallest = x;
            least = k;
        }
    }
    v->fault = !(smallest > 0.0);
    snprintf(v->words, WORDS, "smallest number %s at atom %zu%s, direction %zu", number(smallest, text), least / 3,
             s->full ? "" : " (of the primitive cell)", least % 3);
}

/* ---- reports: a compact set's are of one form at every order */

typedef uint8_t compact_report(const double *, size_t, const int64_t *, size_t, const int64_t *, size_t, const int64_t *, size_t, const int64_t *,
                               size_t, double *, size_t, size_t *, size_t, size_t, size_t, size_t);
typedef uint8_t compact_audit(const double *, size_t, const int64_t *, size_t, const int64_t *, size_t, const int64_t *, size_t, const int64_t *,
                              size_t, size_t *, size_t, double *, size_t, size_t, size_t, size_t);
typedef uint8_t compact_crystal(const double *, size_t, const int64_t *, size_t, const int64_t *, size_t, const int64_t *, size_t, const int64_t *,
                                size_t, const double *, size_t, const int64_t *, size_t, double *, size_t, size_t *, size_t, size_t, size_t,
                                size_t, size_t);

static uint8_t reported(const struct delivery *d, const struct set *s, compact_report *report, double *value, size_t *place, size_t places)
{
    size_t n = d->n_satom, p = d->n_patom, t = d->num_trans;
    return report(s->numbers, s->count, d->p2s, p, d->s2pp, n, d->nsym_list, n, d->perms, t * n, value, 1, place, places, n, p, t);
}

static uint8_t difference(const struct delivery *d, const struct set *s, double *value, size_t place[2])
{
    static compact_report *const reports[] = {gf_difference_report_compact_fc2, gf_difference_report_compact_fc3, gf_difference_report_compact_fc4};
    if (s->full)
        return gf_difference_report_fc2(s->numbers, s->count, value, 1, place, 2, d->n_satom);
    return reported(d, s, reports[s->order - 2], value, place, 2);
}

/* "worst difference 0.5 (0x1p-1) at atoms 0 1, directions 0 1 in the order 1 0 of the pairs", or that there is none */
static void difference_words(const struct delivery *d, const struct set *s, uint8_t answer, double value, const size_t place[2], char out[WHERE])
{
    char where[PLACE], order[LIST], text[NUMBER];
    if (answer == GF_DRIFT_STILL || GF_REFUSED(answer)) {
        snprintf(out, WHERE, "all differences are zero");
        return;
    }
    place_words(d, s, place[0], where);
    order_words(s->order, place[1], order);
    snprintf(out, WHERE, "worst difference %s at %s, with the pairs in the order %s", number(value, text), where, order);
}

void orders_verdict(const struct delivery *d, const struct set *s, double at_most, struct verdict *v)
{
    size_t place[2] = {0, 0};
    double value = 0.0;
    char where[WHERE];
    begin_step("orders of legs of", set_name(s));
    uint8_t answer = difference(d, s, &value, place);
    end_step();
    difference_words(d, s, answer, value, place, where);
    judged(v, answer, value, largest_of(s), at_most, where);
}

/* where the sum of a report is: along rows or columns at second order, else over a leg, for the atoms that are left */
static void sum_words(const struct delivery *d, const struct set *s, const size_t place[4], char out[PLACE])
{
    size_t n = s->order, at = place[0], directions[4], left[4];
    char atoms[LIST], to[LIST];
    if (n == 2) {
        snprintf(out, PLACE, "along %s, atom %zu, directions %zu %zu", place[0] == GF_ROWS ? "rows" : "columns", place[1], place[2], place[3]);
        return;
    }
    for (size_t k = n - 1; k-- > 0; at /= d->n_satom)
        left[k] = at % d->n_satom;
    for (size_t k = n, q = place[1]; k-- > 0; q /= 3)
        directions[k] = q % 3;
    list_words(left, n - 1, atoms);
    list_words(directions, n, to);
    snprintf(out, PLACE, "over leg %zu, atoms %s, directions %s", n - 1 - at, atoms, to);
}

void drift_verdict(const struct delivery *d, const struct set *s, double at_most, struct verdict *v)
{
    static compact_report *const reports[] = {gf_drift_report_compact_fc2, gf_drift_report_compact_fc3, gf_drift_report_compact_fc4};
    size_t place[4] = {0, 0, 0, 0};
    double value = 0.0;
    char where[PLACE], words[WHERE], text[NUMBER];
    begin_step("drift of", set_name(s));
    uint8_t answer = s->full ? gf_drift_report(s->numbers, s->count, &value, 1, place, 4, d->n_satom)
                             : reported(d, s, reports[s->order - 2], &value, place, s->order == 2 ? 4 : 2);
    end_step();
    if (answer == GF_DRIFT_STILL)
        snprintf(words, sizeof words, "all sums are zero");
    else {
        sum_words(d, s, place, where);
        snprintf(words, sizeof words, "worst sum %s %s", number(value, text), where);
    }
    judged(v, answer, value, largest_of(s), at_most, words);
}

/* ---- the crystal */

struct worst {
    uint8_t answer; /* of the first report that was refused or met a NaN, else of the worst one */
    double value;
    size_t operation, place;
};

/* a further report counts if its value is larger, as in one report of all operations */
static void add(struct worst *w, uint8_t answer, double value, size_t operation, size_t place)
{
    if (GF_REFUSED(w->answer) || w->answer == GF_DRIFT_NO_NUMBER || answer == GF_DRIFT_STILL)
        return;
    if (answer != GF_DRIFT_WORST || value > w->value)
        *w = (struct worst){answer, value, operation, place};
}

/* operations from one on, each a matrix and a row of atoms */
static void look_at(const struct delivery *d, const struct set *s, const double *matrix, const int64_t *atoms, size_t operation, struct worst *w)
{
    static compact_crystal *const reports[] = {gf_crystal_report_compact_fc2, gf_crystal_report_compact_fc3, gf_crystal_report_compact_fc4};
    size_t n = d->n_satom, p = d->n_patom, t = d->num_trans, place[2] = {0, 0};
    double value = 0.0;
    uint8_t answer = s->full ? gf_crystal_report_fc2(s->numbers, s->count, matrix, 9, atoms, n, &value, 1, place, 2, n, 1)
                             : reports[s->order - 2](s->numbers, s->count, d->p2s, p, d->s2pp, n, d->nsym_list, n, d->perms, t * n, matrix, 9,
                                                     atoms, n, &value, 1, place, 2, n, p, t, 1);
    add(w, answer, value, operation, place[1]);
}

void crystal_verdict(const struct delivery *d, const struct set *s, double at_most, struct verdict *v)
{
    static const double one[9] = {1, 0, 0, 0, 1, 0, 0, 0, 1};
    struct worst w = {GF_DRIFT_STILL, 0.0, 0, 0};
    size_t n = d->n_satom, shifts = s->full ? d->num_trans : 0, all = shifts + d->num_rot, at;
    char where[PLACE], text[NUMBER], words[WHERE];
    v->fault = 0;
    if (all == 0) {
        snprintf(v->words, WORDS, NO_OPERATIONS);
        return;
    }
    begin_step("the crystal's operations on", set_name(s));
    for (size_t k = 0; k < all; k++) {
        if (k < shifts)
            look_at(d, s, one, d->perms + k * n, k, &w);
        else
            look_at(d, s, d->r_carts + (k - shifts) * 9, d->operations + (k - shifts) * n, k, &w);
        how_far(k + 1, all);
    }
    end_step();
    at = (size_t)snprintf(words, sizeof words, shifts ? "%zu operations and %zu shifts, " : "%zu operations, ", d->num_rot, shifts);
    if (w.answer == GF_DRIFT_STILL)
        snprintf(words + at, sizeof words - at, "all deviations are zero");
    else {
        place_words(d, s, w.place, where);
        snprintf(words + at, sizeof words - at, "worst deviation %s under %s %zu at %s", number(w.value, text),
                 w.operation < shifts ? "shift" : "operation", w.operation < shifts ? w.operation : w.operation - shifts, where);
    }
    judged(v, w.answer, w.value, largest_of(s), at_most, words);
}

void change_verdict(const struct delivery *d, const struct set *before, const struct set *after, double at_most, struct verdict *v)
{
    size_t place[2] = {0, 0};
    double value = 0.0;
    char where[PLACE], words[WHERE], text[NUMBER];
    begin_step("comparison of", set_name(after));
    uint8_t answer = gf_set_difference(after->numbers, after->count, before->numbers, before->count, &value, 1, place, 2);
    end_step();
    if (answer == GF_DRIFT_STILL)
        snprintf(words, sizeof words, "no number changed");
    else {
        place_words(d, after, place[0], where);
        snprintf(words, sizeof words, "a number changed by %s at %s", number(value, text), where);
    }
    judged(v, answer, value, largest_of(before), at_most, words);
}

/* ---- audits */

static uint8_t audited(const struct delivery *d, const struct set *s, size_t place[2], double numbers[2])
{
    static compact_audit *const audits[] = {gf_audit_compact_fc2, gf_audit_compact_fc3, gf_audit_compact_fc4};
    size_t n = d->n_satom, p = d->n_patom, t = d->num_trans;
    if (s->full)
        return gf_audit_fc2(s->numbers, s->count, place, 2, numbers, 2, n);
    return audits[s->order - 2](s->numbers, s->count, d->p2s, p, d->s2pp, n, d->nsym_list, n, d->perms, t * n, place, 2, numbers, 2, n, p, t);
}

void audit_verdict(const struct delivery *d, const struct set *s, struct verdict *v)
{
    size_t place[2] = {0, 0}, worst[2] = {0, 0};
    double numbers[2] = {0.0, 0.0}, value = 0.0;
    char where[PLACE], order[LIST], here[NUMBER], there[NUMBER], wide[WHERE];
    begin_step("audit of", set_name(s));
    uint8_t answer = audited(d, s, place, numbers);
    end_step();
    v->fault = answer != GF_ALIKE;
    if (answer != GF_UNLIKE) {
        snprintf(v->words, WORDS, "%s", answer == GF_ALIKE ? "alike" : gf_words(answer));
        return;
    }
    uint8_t apart = difference(d, s, &value, worst);
    difference_words(d, s, apart, value, worst, wide);
    place_words(d, s, place[0], where);
    order_words(s->order, place[1], order);
    snprintf(v->words, WORDS, "unlike, %s; first at %s: %s, and %s with the pairs in the order %s", wide, where, number(numbers[0], here),
             number(numbers[1], there), order);
}
