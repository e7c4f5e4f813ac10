/*
 * Calls everything of include/gullyfork.h: each with a small correct input, whose result is known from the specification (its numbered
 * sheets, where it has one), and with a refused input, which has to leave every slice as it was. Exits with 0 only if all holds.
 */
#include "gullyfork.h"

#include <math.h>
#include <stdio.h>
#include <string.h>

/* an array as a slice: its pointer and its length */
#define S(array) (array), sizeof(array) / sizeof *(array)

static int checks, failures;

static void check_at(int line, const char *what, bool holds) {
    checks++;
    if (!holds) {
        failures++;
        printf("all_calls.c:%d: does not hold: %s\n", line, what);
    }
}

#define CHECK(condition) check_at(__LINE__, #condition, (condition))

static bool same_bits(double x, double y) {
    return memcmp(&x, &y, sizeof x) == 0;
}

/* all numbers have the bits of x: tells -0.0 from 0.0 */
static bool all_are(const double *xs, size_t n, double x) {
    for (size_t i = 0; i < n; i++) {
        if (!same_bits(xs[i], x)) {
            return false;
        }
    }
    return true;
}

static bool cleared(const uint8_t *bytes, size_t n) {
    for (size_t i = 0; i < n; i++) {
        if (bytes[i] != 0) {
            return false;
        }
    }
    return true;
}

/* 1.0, 2.0, .. */
static void count_up(double *xs, size_t n) {
    for (size_t i = 0; i < n; i++) {
        xs[i] = (double)i + 1.0;
    }
}

/* shift tables of one atom */
static const int64_t one_p2s[] = {0}, one_s2pp[] = {0}, one_nsym[] = {0}, one_perms[] = {0};

/* three atoms, one in the primitive cell, shifts in a circle (sheet 6); and the same with nsym_list wrong */
static const int64_t three_p2s[] = {0}, three_s2pp[] = {0, 0, 0}, three_nsym[] = {0, 2, 1}, three_perms[] = {0, 1, 2, 1, 2, 0, 2, 0, 1};
static const int64_t three_wrong[] = {0, 1, 2};

/* two atoms, one in the primitive cell, a half shift (sheet 7) */
static const int64_t two_p2s[] = {0}, two_s2pp[] = {0, 0}, two_nsym[] = {0, 1}, two_perms[] = {0, 1, 1, 0};

static const int64_t beyond[] = {7};

#define ONE S(one_p2s), S(one_s2pp), S(one_nsym), S(one_perms)
#define TWO S(two_p2s), S(two_s2pp), S(two_nsym), S(two_perms)
#define THREE S(three_p2s), S(three_s2pp), S(three_nsym), S(three_perms)
#define ONE_BEYOND S(beyond), S(one_s2pp), S(one_nsym), S(one_perms)
#define THREE_WRONG S(three_p2s), S(three_s2pp), S(three_wrong), S(three_perms)

/* exchanges the first two axes; its transpose is itself */
static const double mirror[] = {0, 1, 0, 1, 0, 0, 0, 0, 1};
static const size_t mirrored[] = {1, 0, 2};

/* every answer has words of its own */
#define NUMBER(name, number, words) name,
static const uint8_t answers[] = {GF_ANSWERS(NUMBER)};

static void about(void) {
    CHECK(strcmp(gf_version(), GF_VERSION) == 0);
    CHECK(strcmp(gf_words(GF_COUNT_ABOVE_LIMIT), "a count is above its limit") == 0);
    CHECK(strcmp(gf_words(255), "not an answer of this library") == 0);
    for (size_t i = 0; i < sizeof answers; i++) {
        for (size_t j = 0; j < i; j++) {
            CHECK(answers[i] != answers[j] && strcmp(gf_words(answers[i]), gf_words(answers[j])) != 0);
        }
        CHECK(strcmp(gf_words(answers[i]), gf_words(255)) != 0);
    }
}

static void rounding(void) {
    CHECK(gf_nint(2.5) == 3); /* sheet 1 */
    CHECK(gf_nint(-0.5) == -1);
    CHECK(gf_nint(0.49999999999999994) == 0);
    CHECK(gf_nint(1e300) == INT64_MAX);
    CHECK(gf_nint((double)NAN) == 0);
    CHECK(same_bits(gf_round(-2.5), -3.0));
    CHECK(same_bits(gf_round(-0.25), -0.0));
    uint64_t bits;
    double root = gf_sqrt(2.0);
    memcpy(&bits, &root, sizeof bits);
    CHECK(bits == UINT64_C(0x3FF6A09E667F3BCD)); /* sheet 2 */
    CHECK(same_bits(gf_sqrt(-0.0), -0.0));
    CHECK(gf_sqrt(-1.0) != gf_sqrt(-1.0));
}

/* what gf_explain_shift_tables says of three atoms, two shifts of two or four atoms */
static bool explains(const int64_t *p2s, size_t p, const int64_t *s2pp, const int64_t *nsym, size_t n, const int64_t *perms, size_t m,
                     size_t answer, size_t which, size_t i, size_t j, size_t k) {
    size_t place[5] = {9, 9, 9, 9, 9};
    return gf_explain_shift_tables(p2s, p, s2pp, n, nsym, n, perms, m * n, place, 5, n, p, m) == GF_DONE && place[0] == answer && place[1] == which
        && place[2] == i && place[3] == j && place[4] == k && gf_check_shift_tables(p2s, p, s2pp, n, nsym, n, perms, m * n, n, p, m) == answer;
}

static void explained(void) {
    const int64_t zeros[4] = {0}, in_order[] = {0, 1, 2}, to_zero[] = {0, 2, 1}, two_rows[] = {0, 1, 1}, reps[] = {0, 2}, halves[] = {0, 0, 1, 1}, rows[] = {0, 1, 0, 1};
    const int64_t circle[] = {0, 1, 2, 1, 2, 0, 2, 0, 1}, twice[] = {0, 1, 2, 1, 1, 0, 2, 0, 1}, no_null[] = {1, 2, 0, 2, 0, 1, 1, 2, 0};
    const int64_t swaps[] = {0, 1, 2, 1, 0, 2, 2, 1, 0}, same_rows[] = {0, 1, 0, 1}, pairs[] = {0, 1, 2, 3, 1, 0, 3, 2};
    const int64_t other_way[] = {1, 1, 0, 0}, moved[] = {0, 1, 1, 1}, beyond[] = {0, 1, 2, 1, 2, 0, 2, 0, 3}, below[] = {0, -1, 1};
    size_t place[6] = {9, 9, 9, 9, 9, 9};
    CHECK(explains(zeros, 1, zeros, to_zero, 3, circle, 3, GF_DONE, 0, 0, 0, 0));
    CHECK(explains(zeros, 1, zeros, to_zero, 3, beyond, 3, GF_INDEX_OUT_OF_RANGE, 0, 8, 0, 0));
    CHECK(explains(zeros, 1, zeros, below, 3, circle, 3, GF_INDEX_OUT_OF_RANGE, 3, 1, 0, 0));
    CHECK(explains(zeros, 1, zeros, two_rows, 3, circle, 2, GF_BAD_SHIFT_TABLES, 0, 0, 0, 0));
    CHECK(explains(zeros, 1, zeros, to_zero, 3, twice, 3, GF_BAD_SHIFT_TABLES, 1, 1, 0, 1));
    CHECK(explains(zeros, 1, zeros, in_order, 3, no_null, 3, GF_BAD_SHIFT_TABLES, 2, 0, 0, 0));
    CHECK(explains(zeros, 1, zeros, in_order, 3, swaps, 3, GF_BAD_SHIFT_TABLES, 3, 1, 2, 0));
    CHECK(explains(zeros, 1, zeros, rows, 2, same_rows, 2, GF_BAD_SHIFT_TABLES, 4, 0, 1, 0));
    CHECK(explains(reps, 2, other_way, rows, 4, pairs, 2, GF_BAD_SHIFT_TABLES, 5, 0, 0, 0));
    CHECK(explains(reps, 2, moved, rows, 4, pairs, 2, GF_BAD_SHIFT_TABLES, 6, 1, 0, 0));
    CHECK(explains(zeros, 1, zeros, in_order, 3, circle, 3, GF_BAD_SHIFT_TABLES, 7, 1, 0, 0));
    CHECK(explains(reps, 2, halves, rows, 4, pairs, 2, GF_DONE, 0, 0, 0, 0));
    CHECK(gf_explain_shift_tables(THREE, place, 5, 3, 1025, 3) == GF_DONE && place[0] == GF_COUNT_ABOVE_LIMIT && place[1] == 1 && place[2] == 0);
    CHECK(gf_explain_shift_tables(THREE, place, 5, 3, 2, 3) == GF_DONE && place[0] == GF_WRONG_LENGTH && place[1] == 1 && place[2] == 0);
    CHECK(gf_explain_shift_tables(THREE, place, 5, 3, 1, SIZE_MAX) == GF_DONE && place[0] == GF_COUNT_ABOVE_LIMIT && place[1] == 2);
    place[0] = place[4] = 9;
    CHECK(gf_explain_shift_tables(THREE, place, 4, 3, 1, 3) == GF_WRONG_LENGTH && gf_explain_shift_tables(THREE, place, 6, 3, 1, 3) == GF_WRONG_LENGTH);
    CHECK(place[0] == 9 && place[4] == 9 && place[5] == 9);
}

static void shift_tables(void) {
    CHECK(gf_check_shift_tables(THREE, 3, 1, 3) == GF_DONE);
    CHECK(gf_check_shift_tables(TWO, 2, 1, 2) == GF_DONE);
    CHECK(gf_check_shift_tables(THREE, 3, 1, 1025) == GF_COUNT_ABOVE_LIMIT);
    CHECK(gf_check_shift_tables(THREE, 3, 2, 3) == GF_WRONG_LENGTH);
    CHECK(gf_check_shift_tables(ONE_BEYOND, 1, 1, 1) == GF_INDEX_OUT_OF_RANGE);
    CHECK(gf_check_shift_tables(THREE_WRONG, 3, 1, 3) == GF_BAD_SHIFT_TABLES);
}

static const uint8_t everywhere[] = {1, 1, 1};

static void matching(void) {
    const double unit[] = {1, 0, 0, 0, 1, 0, 0, 0, 1}, origin[] = {0, 0, 0}, eighth[] = {0.125, 0, 0};
    double pos[] = {0.25, 0, 0, 0, 0, 0}, rot_pos[] = {0.125, 0, 0, 0.375, 0, 0};
    int64_t slot[] = {7}, slots[] = {7, 7};
    size_t pair[] = {7, 7};
    CHECK(gf_compute_permutation(slot, 0, S(unit), 0.1, S(everywhere), origin, 0, origin, 0, S(pair), 0) == GF_DONE); /* sheet 8 */
    CHECK(slot[0] == 7);
    CHECK(gf_compute_permutation(S(slot), S(unit), ldexp(1.0, -600), S(everywhere), S(origin), S(origin), S(pair), 1) == GF_DONE);
    CHECK(slot[0] == 0);
    CHECK(gf_compute_permutation(S(slot), S(unit), 0.0, S(everywhere), S(origin), S(origin), S(pair), 1) == GF_NOT_MATCHED);
    CHECK(slot[0] == -1);
    CHECK(gf_compute_permutation(S(slots), S(unit), 0.1875, S(everywhere), S(pos), S(rot_pos), S(pair), 2) == GF_NOT_MATCHED); /* sheet 9 */
    CHECK(slots[0] == 0 && slots[1] == -1);
    CHECK(gf_compute_permutation(S(slot), S(unit), 0.125, S(everywhere), S(eighth), S(origin), S(pair), 1) == GF_NOT_MATCHED); /* sheet 10 */
    CHECK(gf_compute_permutation(S(slot), S(unit), (double)NAN, S(everywhere), S(origin), S(origin), S(pair), 1) == GF_NOT_MATCHED);
    CHECK(pair[0] == 7 && pair[1] == 7);
    pos[3] = (double)NAN; /* the second position; slot 1 is the first that it tries */
    rot_pos[0] = 0.25;
    CHECK(gf_compute_permutation(S(slots), S(unit), 0.1875, S(everywhere), S(pos), S(rot_pos), S(pair), 2) == GF_MATCH_NO_NUMBER);
    CHECK(slots[0] == 0 && slots[1] == -1 && pair[0] == 1 && pair[1] == 1);
    slot[0] = 7;
    pair[0] = pair[1] = 7;
    CHECK(gf_compute_permutation(S(slot), S(unit), 0.1, S(everywhere), S(origin), S(origin), pair, 1, 1) == GF_WRONG_LENGTH);
    CHECK(gf_compute_permutation(S(slot), S(unit), 0.1, S(everywhere), S(origin), S(origin), pair, 1, 1025) == GF_COUNT_ABOVE_LIMIT);
    CHECK(gf_compute_permutation(S(slot), S(unit), 0.1, S(everywhere), S(origin), S(origin), S(pair), 1025) == GF_COUNT_ABOVE_LIMIT);
    CHECK(gf_compute_permutation(S(slot), unit, 8, 0.1, S(everywhere), S(origin), S(origin), S(pair), 1025) == GF_COUNT_ABOVE_LIMIT);
    CHECK(gf_compute_permutation(S(slot), unit, 8, 0.1, S(everywhere), S(origin), S(origin), S(pair), 1) == GF_WRONG_LENGTH);
    CHECK(gf_compute_permutation(S(slot), S(unit), 0.1, S(everywhere), S(origin), origin, 2, S(pair), 1) == GF_WRONG_LENGTH);
    CHECK(slot[0] == 7 && pair[0] == 7 && pair[1] == 7);
}

static void surfaces(void) {
    const double unit[] = {1, 0, 0, 0, 1, 0, 0, 0, 1}, high[] = {0.9375, 0, 0}, low[] = {0.0625, 0, 0};
    const uint8_t first[] = {255, 0, 0}, others[] = {0, 1, 1};
    int64_t slot[] = {7};
    uint8_t mark[] = {7};
    size_t pair[] = {7, 7};
    CHECK(gf_compute_permutation(S(slot), S(unit), 0.25, S(first), S(high), S(low), S(pair), 1) == GF_DONE);
    CHECK(slot[0] == 0);
    CHECK(gf_compute_permutation(S(slot), S(unit), 0.25, S(others), S(high), S(low), S(pair), 1) == GF_NOT_MATCHED);
    CHECK(slot[0] == -1);
    CHECK(gf_find_permutation(S(slot), S(mark), S(unit), 0.25, S(first), S(high), S(low), 1) == GF_DONE);
    CHECK(slot[0] == 0 && mark[0] == 0);
    CHECK(gf_find_permutation(S(slot), S(mark), S(unit), 0.25, S(others), S(high), S(low), 1) == GF_NO_MATCH);
    CHECK(slot[0] == -1 && mark[0] == 1);
    CHECK(gf_compute_permutation(S(slot), S(unit), 0.25, first, 2, S(high), S(low), S(pair), 1) == GF_WRONG_LENGTH);
    CHECK(gf_find_permutation(S(slot), S(mark), S(unit), 0.25, first, 2, S(high), S(low), 1) == GF_WRONG_LENGTH);
    CHECK(gf_find_permutation(S(slot), S(mark), S(unit), 0.25, first, 2, S(high), S(low), 1025) == GF_COUNT_ABOVE_LIMIT);
    CHECK(slot[0] == -1 && mark[0] == 1 && pair[0] == 7);
}

static void finding(void) {
    const double unit[] = {1, 0, 0, 0, 1, 0, 0, 0, 1}, pos[] = {0.25, 0, 0, 0, 0, 0}, rot_pos[] = {0.125, 0, 0, 0.375, 0, 0};
    const double apart[] = {0.125, 0, 0, 0.625, 0, 0};
    int64_t slots[] = {7, 7};
    uint8_t marks[] = {7, 7};
    CHECK(gf_find_permutation(slots, 0, marks, 0, S(unit), 0.1, S(everywhere), pos, 0, pos, 0, 0) == GF_DONE);
    CHECK(slots[0] == 7 && marks[0] == 7);
    CHECK(gf_find_permutation(S(slots), S(marks), S(unit), 0.1875, S(everywhere), S(pos), S(rot_pos), 2) == GF_DONE); /* sheet 9 */
    CHECK(slots[0] == 1 && slots[1] == 0 && marks[0] == 0 && marks[1] == 0);
    CHECK(gf_find_permutation(S(slots), S(marks), S(unit), 0.1875, S(everywhere), S(pos), S(pos), 2) == GF_DONE);
    CHECK(slots[0] == 0 && slots[1] == 1);
    CHECK(gf_find_permutation(S(slots), S(marks), S(unit), 0.1875, S(everywhere), S(pos), S(apart), 2) == GF_NO_MATCH);
    CHECK(slots[0] == -1 && slots[1] == -1 && marks[0] == 1 && marks[1] == 1);
    slots[0] = slots[1] = 7;
    marks[0] = marks[1] = 7;
    CHECK(gf_find_permutation(S(slots), S(marks), S(unit), 0.1875, S(everywhere), S(pos), S(pos), 1025) == GF_COUNT_ABOVE_LIMIT);
    CHECK(gf_find_permutation(S(slots), S(marks), unit, 8, 0.1875, S(everywhere), S(pos), S(pos), 1025) == GF_COUNT_ABOVE_LIMIT);
    CHECK(gf_find_permutation(S(slots), S(marks), unit, 8, 0.1875, S(everywhere), S(pos), S(pos), 2) == GF_WRONG_LENGTH);
    CHECK(gf_find_permutation(S(slots), marks, 1, S(unit), 0.1875, S(everywhere), S(pos), S(pos), 2) == GF_WRONG_LENGTH);
    CHECK(gf_find_permutation(S(slots), S(marks), S(unit), 0.1875, S(everywhere), pos, 5, S(pos), 2) == GF_WRONG_LENGTH);
    CHECK(slots[0] == 7 && slots[1] == 7 && marks[0] == 7 && marks[1] == 7);
}

static void full_second_order(void) {
    double one[9], two[36] = {0}, before[36];
    for (size_t level = 0; level < 3; level++) { /* sheet 3 */
        count_up(S(one));
        CHECK(gf_perm_trans_symmetrize_fc(S(one), 1, level) == GF_DONE);
        CHECK(all_are(S(one), -0.0));
    }
    two[9 + 1] = 2; /* sheet 4: block (0, 1) */
    two[9 + 3] = 4;
    CHECK(gf_perm_trans_symmetrize_fc(S(two), 2, 0) == GF_DONE);
    CHECK(two[1] == -3 && two[3] == -3);
    CHECK(same_bits(two[0], -0.0) && same_bits(two[2], -0.0) && all_are(two + 4, 5, -0.0));
    memcpy(before, two, sizeof two);
    CHECK(gf_perm_trans_symmetrize_fc(S(two), 1025, 0) == GF_COUNT_ABOVE_LIMIT); /* sheet 11 */
    CHECK(gf_perm_trans_symmetrize_fc(S(two), 2, 1001) == GF_COUNT_ABOVE_LIMIT);
    CHECK(gf_perm_trans_symmetrize_fc(S(two), 3, 1) == GF_WRONG_LENGTH);
    CHECK(memcmp(two, before, sizeof two) == 0);
}

static bool is_place(const size_t *place, size_t along, size_t atom, size_t k, size_t l) {
    return place[0] == along && place[1] == atom && place[2] == k && place[3] == l;
}

static void drift(void) {
    double fc[36] = {0}, value[] = {7};
    size_t place[] = {7, 7, 7, 7};
    CHECK(gf_drift_report(S(fc), S(value), S(place), 1025) == GF_COUNT_ABOVE_LIMIT);
    CHECK(gf_drift_report(S(fc), value, 0, S(place), 1025) == GF_COUNT_ABOVE_LIMIT);
    CHECK(gf_drift_report(S(fc), S(value), S(place), 3) == GF_WRONG_LENGTH);
    CHECK(gf_drift_report(S(fc), value, 0, S(place), 2) == GF_WRONG_LENGTH);
    CHECK(gf_drift_report(S(fc), S(value), place, 3, 2) == GF_WRONG_LENGTH);
    CHECK(value[0] == 7 && is_place(place, 7, 7, 7, 7));
    CHECK(gf_drift_report(S(fc), S(value), S(place), 2) == GF_DRIFT_STILL);
    CHECK(same_bits(value[0], 0.0) && is_place(place, GF_ROWS, 0, 0, 0));
    fc[0] = 1;
    fc[18 + 5] = -3; /* directions 1 and 2: row 1 has -3 + 0.5, column 0 has -3 */
    fc[27 + 5] = 0.5;
    CHECK(gf_drift_report(S(fc), S(value), S(place), 2) == GF_DRIFT_WORST);
    CHECK(value[0] == 3 && is_place(place, GF_COLUMNS, 0, 1, 2));
    fc[27 + 5] = 0; /* both have -3, and the row is the first */
    CHECK(gf_drift_report(S(fc), S(value), S(place), 2) == GF_DRIFT_WORST);
    CHECK(value[0] == 3 && is_place(place, GF_ROWS, 1, 1, 2));
    fc[9 + 7] = (double)NAN; /* atom 0, directions 2 and 1 */
    CHECK(gf_drift_report(S(fc), S(value), S(place), 2) == GF_DRIFT_NO_NUMBER);
    CHECK(value[0] != value[0] && is_place(place, GF_ROWS, 0, 2, 1));
}

/* the drift of compact sets and of third order */
static void drifts(void) {
    double three[27] = {0}, fc3[216] = {0}, value[] = {7};
    size_t place[] = {7, 7, 7, 7}, legs[] = {7, 7, 7, 7, 7, 7};
    CHECK(gf_drift_report_compact_fc2(S(three), THREE, S(value), S(place), 3, 1, 1025) == GF_COUNT_ABOVE_LIMIT);
    CHECK(gf_drift_report_compact_fc2(S(three), THREE, value, 0, S(place), 3, 1, 1025) == GF_COUNT_ABOVE_LIMIT);
    CHECK(gf_drift_report_compact_fc2(S(three), THREE, value, 0, S(place), 3, 1, 3) == GF_WRONG_LENGTH);
    CHECK(gf_drift_report_compact_fc2(three, 26, THREE, S(value), S(place), 3, 1, 3) == GF_WRONG_LENGTH);
    CHECK(gf_drift_report_compact_fc2(S(three), S(beyond), S(three_s2pp), S(three_nsym), S(three_perms), S(value), S(place), 3, 1, 3) == GF_INDEX_OUT_OF_RANGE);
    CHECK(gf_drift_report_compact_fc2(S(three), S(three_p2s), S(three_s2pp), S(three_wrong), S(three_perms), S(value), S(place), 3, 1, 3) == GF_BAD_SHIFT_TABLES);
    CHECK(value[0] == 7 && is_place(place, 7, 7, 7, 7));
    CHECK(gf_drift_report_compact_fc2(S(three), THREE, S(value), S(place), 3, 1, 3) == GF_DRIFT_STILL);
    three[9 + 5] = 2; /* block (0, 1), directions 1 and 2: every row and every column of the full set has it once */
    CHECK(gf_drift_report_compact_fc2(S(three), THREE, S(value), S(place), 3, 1, 3) == GF_DRIFT_WORST);
    CHECK(value[0] == 2 && is_place(place, GF_ROWS, 0, 1, 2));
    three[9 + 5] = (double)NAN;
    CHECK(gf_drift_report_compact_fc2(S(three), THREE, S(value), S(place), 3, 1, 3) == GF_DRIFT_NO_NUMBER && value[0] != value[0]);

    value[0] = 7;
    CHECK(gf_drift_report_fc3(S(fc3), S(value), S(legs), 257) == GF_COUNT_ABOVE_LIMIT && gf_drift_report_fc3(S(fc3), S(value), legs, 5, 257) == GF_COUNT_ABOVE_LIMIT);
    CHECK(gf_drift_report_fc3(S(fc3), S(value), legs, 5, 2) == GF_WRONG_LENGTH && gf_drift_report_fc3(S(fc3), S(value), S(legs), 3) == GF_WRONG_LENGTH);
    CHECK(value[0] == 7 && legs[0] == 7 && legs[5] == 7);
    CHECK(gf_drift_report_fc3(S(fc3), S(value), S(legs), 2) == GF_DRIFT_STILL && same_bits(value[0], 0.0) && legs[0] == 2 && legs[1] == 0);
    CHECK(gf_drift_report_fc3(fc3, 0, S(value), S(legs), 0) == GF_DRIFT_STILL);
    fc3[108] = 1, fc3[135] = -1; /* blocks (1, 0, 0) and (1, 0, 1): over the last leg they cancel */
    CHECK(gf_drift_report_fc3(S(fc3), S(value), S(legs), 2) == GF_DRIFT_WORST && value[0] == 1);
    CHECK(legs[0] == 1 && legs[1] == 1 && legs[2] == 0 && legs[3] + legs[4] + legs[5] == 0);
    fc3[5] = -1; /* block (0, 0, 0), directions 0, 1, 2: over the last leg it stays, and that leg goes first */
    CHECK(gf_drift_report_fc3(S(fc3), S(value), S(legs), 2) == GF_DRIFT_WORST && legs[0] == 2 && legs[1] == 0 && legs[3] == 0 && legs[4] == 1 && legs[5] == 2);
    fc3[215] = (double)NAN;
    CHECK(gf_drift_report_fc3(S(fc3), S(value), S(legs), 2) == GF_DRIFT_NO_NUMBER && legs[0] == 2 && legs[1] == 1 && legs[2] == 1 && legs[5] == 2);
}

/* sums are those of a fresh pass, by their bits */
static bool fresh(const double *sums, const double *fc) {
    double again[18];
    return gf_row_sums_fc2(S(again), fc, 36, 2) == GF_DONE && memcmp(sums, again, sizeof again) == 0;
}

static void edits(void) {
    const double step = 1.0 / 1048576.0;
    double fc[36], sums[18], before[36], kept[18], block[9], zeros[9] = {0};
    count_up(S(fc));
    CHECK(gf_row_sums_fc2(S(sums), S(fc), 1025) == GF_COUNT_ABOVE_LIMIT);
    CHECK(gf_row_sums_fc2(S(sums), S(fc), 2) == GF_DONE);
    CHECK(sums[0] == 1 + 10 && sums[9 + 8] == 27 + 36);
    memcpy(kept, sums, sizeof sums);
    CHECK(gf_row_sums_fc2(sums, 17, S(fc), 2) == GF_WRONG_LENGTH);
    CHECK(gf_row_sums_fc2(S(sums), fc, 35, 2) == GF_WRONG_LENGTH);
    for (size_t k = 0; k < 9; k++) {
        block[k] = (double)k * step;
    }
    memcpy(before, fc, sizeof fc);
    CHECK(gf_replace_block_fc2(S(fc), S(sums), block, 8, 2, 0, 1025) == GF_COUNT_ABOVE_LIMIT);
    CHECK(gf_replace_block_fc2(S(fc), S(sums), block, 8, 2, 0, 2) == GF_WRONG_LENGTH);
    CHECK(gf_replace_block_fc2(fc, 35, S(sums), S(block), 2, 0, 2) == GF_WRONG_LENGTH);
    CHECK(gf_replace_block_fc2(S(fc), sums, 19, S(block), 2, 0, 2) == GF_WRONG_LENGTH);
    block[8] = step / 2;
    CHECK(gf_replace_block_fc2(S(fc), S(sums), S(block), 2, 0, 2) == GF_INDEX_OUT_OF_RANGE);
    CHECK(gf_replace_block_fc2(S(fc), S(sums), S(block), 0, SIZE_MAX, 2) == GF_INDEX_OUT_OF_RANGE);
    CHECK(gf_replace_block_fc2(S(fc), S(sums), S(block), 1, 0, 2) == GF_OFF_GRID);
    block[8] = 1048576 + step;
    CHECK(gf_replace_block_fc2(S(fc), S(sums), S(block), 1, 0, 2) == GF_OFF_GRID);
    CHECK(memcmp(fc, before, sizeof fc) == 0 && memcmp(sums, kept, sizeof sums) == 0);
    block[8] = -1048576; /* the grid's end */
    CHECK(gf_replace_block_fc2(S(fc), S(sums), S(block), 1, 0, 2) == GF_DONE);
    CHECK(memcmp(fc + 18, block, sizeof block) == 0 && memcmp(fc, before, 18 * sizeof *fc) == 0 && memcmp(fc + 27, before + 27, 9 * sizeof *fc) == 0);
    CHECK(memcmp(sums, kept, 9 * sizeof *sums) == 0 && sums[9 + 8] == 36 - 1048576.0 && fresh(sums, fc));
    CHECK(gf_replace_block_fc2(S(fc), S(sums), S(zeros), 1, 0, 2) == GF_DONE); /* taken out */
    CHECK(sums[9 + 8] == 36 && fresh(sums, fc));
    fc[35] = 0.1; /* an old number off the grid: in block (1, 1) only */
    CHECK(gf_replace_block_fc2(S(fc), S(sums), S(zeros), 1, 1, 2) == GF_OFF_GRID);
    CHECK(gf_replace_block_fc2(S(fc), S(sums), S(zeros), 1, 0, 2) == GF_DONE);
}

static void compact_second_order(void) {
    double one[9], three[27], before[27];
    uint8_t done1[] = {7}, done3[] = {7, 7, 7};
    count_up(S(one));
    CHECK(gf_perm_trans_symmetrize_compact_fc(S(one), ONE, S(done1), 1, 1, 1, 2) == GF_DONE);
    CHECK(all_are(S(one), -0.0) && cleared(S(done1)));
    count_up(S(three));
    memcpy(before, three, sizeof three);
    CHECK(gf_perm_trans_symmetrize_compact_fc(S(three), THREE, S(done3), 3, 1, 3, 1001) == GF_COUNT_ABOVE_LIMIT);
    CHECK(gf_set_index_permutation_symmetry_compact_fc(S(three), THREE, done3, 2, 3, 1, 3, true) == GF_WRONG_LENGTH);
    CHECK(memcmp(three, before, sizeof three) == 0 && done3[0] == 7);
    /* atoms 0 and 1 exchanged are 1 and 0, stored at 0 and 2 */
    CHECK(gf_set_index_permutation_symmetry_compact_fc(S(three), THREE, S(done3), 3, 1, 3, true) == GF_DONE);
    CHECK(cleared(S(done3)));
    for (size_t k = 0; k < 3; k++) {
        for (size_t l = 0; l < 3; l++) {
            CHECK(three[k * 3 + l] == before[l * 3 + k]);
            CHECK(three[9 + k * 3 + l] == before[18 + l * 3 + k]);
            CHECK(three[18 + k * 3 + l] == before[9 + l * 3 + k]);
        }
    }
    memcpy(three, before, sizeof three);
    CHECK(gf_set_index_permutation_symmetry_compact_fc(S(three), THREE, S(done3), 3, 1, 3, false) == GF_DONE);
    CHECK(three[9 + 1] == (before[9 + 1] + before[18 + 3]) / 2 && three[18 + 3] == three[9 + 1]);
}

/* block (i, j, ..) of the full set is block (0, j - i, ..) of the compact one, where shifts go in a circle */
static bool read_out(const double *full, const double *set, size_t order, size_t width) {
    size_t blocks = 1;
    for (size_t k = 0; k < order; k++) {
        blocks *= 3;
    }
    for (size_t b = 0; b < blocks; b++) {
        size_t i = b / (blocks / 3), from = 0;
        for (size_t part = blocks / 9; part > 0; part /= 3) {
            from = from * 3 + (b / part % 3 + 3 - i) % 3;
        }
        if (memcmp(full + b * width, set + from * width, width * sizeof *set) != 0) {
            return false;
        }
    }
    return true;
}

static void full_sets(void) {
    static double set[27 * 81], full[81 * 81], before[81 * 81];
    count_up(S(set));
    count_up(S(full));
    memcpy(before, full, sizeof full);
    CHECK(gf_compact_to_full_fc2(full, 81, set, 27, THREE, 1025, 1, 3) == GF_COUNT_ABOVE_LIMIT);
    CHECK(gf_compact_to_full_fc2(full, 80, set, 27, THREE, 1025, 1, 3) == GF_COUNT_ABOVE_LIMIT);
    CHECK(gf_compact_to_full_fc2(full, 80, set, 27, THREE, 3, 1, 3) == GF_WRONG_LENGTH);
    CHECK(gf_compact_to_full_fc2(full, 81, set, 26, THREE, 3, 1, 3) == GF_WRONG_LENGTH);
    CHECK(gf_compact_to_full_fc2(full, 80, set, 27, THREE_WRONG, 3, 1, 3) == GF_WRONG_LENGTH);
    CHECK(gf_compact_to_full_fc2(full, 81, set, 27, THREE_WRONG, 3, 1, 3) == GF_BAD_SHIFT_TABLES);
    CHECK(gf_compact_to_full_fc3(full, 27 * 27, set, 9 * 27, THREE, 257, 1, 3) == GF_COUNT_ABOVE_LIMIT);
    CHECK(gf_compact_to_full_fc3(full, 27 * 27 + 1, set, 9 * 27, THREE, 3, 1, 3) == GF_WRONG_LENGTH);
    CHECK(gf_compact_to_full_fc3(full, 27 * 27, set, 9 * 27, THREE_WRONG, 3, 1, 3) == GF_BAD_SHIFT_TABLES);
    CHECK(gf_compact_to_full_fc4(full, 81 * 81, set, 27 * 81, THREE, 3, 1, 65) == GF_COUNT_ABOVE_LIMIT);
    CHECK(gf_compact_to_full_fc4(full, 81 * 81, set, 27 * 81, S(three_p2s), S(three_nsym), S(three_nsym), S(three_perms), 3, 1, 3) == GF_INDEX_OUT_OF_RANGE);
    CHECK(memcmp(full, before, sizeof full) == 0);
    CHECK(gf_compact_to_full_fc2(full, 81, set, 27, THREE, 3, 1, 3) == GF_DONE && read_out(full, set, 2, 9));
    CHECK(gf_compact_to_full_fc3(full, 27 * 27, set, 9 * 27, THREE, 3, 1, 3) == GF_DONE && read_out(full, set, 3, 27));
    CHECK(gf_compact_to_full_fc4(full, 81 * 81, set, 27 * 81, THREE, 3, 1, 3) == GF_DONE && read_out(full, set, 4, 81));
}

/* both ways to a symmetrized full set, on the grid, with a half shift */
static void both_ways(void) {
    static double set[8 * 81], one[16 * 81], other[16 * 81];
    uint8_t done[16];
    for (size_t k = 0; k < 8 * 81; k++) {
        set[k] = (double)(k * k % 1000) / 8 - 60;
    }
    CHECK(gf_compact_to_full_fc3(one, 8 * 27, set, 4 * 27, TWO, 2, 1, 2) == GF_DONE);
    CHECK(gf_set_permutation_symmetry_fc3(one, 8 * 27, 2) == GF_DONE);
    CHECK(gf_compact_to_full_fc4(other, 16 * 81, set, 8 * 81, TWO, 2, 1, 2) == GF_DONE);
    CHECK(gf_set_permutation_symmetry_compact_fc3(set, 4 * 27, TWO, done, 4, 2, 1, 2) == GF_DONE);
    CHECK(gf_compact_to_full_fc3(one + 8 * 27, 8 * 27, set, 4 * 27, TWO, 2, 1, 2) == GF_DONE);
    CHECK(memcmp(one, one + 8 * 27, 8 * 27 * sizeof *one) == 0);
    memcpy(set, other, sizeof set); /* the slab of atom 0 is the compact set */
    CHECK(gf_set_permutation_symmetry_fc4(S(other), S(done), 2) == GF_DONE);
    CHECK(gf_set_permutation_symmetry_compact_fc4(S(set), TWO, done, 8, 2, 1, 2) == GF_DONE);
    CHECK(gf_compact_to_full_fc4(S(one), S(set), TWO, 2, 1, 2) == GF_DONE);
    CHECK(memcmp(one, other, sizeof one) == 0);
}

static void distribute_second_order(void) {
    const int64_t atom_list[] = {0, 1}, rows[] = {0, 1}, permutations[] = {0, 1, 1, 0};
    const int64_t map_atoms[] = {0, 0}, map_syms[] = {0, 1}, astray[] = {1, 0};
    double r_carts[] = {1, 0, 0, 0, 1, 0, 0, 0, 1, 0, 0, 0, 0, 0, 0, 0, 0, 0}, fc2[36] = {0}, before[36];
    int64_t work[] = {7, 7};
#define LISTED S(atom_list), S(rows), S(r_carts), S(permutations)
    memcpy(r_carts + 9, mirror, sizeof mirror);
    count_up(fc2, 18);
    memcpy(before, fc2, sizeof fc2);
    CHECK(gf_distribute_fc2(S(fc2), LISTED, S(astray), S(map_syms), S(work), 2, 2, 2) == GF_BAD_REPRESENTATIVE);
    CHECK(gf_distribute_fc2(S(fc2), LISTED, S(map_atoms), S(map_syms), S(work), 2, 2, 1) == GF_WRONG_LENGTH);
    CHECK(memcmp(fc2, before, sizeof fc2) == 0 && work[0] == 7 && work[1] == 7);
    CHECK(gf_distribute_fc2(S(fc2), LISTED, S(map_atoms), S(map_syms), S(work), 2, 2, 2) == GF_DONE);
    CHECK(work[0] == 0 && work[1] == 0);
    CHECK(memcmp(fc2, before, 18 * sizeof *fc2) == 0);
#undef LISTED
    /* block (1, j) is block (0, 1 - j) mirrored */
    for (size_t k = 0; k < 3; k++) {
        for (size_t l = 0; l < 3; l++) {
            CHECK(fc2[18 + k * 3 + l] == before[9 + mirrored[k] * 3 + mirrored[l]]);
            CHECK(fc2[27 + k * 3 + l] == before[mirrored[k] * 3 + mirrored[l]]);
        }
    }
}

/* positions 5, 7, 11, 15, 19, 21 hold 1 to 6 (sheet 5) */
static const size_t six[] = {5, 7, 11, 15, 19, 21};

static void sheet5(double *block) {
    memset(block, 0, 27 * sizeof *block);
    for (size_t i = 0; i < 6; i++) {
        block[six[i]] = (double)i + 1;
    }
}

static bool sheet5_holds(const double *block) {
    for (size_t i = 0; i < 6; i++) {
        if (block[six[i]] != 3.5) {
            return false;
        }
    }
    return true;
}

static void symmetrize_third_order(void) {
    double fc3[27], before[27];
    uint8_t done[] = {7};
    sheet5(fc3);
    CHECK(gf_set_permutation_symmetry_fc3(S(fc3), 1) == GF_DONE);
    CHECK(sheet5_holds(fc3));
    memcpy(before, fc3, sizeof fc3);
    CHECK(gf_set_permutation_symmetry_fc3(S(fc3), 257) == GF_COUNT_ABOVE_LIMIT);
    CHECK(gf_set_permutation_symmetry_fc3(S(fc3), 2) == GF_WRONG_LENGTH);
    CHECK(memcmp(fc3, before, sizeof fc3) == 0);
    sheet5(fc3);
    memcpy(before, fc3, sizeof fc3);
    CHECK(gf_set_permutation_symmetry_compact_fc3(fc3, 26, ONE, S(done), 1, 1, 1) == GF_WRONG_LENGTH); /* sheet 11 */
    CHECK(gf_set_permutation_symmetry_compact_fc3(fc3, 26, ONE_BEYOND, S(done), 1, 1, 1) == GF_WRONG_LENGTH);
    CHECK(gf_set_permutation_symmetry_compact_fc3(S(fc3), ONE_BEYOND, S(done), 1, 1, 1) == GF_INDEX_OUT_OF_RANGE);
    CHECK(memcmp(fc3, before, sizeof fc3) == 0 && done[0] == 7);
    CHECK(gf_set_permutation_symmetry_compact_fc3(S(fc3), ONE, S(done), 1, 1, 1) == GF_DONE);
    CHECK(sheet5_holds(fc3) && cleared(S(done)));
}

static bool blocks_are(const double *set, const double *xs, size_t blocks, size_t width) {
    for (size_t k = 0; k < blocks * width; k++) {
        if (set[k] != xs[k / width]) {
            return false;
        }
    }
    return true;
}

static void symmetrize_third_order_without_drift(void) {
    const double four[] = {16, 8, 4, 0}, eight[] = {0, 0, 0, 0, 0, 0, 0, 8}, turned[] = {-1, 1, 1, -1, 1, -1, -1, 1};
    double one[27], full[216], two[108], before[216], drift[108];
    uint8_t done[] = {7, 7, 7, 7};
    sheet5(one);
    CHECK(gf_perm_trans_symmetrize_fc3(S(one), drift, 27, 1, 0) == GF_DONE); /* level 0: the mean of six alone */
    CHECK(sheet5_holds(one) && all_are(drift, 27, 0.0));
    CHECK(gf_perm_trans_symmetrize_fc3(S(one), drift, 27, 1, 1) == GF_DONE); /* an atom alone is all drift */
    CHECK(all_are(S(one), 0.0));
    for (size_t k = 0; k < 216; k++) {
        full[k] = eight[k / 27];
    }
    memcpy(before, full, sizeof full);
    count_up(S(drift));
    CHECK(gf_perm_trans_symmetrize_fc3(S(full), S(drift), 257, 1) == GF_COUNT_ABOVE_LIMIT);
    CHECK(gf_perm_trans_symmetrize_fc3(S(full), S(drift), 2, 1001) == GF_COUNT_ABOVE_LIMIT);
    CHECK(gf_perm_trans_symmetrize_fc3(S(full), drift, 107, 2, 1) == GF_WRONG_LENGTH);
    CHECK(gf_perm_trans_symmetrize_fc3(full, 215, S(drift), 2, 1) == GF_WRONG_LENGTH);
    CHECK(memcmp(full, before, sizeof full) == 0 && drift[107] != 0);
    CHECK(gf_perm_trans_symmetrize_fc3(S(full), S(drift), 2, 1) == GF_DONE);
    CHECK(blocks_are(full, turned, 8, 27) && all_are(S(drift), 0.0));
    CHECK(gf_perm_trans_symmetrize_fc3(S(full), S(drift), 2, 3) == GF_DONE); /* without drift and alike: as it was */
    CHECK(blocks_are(full, turned, 8, 27));
    for (size_t k = 0; k < 108; k++) {
        two[k] = four[k / 27];
    }
    memcpy(before, two, sizeof two);
    CHECK(gf_perm_trans_symmetrize_compact_fc3(S(two), TWO, S(done), drift, 54, 2, 1, 2, 1001) == GF_COUNT_ABOVE_LIMIT);
    CHECK(gf_perm_trans_symmetrize_compact_fc3(S(two), TWO, S(done), drift, 55, 2, 1, 2, 1) == GF_WRONG_LENGTH);
    CHECK(gf_perm_trans_symmetrize_compact_fc3(S(two), TWO, done, 3, drift, 54, 2, 1, 2, 1) == GF_WRONG_LENGTH);
    CHECK(memcmp(two, before, sizeof two) == 0 && done[0] == 7);
    CHECK(gf_perm_trans_symmetrize_compact_fc3(S(two), TWO, S(done), drift, 54, 2, 1, 2, 1) == GF_DONE);
    CHECK(all_are(S(two), 0.0) && cleared(S(done)) && all_are(drift, 54, 0.0)); /* the shift turns the sign of all that has no drift */
}

static void transpose_third_order(void) {
    double three[243], two[108], before[243];
    uint8_t done3[] = {7, 7, 7}, done2[] = {7, 7};
    count_up(S(three));
    memcpy(before, three, sizeof three);
    CHECK(gf_transpose_compact_fc3(S(three), THREE_WRONG, S(done3), 3, 1, 3, 0) == GF_BAD_SHIFT_TABLES);
    CHECK(memcmp(three, before, sizeof three) == 0 && done3[0] == 7);
    CHECK(gf_transpose_compact_fc3(S(three), THREE, S(done3), 3, 1, 3, -1) == GF_DONE); /* no meaning: changes nothing */
    CHECK(memcmp(three, before, sizeof three) == 0 && cleared(S(done3)));
    CHECK(gf_transpose_compact_fc3(S(three), THREE, S(done3), 3, 1, 3, 0) == GF_DONE); /* sheet 6 */
    for (size_t q = 0; q < 27; q++) {
        size_t k = q / 9, l = q / 3 % 3, m = q % 3;
        CHECK(three[(1 * 3 + 2) * 27 + q] == before[(2 * 3 + 1) * 27 + l * 9 + k * 3 + m]);
    }
    count_up(S(two));
    CHECK(gf_transpose_compact_fc3(S(two), TWO, S(done2), 2, 1, 2, 0) == GF_DONE); /* sheet 7 */
    CHECK(memcmp(two + 2 * 27, before + 2 * 27, 2 * 27 * sizeof *two) == 0);
    CHECK(two[1 * 9] == before[1 * 3] && two[1 * 3] == before[1 * 9]);
}

/* two atoms that a half shift exchanges: every block moves. The block at atoms 0, 1, k is that at 1, 0, k, which is stored at 0, 1, 1 - k */
static void true_transposes(void) {
    double fc[18], fc3[108], fc4[648], before[648];
    uint8_t done[] = {7, 7};
    count_up(S(before));
    count_up(S(fc));
    CHECK(gf_true_transpose_compact_fc2(S(fc), TWO, done, 1, 2, 1, 2) == GF_WRONG_LENGTH);
    CHECK(memcmp(fc, before, sizeof fc) == 0 && done[0] == 7);
    CHECK(gf_true_transpose_compact_fc2(S(fc), TWO, S(done), 2, 1, 2) == GF_DONE);
    CHECK(cleared(S(done)));
    for (size_t q = 0; q < 18; q++) {
        CHECK(fc[q] == before[q / 9 * 9 + q % 3 * 3 + q / 3 % 3]);
    }
    count_up(S(fc3));
    CHECK(gf_true_transpose_compact_fc3(S(fc3), TWO, S(done), 257, 1, 2, 0) == GF_COUNT_ABOVE_LIMIT);
    CHECK(gf_true_transpose_compact_fc3(S(fc3), TWO, S(done), 2, 1, 2, 3) == GF_DONE); /* no meaning: changes nothing */
    CHECK(memcmp(fc3, before, sizeof fc3) == 0);
    CHECK(gf_true_transpose_compact_fc3(S(fc3), TWO, S(done), 2, 1, 2, 0) == GF_DONE);
    for (size_t q = 0; q < 54; q++) {
        size_t k = q / 27, permuted = q / 3 % 3 * 9 + q / 9 % 3 * 3 + q % 3;
        CHECK(fc3[k * 27 + q % 27] == before[k * 27 + permuted] && fc3[(2 + k) * 27 + q % 27] == before[(3 - k) * 27 + permuted]);
    }
    CHECK(gf_true_transpose_compact_fc3(S(fc3), TWO, S(done), 2, 1, 2, 0) == GF_DONE);
    CHECK(memcmp(fc3, before, sizeof fc3) == 0); /* twice is as before */
    count_up(S(fc4));
    CHECK(gf_true_transpose_compact_fc4(S(fc4), TWO, S(done), 2, 1, 2, -1) == GF_DONE); /* no meaning: changes nothing */
    CHECK(memcmp(fc4, before, sizeof fc4) == 0);
    CHECK(gf_true_transpose_compact_fc4(S(fc4), TWO, S(done), 2, 1, 2, 0) == GF_DONE);
    for (size_t q = 0; q < 324; q++) {
        size_t kl = q / 81, permuted = q / 9 % 3 * 27 + q / 27 % 3 * 9 + q % 9;
        CHECK(fc4[kl * 81 + q % 81] == before[kl * 81 + permuted] && fc4[(4 + kl) * 81 + q % 81] == before[(7 - kl) * 81 + permuted]);
    }
}

/* one atom: the swap of legs a and b exchanges the directions a and b; two swaps of the same legs, in either order, are none */
static void swaps(void) {
    static const size_t step[] = {27, 9, 3, 1};
    double fc4[81], before[81], three[2187];
    uint8_t done[] = {7}, done3[] = {7, 7, 7};
    count_up(S(before));
    count_up(S(three));
    for (size_t a = 0; a < 4; a++) {
        for (size_t b = 0; b < 4; b++) {
            count_up(S(fc4));
            done[0] = 7;
            CHECK(gf_swap_pairs_compact_fc4(S(fc4), ONE, S(done), 1, 1, 1, a, b) == GF_DONE);
            CHECK(done[0] == 0);
            for (size_t q = 0; q < 81; q++) {
                size_t da = q / step[a] % 3, db = q / step[b] % 3;
                CHECK(fc4[q] == before[a == b ? q : q - da * step[a] - db * step[b] + db * step[a] + da * step[b]]);
            }
            CHECK(gf_swap_pairs_compact_fc4(S(fc4), ONE, S(done), 1, 1, 1, b, a) == GF_DONE);
            CHECK(memcmp(fc4, before, sizeof fc4) == 0);
        }
    }
    done[0] = 7;
    CHECK(gf_swap_pairs_compact_fc4(S(fc4), ONE, S(done), 1, 1, 1, 4, 4) == GF_INDEX_OUT_OF_RANGE);
    CHECK(gf_swap_pairs_compact_fc4(S(fc4), ONE, S(done), 1, 1, 1, 0, (size_t)-1) == GF_INDEX_OUT_OF_RANGE);
    CHECK(gf_swap_pairs_compact_fc4(S(fc4), ONE, S(done), 1, 1, 2, 4, 0) == GF_WRONG_LENGTH);
    CHECK(gf_swap_pairs_compact_fc4(S(fc4), ONE, S(done), 65, 1, 1, 4, 0) == GF_COUNT_ABOVE_LIMIT);
    CHECK(memcmp(fc4, before, sizeof fc4) == 0 && done[0] == 7);
    CHECK(gf_swap_pairs_compact_fc4(S(three), THREE_WRONG, S(done3), 3, 1, 3, 0, 4) == GF_INDEX_OUT_OF_RANGE);
    CHECK(gf_swap_pairs_compact_fc4(S(three), THREE_WRONG, S(done3), 3, 1, 3, 0, 1) == GF_BAD_SHIFT_TABLES);
}

static void slabs(void) {
    const double identity[] = {1, 0, 0, 0, 1, 0, 0, 0, 1};
    const int64_t mapping[] = {0};
    double fc3[54], fc4[162], before[162];
    count_up(S(fc3));
    count_up(S(before));
    CHECK(gf_distribute_fc3(S(fc3), 1, 1, S(mapping), 1, S(mirror), 2) == GF_BAD_SLAB);
    CHECK(gf_distribute_fc3(S(fc3), 2, 0, S(mapping), 1, S(mirror), 2) == GF_BAD_SLAB);
    CHECK(gf_distribute_fc3(S(fc3), 1, 0, S(beyond), 1, S(mirror), 2) == GF_INDEX_OUT_OF_RANGE);
    CHECK(memcmp(fc3, before, sizeof fc3) == 0);
    CHECK(gf_distribute_fc3(S(fc3), 1, 0, S(mapping), 1, S(mirror), 2) == GF_DONE);
    CHECK(memcmp(fc3, before, 27 * sizeof *fc3) == 0);
    for (size_t q = 0; q < 27; q++) {
        CHECK(fc3[27 + q] == before[mirrored[q / 9] * 9 + mirrored[q / 3 % 3] * 3 + mirrored[q % 3]]);
    }
    count_up(S(fc4));
    CHECK(gf_distribute_fc4(S(fc4), 0, 0, S(mapping), 1, S(mirror), 2) == GF_BAD_SLAB);
    CHECK(gf_distribute_fc4(S(fc4), 1, 0, S(mapping), 65, S(mirror), 2) == GF_COUNT_ABOVE_LIMIT);
    CHECK(memcmp(fc4, before, sizeof fc4) == 0);
    CHECK(gf_distribute_fc4(S(fc4), 1, 0, S(mapping), 1, S(mirror), 2) == GF_DONE);
    for (size_t q = 0; q < 81; q++) {
        CHECK(fc4[81 + q] == before[mirrored[q / 27] * 27 + mirrored[q / 9 % 3] * 9 + mirrored[q / 3 % 3] * 3 + mirrored[q % 3]]);
    }
    CHECK(gf_distribute_fc4(S(fc4), 1, 0, S(mapping), 1, S(identity), 2) == GF_DONE);
    CHECK(memcmp(fc4, before, 81 * sizeof *fc4) == 0 && memcmp(fc4 + 81, before, 81 * sizeof *fc4) == 0);
}

static void rotated_deltas(void) {
    const double inv_u[] = {1, 2, 4};
    const int64_t images[] = {0};
    double delta_fc2s[9], delta_fc3s[27], fc3[27], fc4[81], work9[9], work27[27];
    count_up(S(delta_fc2s));
    count_up(S(delta_fc3s));
    count_up(S(fc3));
    count_up(S(fc4));
    count_up(S(work9));
    count_up(S(work27));
    CHECK(gf_rotate_delta_fc2s(S(fc3), S(delta_fc2s), S(inv_u), S(mirror), S(beyond), S(work9), 1, 1, 1) == GF_INDEX_OUT_OF_RANGE);
    CHECK(gf_rotate_delta_fc3s(S(fc4), S(delta_fc3s), S(inv_u), S(mirror), S(images), S(work9), 1, 1, 1) == GF_WRONG_LENGTH);
    CHECK(fc3[26] == 27 && fc4[80] == 81 && work9[8] == 9);
    CHECK(gf_rotate_delta_fc2s(S(fc3), S(delta_fc2s), S(inv_u), S(mirror), S(images), S(work9), 1, 1, 1) == GF_DONE);
    CHECK(all_are(S(work9), 0.0));
    for (size_t q = 0; q < 27; q++) {
        CHECK(fc3[q] == inv_u[q / 9] * delta_fc2s[mirrored[q / 3 % 3] * 3 + mirrored[q % 3]]);
    }
    CHECK(gf_rotate_delta_fc3s(S(fc4), S(delta_fc3s), S(inv_u), S(mirror), S(images), S(work27), 1, 1, 1) == GF_DONE);
    CHECK(all_are(S(work27), 0.0));
    for (size_t q = 0; q < 81; q++) {
        CHECK(fc4[q] == inv_u[q / 27] * delta_fc3s[mirrored[q / 9 % 3] * 9 + mirrored[q / 3 % 3] * 3 + mirrored[q % 3]]);
    }
    /* no displacement: +0.0 everywhere */
    CHECK(gf_rotate_delta_fc2s(S(fc3), delta_fc2s, 0, inv_u, 0, S(mirror), S(images), work9, 0, 1, 1, 0) == GF_DONE);
    CHECK(all_are(S(fc3), 0.0));
}

/* the four places of directions 0, 0, 0, 1 hold 1, 2, 3 and 6: their mean is 3 */
static void four_orders(double *block) {
    memset(block, 0, 81 * sizeof *block);
    block[1] = 1;
    block[3] = 2;
    block[9] = 3;
    block[27] = 6;
}

static void fourth_order(void) {
    double fc4[81], before[81];
    uint8_t done[] = {7};
    four_orders(fc4);
    memcpy(before, fc4, sizeof fc4);
    CHECK(gf_set_permutation_symmetry_fc4(S(fc4), S(done), 65) == GF_COUNT_ABOVE_LIMIT);
    CHECK(gf_set_permutation_symmetry_compact_fc4(S(fc4), ONE, S(done), 65, 1, 1) == GF_COUNT_ABOVE_LIMIT);
    CHECK(gf_set_permutation_symmetry_compact_fc4(S(fc4), ONE_BEYOND, S(done), 1, 1, 1) == GF_INDEX_OUT_OF_RANGE);
    CHECK(gf_transpose_compact_fc4(S(fc4), ONE, done, 0, 1, 1, 1, 0) == GF_WRONG_LENGTH);
    CHECK(memcmp(fc4, before, sizeof fc4) == 0 && done[0] == 7);
    CHECK(gf_transpose_compact_fc4(S(fc4), ONE, S(done), 1, 1, 1, 1) == GF_DONE); /* no meaning: changes nothing */
    CHECK(memcmp(fc4, before, sizeof fc4) == 0 && cleared(S(done)));
    CHECK(gf_transpose_compact_fc4(S(fc4), ONE, S(done), 1, 1, 1, 0) == GF_DONE);
    CHECK(fc4[1] == 1 && fc4[3] == 2 && fc4[9] == 6 && fc4[27] == 3);
    done[0] = 7;
    CHECK(gf_set_permutation_symmetry_fc4(S(fc4), S(done), 1) == GF_DONE);
    CHECK(fc4[1] == 3 && fc4[3] == 3 && fc4[9] == 3 && fc4[27] == 3 && cleared(S(done)));
    four_orders(fc4);
    done[0] = 7;
    CHECK(gf_set_permutation_symmetry_compact_fc4(S(fc4), ONE, S(done), 1, 1, 1) == GF_DONE);
    CHECK(fc4[1] == 3 && fc4[3] == 3 && fc4[9] == 3 && fc4[27] == 3 && cleared(S(done)));
}

static void symmetrize_fourth_order_without_drift(void) {
    /* of two atoms all that has no drift turns its sign with each atom */
    const double turned[] = {1, -1, -1, 1, -1, 1, 1, -1, -1, 1, 1, -1, 1, -1, -1, 1};
    double one[81], full[1296] = {0}, eight[648] = {0}, before[1296], drift[648];
    uint8_t done[16];
    memset(done, 7, sizeof done);
    four_orders(one);
    CHECK(gf_perm_trans_symmetrize_fc4(S(one), done, 1, drift, 81, 1, 0) == GF_DONE); /* level 0: the mean of 24 alone */
    CHECK(one[1] == 3 && one[3] == 3 && one[9] == 3 && one[27] == 3 && done[0] == 0 && all_are(drift, 81, 0.0));
    CHECK(gf_perm_trans_symmetrize_fc4(S(one), done, 1, drift, 81, 1, 1) == GF_DONE); /* an atom alone is all drift */
    CHECK(all_are(S(one), 0.0));
    for (size_t k = 1215; k < 1296; k++) {
        full[k] = 16; /* block (1, 1, 1, 1) */
    }
    memcpy(before, full, sizeof full);
    memset(done, 7, sizeof done);
    count_up(S(drift));
    CHECK(gf_perm_trans_symmetrize_fc4(S(full), S(done), S(drift), 65, 1) == GF_COUNT_ABOVE_LIMIT);
    CHECK(gf_perm_trans_symmetrize_fc4(S(full), S(done), S(drift), 2, 1001) == GF_COUNT_ABOVE_LIMIT);
    CHECK(gf_perm_trans_symmetrize_fc4(S(full), S(done), drift, 647, 2, 1) == GF_WRONG_LENGTH);
    CHECK(gf_perm_trans_symmetrize_fc4(S(full), done, 15, S(drift), 2, 1) == GF_WRONG_LENGTH);
    CHECK(gf_perm_trans_symmetrize_fc4(full, 1295, S(done), S(drift), 2, 1) == GF_WRONG_LENGTH);
    CHECK(memcmp(full, before, sizeof full) == 0 && done[0] == 7 && drift[647] != 0);
    CHECK(gf_perm_trans_symmetrize_fc4(S(full), S(done), S(drift), 2, 1) == GF_DONE);
    CHECK(blocks_are(full, turned, 16, 81) && cleared(S(done)) && all_are(S(drift), 0.0));
    CHECK(gf_perm_trans_symmetrize_fc4(S(full), S(done), S(drift), 2, 3) == GF_DONE); /* without drift and alike: as it was */
    CHECK(blocks_are(full, turned, 16, 81));
    for (size_t k = 0; k < 81; k++) {
        eight[k] = 8; /* block (0, 0, 0, 0), and by the shift (1, 1, 1, 1) */
    }
    memcpy(before, eight, sizeof eight);
    memset(done, 7, sizeof done);
    CHECK(gf_perm_trans_symmetrize_compact_fc4(S(eight), TWO, done, 8, drift, 324, 2, 1, 2, 1001) == GF_COUNT_ABOVE_LIMIT);
    CHECK(gf_perm_trans_symmetrize_compact_fc4(S(eight), TWO, done, 8, drift, 325, 2, 1, 2, 1) == GF_WRONG_LENGTH);
    CHECK(gf_perm_trans_symmetrize_compact_fc4(S(eight), TWO, done, 7, drift, 324, 2, 1, 2, 1) == GF_WRONG_LENGTH);
    CHECK(memcmp(eight, before, sizeof eight) == 0 && done[0] == 7);
    CHECK(gf_perm_trans_symmetrize_compact_fc4(S(eight), TWO, done, 8, drift, 324, 2, 1, 2, 1) == GF_DONE);
    CHECK(blocks_are(eight, turned, 8, 81) && cleared(done, 8) && all_are(drift, 324, 0.0));
}

/* set 7 is delivered with the label "AB", set 300 replaces it without a label: the roll that the appender makes of them */
static const uint8_t two_records[] = {
    1, 7, 0, 0, 0, 0, 0, 0, 0, 2, 'A', 'B',     2, 44, 1, 0, 0, 7, 0, 0, 0, 0,
    0, 0, 0, 0,     12, 0, 0, 0,     2, 0, 0, 0,     22, 0, 0, 0,
};

static void append_roll(void) {
    uint8_t lent[40] = {0}, before[40];
    const uint8_t label[] = {'A', 'B'};
    size_t count[] = {8};
    memset(lent + 8, 9, 32);
    CHECK(gf_is_roll(S(lent), 8));
    CHECK(gf_append_roll(S(lent), count[0], 1, 7, 0, S(label), S(count)) == GF_DONE && count[0] == 24);
    memcpy(before, lent, sizeof lent);
    CHECK(gf_append_roll(S(lent), count[0], 2, 300, 0, label, 0, S(count)) == GF_NOT_A_ROLL);  /* no earlier number */
    CHECK(gf_append_roll(S(lent), count[0], 1, 300, 7, label, 0, S(count)) == GF_NOT_A_ROLL);  /* one too many */
    CHECK(gf_append_roll(S(lent), count[0], 0, 300, 0, label, 0, S(count)) == GF_NOT_A_ROLL);
    CHECK(gf_append_roll(S(lent), count[0], 4, 300, 0, label, 0, S(count)) == GF_NOT_A_ROLL);
    CHECK(gf_append_roll(S(lent), count[0], 1, 0, 0, label, 0, S(count)) == GF_NOT_A_ROLL);
    CHECK(gf_append_roll(S(lent), 23, 2, 300, 7, label, 0, S(count)) == GF_NOT_A_ROLL);
    CHECK(gf_append_roll(S(lent), 41, 2, 300, 7, label, 0, S(count)) == GF_NOT_A_ROLL);
    CHECK(gf_append_roll(lent, 37, 24, 2, 300, 7, label, 0, S(count)) == GF_NO_ROOM);          /* one byte short */
    CHECK(gf_append_roll(lent, 37, 24, 2, 300, 0, label, 0, S(count)) == GF_NOT_A_ROLL);       /* 7 before 8 */
    CHECK(gf_append_roll(lent, 37, 24, 2, 300, 7, label, 0, count, 0) == GF_WRONG_LENGTH);     /* 2 before 8 */
    CHECK(gf_append_roll(lent, 37, 24, 2, 300, 0, label, 0, count, 0) == GF_NOT_A_ROLL);       /* 7 before 2 */
    CHECK(memcmp(lent, before, sizeof lent) == 0 && count[0] == 24);
    CHECK(gf_append_roll(S(lent), count[0], 2, 300, 7, label, 0, S(count)) == GF_DONE && count[0] == 38);
    CHECK(memcmp(lent, two_records, sizeof two_records) == 0 && lent[38] == 9 && lent[39] == 9);
}

static void read_roll(void) {
    uint8_t lent[sizeof two_records];
    size_t slots[] = {9, 9, 9, 9, 9, 9};
    memcpy(lent, two_records, sizeof lent);
    CHECK(gf_read_roll(S(lent), sizeof lent, 0, S(slots)) == GF_DONE);
    CHECK(slots[0] == 1 && slots[1] == 7 && slots[2] == 0 && slots[3] == 10 && slots[4] == 2 && slots[5] == 12);
    CHECK(lent[slots[3]] == 'A');
    CHECK(gf_read_roll(S(lent), sizeof lent, 12, S(slots)) == GF_DONE);
    CHECK(slots[0] == 2 && slots[1] == 300 && slots[2] == 7 && slots[3] == 22 && slots[4] == 0 && slots[5] == 22);
    CHECK(gf_read_roll(S(lent), sizeof lent, 22, S(slots)) == GF_ROLL_END && slots[1] == 300);
    CHECK(gf_read_roll(S(lent), sizeof lent, 22, slots, 5) == GF_WRONG_LENGTH);
    CHECK(gf_read_roll(S(lent), sizeof lent, 1, S(slots)) == GF_NOT_A_ROLL && slots[1] == 300);
    CHECK(gf_read_roll(S(lent), sizeof lent, 1, slots, 5) == GF_NOT_A_ROLL);
    CHECK(gf_read_roll(S(lent), sizeof lent - 1, 0, S(slots)) == GF_NOT_A_ROLL);
    CHECK(gf_read_roll(S(lent), sizeof lent + 1, 0, S(slots)) == GF_NOT_A_ROLL);
    /* one of the starts twice */
    lent[22] = 12;
    CHECK(!gf_is_roll(S(lent), sizeof lent) && gf_read_roll(S(lent), sizeof lent, 12, S(slots)) == GF_NOT_A_ROLL);
}

/* the two starts exchanged: read by the former rule alone, and appended anew the roll as it is now */
static void older_roll(void) {
    uint8_t lent[sizeof two_records], renewed[sizeof two_records] = {0};
    size_t slots[] = {9, 9, 9, 9, 9, 9}, count[] = {8}, at = 0;
    memcpy(lent, two_records, sizeof lent);
    CHECK(gf_is_roll_former(S(lent), sizeof lent) && gf_read_roll_former(S(lent), sizeof lent, 22, S(slots)) == GF_ROLL_END);
    lent[22] = 12, lent[26] = 0;
    CHECK(!gf_is_roll(S(lent), sizeof lent) && gf_is_roll_former(S(lent), sizeof lent));
    CHECK(gf_read_roll(S(lent), sizeof lent, 12, S(slots)) == GF_NOT_A_ROLL && gf_read_roll(S(lent), sizeof lent, 22, S(slots)) == GF_NOT_A_ROLL);
    CHECK(gf_append_roll(S(lent), sizeof lent, 1, 5, 0, lent, 0, S(count)) == GF_NOT_A_ROLL);
    CHECK(gf_stands_now(S(lent), sizeof lent, 7, S(count)) == GF_NOT_A_ROLL && count[0] == 8);
    CHECK(gf_retire_all(S(lent), sizeof lent, 7, S(count)) == GF_NOT_A_ROLL && count[0] == 8 && lent[22] == 12);
    CHECK(gf_read_roll_former(S(lent), sizeof lent, 1, S(slots)) == GF_NOT_A_ROLL && gf_read_roll_former(S(lent), sizeof lent, 12, slots, 5) == GF_WRONG_LENGTH);
    CHECK(slots[0] == 9);
    while (gf_read_roll_former(S(lent), sizeof lent, at, S(slots)) == GF_DONE) {
        CHECK(gf_append_roll(S(renewed), count[0], (uint8_t)slots[0], (uint32_t)slots[1], (uint32_t)slots[2], lent + slots[3], slots[4], S(count)) == GF_DONE);
        at = slots[5];
    }
    CHECK(at == 22 && count[0] == sizeof renewed && memcmp(renewed, two_records, sizeof renewed) == 0);
    lent[26] = 12;
    CHECK(!gf_is_roll_former(S(lent), sizeof lent) && gf_read_roll_former(S(lent), sizeof lent, 0, S(slots)) == GF_NOT_A_ROLL);
}

static void stands_now(void) {
    uint8_t lent[200] = {0};
    size_t count[] = {8}, set[] = {9};
    const uint8_t *label = lent;
    CHECK(gf_stands_now(S(lent), count[0], 7, S(set)) == GF_SET_UNKNOWN && set[0] == 9);
    CHECK(gf_append_roll(S(lent), count[0], 1, 7, 0, label, 0, S(count)) == GF_DONE);
    CHECK(gf_append_roll(S(lent), count[0], 2, 41, 7, label, 0, S(count)) == GF_DONE);
    CHECK(gf_append_roll(S(lent), count[0], 2, 57, 41, label, 0, S(count)) == GF_DONE);
    CHECK(gf_stands_now(S(lent), count[0], 7, S(set)) == GF_DONE && set[0] == 57);
    CHECK(gf_stands_now(S(lent), count[0], 57, S(set)) == GF_DONE && set[0] == 57);
    set[0] = 9;
    CHECK(gf_stands_now(S(lent), count[0], 8, S(set)) == GF_SET_UNKNOWN);
    CHECK(gf_stands_now(S(lent), count[0] - 1, 7, S(set)) == GF_NOT_A_ROLL);
    CHECK(gf_stands_now(S(lent), count[0] - 1, 7, set, 0) == GF_NOT_A_ROLL);    /* 7 before 2 */
    CHECK(gf_stands_now(S(lent), count[0], 7, set, 0) == GF_WRONG_LENGTH);
    CHECK(gf_append_roll(S(lent), count[0], 3, 41, 0, label, 0, S(count)) == GF_DONE);
    CHECK(gf_stands_now(S(lent), count[0], 7, S(set)) == GF_DONE && set[0] == 57);         /* 41 is on the way to it */
    set[0] = 9;
    CHECK(gf_append_roll(S(lent), count[0], 3, 57, 0, label, 0, S(count)) == GF_DONE);
    CHECK(gf_stands_now(S(lent), count[0], 7, S(set)) == GF_SET_RETIRED && set[0] == 9);   /* the end */
    CHECK(gf_append_roll(S(lent), count[0], 2, 58, 41, label, 0, S(count)) == GF_DONE);    /* a second time */
    CHECK(gf_stands_now(S(lent), count[0], 57, S(set)) == GF_NOT_LAWFUL);
    CHECK(gf_stands_now(S(lent), count[0], 57, set, 2) == GF_WRONG_LENGTH);     /* 2 before 9 */
}

static void retire_all(void) {
    uint8_t lent[8 + 14 * 5] = {0}, before[sizeof lent] = {0};
    size_t count[] = {8};
    const uint8_t *label = before;
    CHECK(gf_append_roll(S(lent), count[0], 1, 41, 0, label, 0, S(count)) == GF_DONE);
    CHECK(gf_append_roll(S(lent), count[0], 2, 7, 41, label, 0, S(count)) == GF_DONE);
    memcpy(before, lent, sizeof lent);
    CHECK(gf_retire_all(S(lent), count[0], 8, S(count)) == GF_UNKNOWN_SET && count[0] == 36);
    CHECK(gf_retire_all(lent, 63, 36, 41, S(count)) == GF_NO_ROOM);      /* one of two would fit */
    CHECK(gf_retire_all(lent, 63, 36, 41, count, 0) == GF_WRONG_LENGTH); /* 2 before 8 */
    CHECK(gf_retire_all(S(lent), 35, 41, count, 0) == GF_NOT_A_ROLL);    /* 7 before 2 */
    CHECK(memcmp(lent, before, sizeof lent) == 0);
    CHECK(gf_retire_all(S(lent), 36, 7, S(count)) == GF_DONE && count[0] == 64);
    CHECK(lent[20] == 3 && lent[21] == 7 && lent[29] == 0 && lent[30] == 3 && lent[31] == 41); /* rising, empty labels */
    CHECK(gf_retire_all(lent, 64, 64, 41, S(count)) == GF_DONE && count[0] == 64);             /* nothing left to add */
    CHECK(gf_append_roll(S(lent), 64, 1, 7, 0, label, 0, S(count)) == GF_DONE);
    CHECK(gf_retire_all(S(lent), count[0], 8, S(count)) == GF_NOT_LAWFUL); /* 9 before 11 */
}

/* audits: a set as it is, and with one number changed in one block of a group; a refused call leaves the slots */
static void same_sets(void) {
    double a[] = {1.0, -0.0, 3.0}, b[] = {1.0, 0.0, 4.0}, numbers[2] = {7.0, 8.0};
    size_t place[2] = {5, 6};
    CHECK(gf_same_set(S(a), S(a), S(place), S(numbers)) == GF_ALIKE && place[0] == 5 && numbers[1] == 8.0);
    CHECK(gf_same_set(S(a), b, 2, S(place), S(numbers)) == GF_WRONG_LENGTH && place[0] == 5);
    CHECK(gf_same_set(S(a), S(b), place, 1, S(numbers)) == GF_WRONG_LENGTH && numbers[0] == 7.0);
    CHECK(gf_same_set(S(a), S(b), S(place), numbers, 1) == GF_WRONG_LENGTH && numbers[0] == 7.0 && place[0] == 5);
    CHECK(gf_same_set(S(a), S(b), S(place), S(numbers)) == GF_UNLIKE && place[0] == 1 && place[1] == 0);
    CHECK(same_bits(numbers[0], -0.0) && same_bits(numbers[1], 0.0));
    a[1] = b[1] = NAN, b[2] = 3.0;
    CHECK(gf_same_set(S(a), S(b), S(place), S(numbers)) == GF_ALIKE);
    CHECK(gf_same_set(a, 0, b, 0, S(place), S(numbers)) == GF_ALIKE);
}

static void audits_second_order(void) {
    double numbers[2] = {7.0, 8.0}, fc[36] = {0}, three[27] = {0};
    size_t place[2] = {5, 6};
    fc[10] = 2.0, fc[21] = 2.0; /* (0, x), (1, y) and (1, y), (0, x) */
    CHECK(gf_audit_fc2(S(fc), S(place), S(numbers), 2) == GF_ALIKE && place[0] == 5 && numbers[0] == 7.0);
    fc[21] = 2.5;
    CHECK(gf_audit_fc2(S(fc), S(place), S(numbers), 1025) == GF_COUNT_ABOVE_LIMIT && gf_audit_fc2(S(fc), place, 1, S(numbers), 1025) == GF_COUNT_ABOVE_LIMIT);
    CHECK(gf_audit_fc2(S(fc), place, 1, S(numbers), 2) == GF_WRONG_LENGTH && gf_audit_fc2(fc, 35, S(place), S(numbers), 2) == GF_WRONG_LENGTH);
    CHECK(gf_audit_fc2(S(fc), S(place), numbers, 3, 2) == GF_WRONG_LENGTH && place[0] == 5 && numbers[0] == 7.0);
    CHECK(gf_audit_fc2(S(fc), S(place), S(numbers), 2) == GF_UNLIKE && place[0] == 10 && place[1] == 1);
    CHECK(numbers[0] == 2.0 && numbers[1] == 2.5);
    CHECK(gf_audit_fc2(fc, 0, S(place), S(numbers), 0) == GF_ALIKE);

    three[13] = three[22] = 1.0; /* blocks (0, 1) and (0, 2) are each other's exchange; place 13 is (1, 1) of the first */
    CHECK(gf_audit_compact_fc2(S(three), THREE, S(place), S(numbers), 3, 1, 3) == GF_ALIKE);
    three[22] = -1.0;
    CHECK(gf_audit_compact_fc2(S(three), THREE, S(place), S(numbers), 3, 1, 3) == GF_UNLIKE && place[0] == 13 && place[1] == 1);
    CHECK(numbers[0] == 1.0 && numbers[1] == -1.0);
    CHECK(gf_audit_compact_fc2(S(three), S(three_p2s), S(three_s2pp), S(three_wrong), S(three_perms), S(place), S(numbers), 3, 1, 3) == GF_BAD_SHIFT_TABLES);
    CHECK(gf_audit_compact_fc2(S(three), S(beyond), S(three_s2pp), S(three_nsym), S(three_perms), S(place), S(numbers), 3, 1, 3) == GF_INDEX_OUT_OF_RANGE);
    CHECK(gf_audit_compact_fc2(S(three), THREE, S(place), S(numbers), 3, 1, 1025) == GF_COUNT_ABOVE_LIMIT);
    CHECK(gf_audit_compact_fc2(S(three), THREE, S(place), numbers, 1, 3, 1, 1025) == GF_COUNT_ABOVE_LIMIT);
    CHECK(gf_audit_compact_fc2(S(three), THREE, S(place), numbers, 1, 3, 1, 3) == GF_WRONG_LENGTH && place[0] == 13 && numbers[1] == -1.0);
}

static void audits_third_order(void) {
    double numbers[2] = {7.0, 8.0}, fc3[27], set3[243];
    size_t place[2] = {5, 6};
    uint8_t done[9];
    count_up(fc3, 27);
    CHECK(gf_audit_fc3(S(fc3), S(place), S(numbers), 257) == GF_COUNT_ABOVE_LIMIT && gf_audit_fc3(fc3, 26, S(place), S(numbers), 1) == GF_WRONG_LENGTH);
    CHECK(gf_audit_fc3(S(fc3), place, 3, S(numbers), 1) == GF_WRONG_LENGTH && place[0] == 5 && numbers[0] == 7.0);
    CHECK(gf_audit_fc3(S(fc3), S(place), S(numbers), 1) == GF_UNLIKE && place[0] == 1 && place[1] == 1);
    CHECK(numbers[0] == 2.0 && numbers[1] == 4.0); /* (x, x, y) and (x, y, x) */
    CHECK(gf_set_permutation_symmetry_fc3(S(fc3), 1) == GF_DONE && gf_audit_fc3(S(fc3), S(place), S(numbers), 1) == GF_ALIKE);
    count_up(set3, 243);
    CHECK(gf_set_permutation_symmetry_compact_fc3(S(set3), THREE, S(done), 3, 1, 3) == GF_DONE);
    CHECK(gf_audit_compact_fc3(S(set3), THREE, S(place), S(numbers), 3, 1, 3) == GF_ALIKE);
    set3[7 * 27 + 5] += 1.0; /* in one of the six blocks of a group: the first that differs is in the first of them */
    CHECK(gf_audit_compact_fc3(S(set3), THREE, S(place), S(numbers), 3, 1, 3) == GF_UNLIKE && place[0] / 27 == 5 && numbers[1] == numbers[0] + 1.0);
    CHECK(gf_audit_compact_fc3(S(set3), THREE, S(place), S(numbers), 257, 1, 3) == GF_COUNT_ABOVE_LIMIT);
    CHECK(gf_audit_compact_fc3(set3, 242, THREE, S(place), S(numbers), 3, 1, 3) == GF_WRONG_LENGTH);
    CHECK(gf_audit_compact_fc3(S(set3), S(three_p2s), S(three_s2pp), S(three_wrong), S(three_perms), S(place), S(numbers), 3, 1, 3) == GF_BAD_SHIFT_TABLES);
    CHECK(gf_audit_compact_fc3(S(set3), S(beyond), S(three_s2pp), S(three_nsym), S(three_perms), S(place), S(numbers), 3, 1, 3) == GF_INDEX_OUT_OF_RANGE);
    CHECK(place[0] / 27 == 5 && numbers[1] == numbers[0] + 1.0);
}

static void audits_fourth_order(void) {
    double numbers[2] = {7.0, 8.0}, fc4[81], set4[2187];
    size_t place[2] = {5, 6};
    uint8_t done[27];
    count_up(fc4, 81);
    CHECK(gf_audit_fc4(S(fc4), S(place), S(numbers), 65) == GF_COUNT_ABOVE_LIMIT && gf_audit_fc4(fc4, 80, S(place), S(numbers), 1) == GF_WRONG_LENGTH);
    CHECK(gf_audit_fc4(S(fc4), S(place), numbers, 0, 1) == GF_WRONG_LENGTH && place[0] == 5 && numbers[0] == 7.0);
    CHECK(gf_audit_fc4(S(fc4), S(place), S(numbers), 1) == GF_UNLIKE && place[0] == 1 && place[1] == 1 && numbers[1] == 4.0);
    CHECK(gf_set_permutation_symmetry_fc4(S(fc4), done, 1, 1) == GF_DONE && gf_audit_fc4(S(fc4), S(place), S(numbers), 1) == GF_ALIKE);
    count_up(set4, 2187);
    CHECK(gf_set_permutation_symmetry_compact_fc4(S(set4), THREE, S(done), 3, 1, 3) == GF_DONE);
    CHECK(gf_audit_compact_fc4(S(set4), THREE, S(place), S(numbers), 3, 1, 3) == GF_ALIKE);
    set4[2185] += 1.0; /* directions z z z y of block (0, 2, 2, 2) */
    CHECK(gf_audit_compact_fc4(S(set4), THREE, S(place), S(numbers), 3, 1, 3) == GF_UNLIKE && place[1] != 0 && numbers[0] != numbers[1]);
    CHECK(gf_audit_compact_fc4(S(set4), THREE, S(place), S(numbers), 65, 1, 3) == GF_COUNT_ABOVE_LIMIT);
    CHECK(gf_audit_compact_fc4(set4, 0, THREE, S(place), S(numbers), 3, 1, 3) == GF_WRONG_LENGTH);
    CHECK(gf_audit_compact_fc4(S(set4), S(three_p2s), S(three_s2pp), S(three_wrong), S(three_perms), S(place), S(numbers), 3, 1, 3) == GF_BAD_SHIFT_TABLES);
    CHECK(gf_audit_compact_fc4(S(set4), S(beyond), S(three_s2pp), S(three_nsym), S(three_perms), S(place), S(numbers), 3, 1, 3) == GF_INDEX_OUT_OF_RANGE);
}

/* ---- to the last bit, as the header states the operations ---- */

/* numbers of many sizes, so that sums in another order have other last bits */
static double uneven(uint64_t *state) {
    *state = *state * UINT64_C(6364136223846793005) + UINT64_C(1442695040888963407);
    return ldexp((double)(*state >> 12) - 2251799813685248.0, -52 + (int)(*state >> 8 & 15));
}

/* the distance at which two positions are just not near */
static double stated_distance(const double *l, const uint8_t *periodic, const double *pos, const double *rot_pos) {
    double d[3], c[3];
    for (size_t k = 0; k < 3; k++) {
        d[k] = pos[k] - rot_pos[k];
        d[k] = periodic[k] ? d[k] - gf_round(d[k]) : d[k];
    }
    for (size_t k = 0; k < 3; k++) {
        c[k] = ((0.0 + l[3 * k] * d[0]) + l[3 * k + 1] * d[1]) + l[3 * k + 2] * d[2];
    }
    return gf_sqrt(((0.0 + c[0] * c[0]) + c[1] * c[1]) + c[2] * c[2]);
}

static void stated_distances(void) {
    uint64_t state = 1;
    for (size_t round = 0; round < 200; round++) {
        double lattice[9], pos[3], rot_pos[3];
        uint8_t periodic[3], mark[1];
        int64_t slot[1];
        size_t pair[2];
        for (size_t k = 0; k < 9; k++) {
            lattice[k] = uneven(&state);
        }
        for (size_t k = 0; k < 3; k++) {
            pos[k] = uneven(&state), rot_pos[k] = uneven(&state), periodic[k] = round >> k & 1;
        }
        double d = stated_distance(lattice, periodic, pos, rot_pos), above = nextafter(d, INFINITY);
        CHECK(gf_compute_permutation(S(slot), S(lattice), d, S(periodic), S(pos), S(rot_pos), S(pair), 1) == GF_NOT_MATCHED);
        CHECK(gf_compute_permutation(S(slot), S(lattice), above, S(periodic), S(pos), S(rot_pos), S(pair), 1) == GF_DONE);
        CHECK(gf_find_permutation(S(slot), S(mark), S(lattice), d, S(periodic), S(pos), S(rot_pos), 1) == GF_NO_MATCH);
        CHECK(gf_find_permutation(S(slot), S(mark), S(lattice), above, S(periodic), S(pos), S(rot_pos), 1) == GF_DONE);
    }
}

/* the worst of sums of n numbers from 0.0, rising, `step` apart; the sums begin at the places of `starts` and are looked at in that order */
static double stated_worst(const double *fc, const size_t *starts, const size_t *steps, size_t sums, size_t n, size_t *first) {
    double worst = 0.0;
    for (size_t r = 0; r < sums; r++) {
        double sum = 0.0;
        for (size_t i = 0; i < n; i++) {
            sum += fc[starts[r] + i * steps[r]];
        }
        if (fabs(sum) > worst) {
            worst = fabs(sum), *first = r;
        }
    }
    return worst;
}

static void stated_drifts(void) {
    enum { n = 5, lines = 2 * n * 9, legs = 3 * n * n * 27 };
    static double fc[n * n * 9], fc3[n * n * n * 27], compact[27], full[81];
    static size_t starts[legs], steps[legs];
    double value[1];
    size_t place[4], at[6], first = 0;
    uint64_t state = 7;
    for (size_t round = 0; round < 50; round++) {
        for (size_t k = 0; k < n * n * 9; k++) {
            fc[k] = uneven(&state);
        }
        for (size_t r = 0; r < lines; r++) { /* rows, then columns; atom, then directions */
            size_t atom = r / 9 % n, k = r % 9;
            starts[r] = r < n * 9 ? atom * n * 9 + k : atom * 9 + k, steps[r] = r < n * 9 ? 9 : n * 9;
        }
        CHECK(gf_drift_report(S(fc), S(value), S(place), n) == GF_DRIFT_WORST);
        CHECK(same_bits(value[0], stated_worst(fc, starts, steps, lines, n, &first)));
        CHECK(is_place(place, first / 9 / n, first / 9 % n, first % 9 / 3, first % 3));
        for (size_t k = 0; k < 27; k++) { /* three atoms, shifts in a circle, and the full set that is read out */
            compact[k] = uneven(&state);
        }
        double of_full[1];
        size_t place_of_full[4];
        CHECK(gf_compact_to_full_fc2(S(full), S(compact), THREE, 3, 1, 3) == GF_DONE);
        CHECK(gf_drift_report(S(full), S(of_full), S(place_of_full), 3) == GF_DRIFT_WORST);
        CHECK(gf_drift_report_compact_fc2(S(compact), THREE, S(value), S(place), 3, 1, 3) == GF_DRIFT_WORST);
        CHECK(same_bits(value[0], of_full[0]) && memcmp(place, place_of_full, sizeof place) == 0);
        for (size_t k = 0; k < n * n * n * 27; k++) {
            fc3[k] = uneven(&state);
        }
        for (size_t r = 0; r < legs; r++) { /* last leg, middle, first; the two other atoms, then directions */
            size_t t = r / 27 / n / n, a = r / 27 / n % n, b = r / 27 % n, k = r % 27;
            starts[r] = k + 27 * (t == 0 ? (a * n + b) * n : t == 1 ? a * n * n + b : a * n + b);
            steps[r] = 27 * (t == 0 ? 1 : t == 1 ? n : n * n);
        }
        CHECK(gf_drift_report_fc3(S(fc3), S(value), S(at), n) == GF_DRIFT_WORST);
        CHECK(same_bits(value[0], stated_worst(fc3, starts, steps, legs, n, &first)));
        CHECK(at[0] == 2 - first / 27 / n / n && at[1] == first / 27 / n % n && at[2] == first / 27 % n);
        CHECK(at[3] == first % 27 / 9 && at[4] == first % 9 / 3 && at[5] == first % 3);
    }
}

/* where the number of x, y, z stands, permutation 120 reads that of y, z, x, and 201 that of z, x, y */
static void stated_permutations(void) {
    static const size_t read[] = {5, 7, 11, 15, 19, 21}; /* 012, 021, 102, 120, 201, 210 of x, y, z, one atom */
    for (size_t k = 1; k < 6; k++) {
        double fc3[27] = {0}, numbers[2];
        size_t place[2];
        fc3[read[k]] = 1.0;
        CHECK(gf_audit_fc3(S(fc3), S(place), S(numbers), 1) == GF_UNLIKE);
        CHECK(place[0] == 5 && place[1] == k && numbers[0] == 0.0 && numbers[1] == 1.0);
    }
}

/* reports: the worst of all differences and the first place that has it; a refused call leaves the slots */
static void set_differences(void) {
    double a[] = {1.0, -0.0, 3.0}, b[] = {1.0, 0.0, 3.0}, value[1] = {7.0};
    size_t place[2] = {5, 6};
    CHECK(gf_set_difference(S(a), b, 2, S(value), S(place)) == GF_WRONG_LENGTH && place[0] == 5 && value[0] == 7.0);
    CHECK(gf_set_difference(S(a), S(b), value, 0, S(place)) == GF_WRONG_LENGTH && gf_set_difference(S(a), S(b), S(value), place, 1) == GF_WRONG_LENGTH);
    CHECK(gf_set_difference(S(a), S(b), S(value), S(place)) == GF_DRIFT_STILL && same_bits(value[0], 0.0) && place[0] == 0 && place[1] == 0);
    b[0] = 0.5, b[2] = 3.5;
    CHECK(gf_set_difference(S(a), S(b), S(value), S(place)) == GF_DRIFT_WORST && value[0] == 0.5 && place[0] == 0 && place[1] == 0);
    b[2] = 4.0;
    CHECK(gf_set_difference(S(a), S(b), S(value), S(place)) == GF_DRIFT_WORST && value[0] == 1.0 && place[0] == 2);
    a[1] = b[1] = INFINITY;
    CHECK(gf_set_difference(S(a), S(b), S(value), S(place)) == GF_DRIFT_NO_NUMBER && isnan(value[0]) && place[0] == 1);
    CHECK(gf_set_difference(a, 0, b, 0, S(value), S(place)) == GF_DRIFT_STILL);
}

static void difference_reports(void) {
    double value[1] = {7.0}, fc[36] = {0}, three[27] = {0}, fc3[27], fc4[81];
    size_t place[2] = {5, 6};
    fc[10] = 2.0, fc[21] = 2.5; /* (0, x), (1, y) and (1, y), (0, x) */
    CHECK(gf_difference_report_fc2(S(fc), S(value), S(place), 1025) == GF_COUNT_ABOVE_LIMIT && gf_difference_report_fc2(S(fc), S(value), place, 1, 1025) == GF_COUNT_ABOVE_LIMIT);
    CHECK(gf_difference_report_fc2(S(fc), S(value), place, 1, 2) == GF_WRONG_LENGTH && gf_difference_report_fc2(fc, 35, S(value), S(place), 2) == GF_WRONG_LENGTH);
    CHECK(place[0] == 5 && value[0] == 7.0);
    CHECK(gf_difference_report_fc2(S(fc), S(value), S(place), 2) == GF_DRIFT_WORST && value[0] == 0.5 && place[0] == 10 && place[1] == 1);
    fc[21] = 2.0;
    CHECK(gf_difference_report_fc2(S(fc), S(value), S(place), 2) == GF_DRIFT_STILL && value[0] == 0.0 && place[0] == 0);
    fc[35] = INFINITY;
    CHECK(gf_difference_report_fc2(S(fc), S(value), S(place), 2) == GF_DRIFT_NO_NUMBER && place[0] == 35 && place[1] == 0);
    CHECK(gf_difference_report_fc2(fc, 0, S(value), S(place), 0) == GF_DRIFT_STILL);
    three[13] = 1.0, three[22] = -1.0; /* blocks (0, 1) and (0, 2) are each other's exchange */
    CHECK(gf_difference_report_compact_fc2(S(three), THREE, S(value), S(place), 3, 1, 3) == GF_DRIFT_WORST && value[0] == 2.0 && place[0] == 13 && place[1] == 1);
    CHECK(gf_difference_report_compact_fc2(S(three), S(three_p2s), S(three_s2pp), S(three_wrong), S(three_perms), S(value), S(place), 3, 1, 3) == GF_BAD_SHIFT_TABLES);
    CHECK(gf_difference_report_compact_fc2(S(three), S(beyond), S(three_s2pp), S(three_nsym), S(three_perms), S(value), S(place), 3, 1, 3) == GF_INDEX_OUT_OF_RANGE);
    CHECK(gf_difference_report_compact_fc2(S(three), THREE, S(value), place, 3, 3, 1, 1025) == GF_COUNT_ABOVE_LIMIT && place[0] == 13);
    count_up(fc3, 27), count_up(fc4, 81);
    CHECK(gf_difference_report_fc3(S(fc3), S(value), S(place), 1) == GF_DRIFT_WORST && value[0] == 16.0 && place[0] == 2 && place[1] == 4);
    CHECK(gf_difference_report_compact_fc3(S(fc3), ONE, S(value), S(place), 1, 1, 1) == GF_DRIFT_WORST && value[0] == 16.0);
    CHECK(gf_difference_report_fc3(S(fc3), S(value), S(place), 257) == GF_COUNT_ABOVE_LIMIT && gf_difference_report_compact_fc3(S(fc3), ONE, S(value), S(place), 1, 1, 257) == GF_COUNT_ABOVE_LIMIT);
    CHECK(gf_difference_report_fc4(S(fc4), S(value), S(place), 1) == GF_DRIFT_WORST && value[0] == 64.0);
    CHECK(gf_difference_report_compact_fc4(S(fc4), ONE, S(value), S(place), 1, 1, 1) == GF_DRIFT_WORST && value[0] == 64.0);
    CHECK(gf_difference_report_fc4(S(fc4), S(value), S(place), 65) == GF_COUNT_ABOVE_LIMIT && gf_difference_report_compact_fc4(S(fc4), ONE, S(value), S(place), 65, 1, 1) == GF_COUNT_ABOVE_LIMIT);
}

static void crystal_reports(void) {
    /* a quarter turn about z, and a mirror; both leave the one atom where it is */
    double r_carts[] = {0, -1, 0, 1, 0, 0, 0, 0, 1, 1, 0, 0, 0, -1, 0, 0, 0, 1};
    int64_t operations[] = {0, 0}, outside[] = {0, 1};
    double value[1] = {7.0}, fc[9] = {2, 0, 0, 0, 2, 0, 0, 0, 3}, fc3[27] = {0}, fc4[81] = {0};
    size_t place[2] = {5, 6};
    CHECK(gf_crystal_report_fc2(S(fc), S(r_carts), S(operations), S(value), S(place), 1, 2) == GF_DRIFT_STILL && place[0] == 0);
    fc[4] = 2.5;
    CHECK(gf_crystal_report_fc2(S(fc), S(r_carts), S(operations), S(value), S(place), 1, 2) == GF_DRIFT_WORST && value[0] == 0.5 && place[0] == 0 && place[1] == 0);
    fc[4] = 2, fc[2] = 1;
    CHECK(gf_crystal_report_compact_fc2(S(fc), ONE, S(r_carts), S(operations), S(value), S(place), 1, 1, 1, 2) == GF_DRIFT_WORST && value[0] == 1.0 && place[1] == 2);
    fc[2] = 0, fc[1] = fc[3] = 1; /* the mirror changes its sign, the turn too */
    CHECK(gf_crystal_report_compact_fc2(S(fc), ONE, S(r_carts), S(operations), S(value), S(place), 1, 1, 1, 2) == GF_DRIFT_WORST && value[0] == 2.0 && place[0] == 0);
    CHECK(gf_crystal_report_fc2(S(fc), S(r_carts), S(outside), S(value), S(place), 1, 2) == GF_INDEX_OUT_OF_RANGE && value[0] == 2.0);
    CHECK(gf_crystal_report_fc2(S(fc), r_carts, 9, S(operations), S(value), S(place), 1, 2) == GF_WRONG_LENGTH);
    CHECK(gf_crystal_report_fc2(S(fc), S(r_carts), operations, 1, S(value), S(place), 1, 2) == GF_WRONG_LENGTH);
    CHECK(gf_crystal_report_fc2(S(fc), S(r_carts), S(operations), S(value), place, 1, 1, 1025) == GF_COUNT_ABOVE_LIMIT);
    CHECK(gf_crystal_report_fc2(S(fc), S(r_carts), S(operations), S(value), S(place), 1, 1025) == GF_COUNT_ABOVE_LIMIT);
    CHECK(gf_crystal_report_fc2(S(fc), r_carts, 0, operations, 0, S(value), S(place), 1, 0) == GF_DRIFT_STILL);
    CHECK(gf_crystal_report_fc3(S(fc3), S(r_carts), S(operations), S(value), S(place), 1, 2) == GF_DRIFT_STILL);
    CHECK(gf_crystal_report_compact_fc3(S(fc3), ONE, S(r_carts), S(operations), S(value), S(place), 1, 1, 1, 2) == GF_DRIFT_STILL);
    fc3[13] = 1; /* y y y: the turn makes it x x x, the mirror changes its sign */
    CHECK(gf_crystal_report_fc3(S(fc3), S(r_carts), S(operations), S(value), S(place), 1, 2) == GF_DRIFT_WORST && value[0] == 2.0 && place[0] == 1 && place[1] == 13);
    CHECK(gf_crystal_report_compact_fc3(S(fc3), ONE, S(r_carts), S(operations), S(value), S(place), 257, 1, 1, 2) == GF_COUNT_ABOVE_LIMIT);
    CHECK(gf_crystal_report_fc4(S(fc4), S(r_carts), S(operations), S(value), S(place), 1, 2) == GF_DRIFT_STILL);
    fc4[0] = 1;
    CHECK(gf_crystal_report_compact_fc4(S(fc4), ONE, S(r_carts), S(operations), S(value), S(place), 1, 1, 1, 2) == GF_DRIFT_WORST && value[0] == 1.0);
    CHECK(gf_crystal_report_compact_fc4(S(fc4), ONE, S(r_carts), S(outside), S(value), S(place), 1, 1, 1, 2) == GF_INDEX_OUT_OF_RANGE);
}

static void leg_sums(void) {
    double value[1] = {7.0}, fc3[27] = {0}, fc4[81] = {0};
    size_t place[2] = {5, 6};
    CHECK(gf_drift_report_compact_fc3(S(fc3), ONE, S(value), S(place), 1, 1, 1) == GF_DRIFT_STILL && place[0] == 0 && place[1] == 0);
    fc3[5] = 2.0;
    CHECK(gf_drift_report_compact_fc3(S(fc3), ONE, S(value), S(place), 1, 1, 1) == GF_DRIFT_WORST && value[0] == 2.0 && place[0] == 0 && place[1] == 5);
    CHECK(gf_drift_report_compact_fc3(S(fc3), ONE, S(value), S(place), 1, 1, 257) == GF_COUNT_ABOVE_LIMIT && place[1] == 5);
    fc4[80] = -3.0;
    CHECK(gf_drift_report_fc4(S(fc4), S(value), S(place), 1) == GF_DRIFT_WORST && value[0] == 3.0 && place[0] == 0 && place[1] == 80);
    CHECK(gf_drift_report_compact_fc4(S(fc4), ONE, S(value), S(place), 1, 1, 1) == GF_DRIFT_WORST && value[0] == 3.0);
    CHECK(gf_drift_report_fc4(S(fc4), S(value), S(place), 65) == GF_COUNT_ABOVE_LIMIT && gf_drift_report_fc4(S(fc4), S(value), S(place), 2) == GF_WRONG_LENGTH);
}

int main(void) {
    about();
    stated_distances();
    stated_drifts();
    stated_permutations();
    rounding();
    shift_tables();
    explained();
    matching();
    surfaces();
    finding();
    full_second_order();
    drift();
    drifts();
    edits();
    compact_second_order();
    full_sets();
    both_ways();
    distribute_second_order();
    symmetrize_third_order();
    symmetrize_third_order_without_drift();
    transpose_third_order();
    true_transposes();
    swaps();
    slabs();
    rotated_deltas();
    fourth_order();
    symmetrize_fourth_order_without_drift();
    append_roll();
    read_roll();
    older_roll();
    stands_now();
    retire_all();
    same_sets();
    audits_second_order();
    audits_third_order();
    audits_fourth_order();
    set_differences();
    difference_reports();
    crystal_reports();
    leg_sums();
    printf("%d of %d hold\n", checks - failures, checks);
    return failures != 0;
}
