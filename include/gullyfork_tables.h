/*
 * Gullyfork with less to pass: the calls of gullyfork.h, each slice as one argument and the shift tables as one, and a text that says
 * which argument a refusal is about. Header only, over the plain names, which stay as they are.
 *
 * For each call gf_NAME of gullyfork.h that takes a slice there is gft_NAME here, and gullyfork.h says what it does, the stated lengths, the
 * limits and the refusals. gft_NAME passes its arguments to gf_NAME in order, and returns its answer. Nothing is checked before and nothing
 * is changed after, so what is proved of gf_NAME holds here. The last argument is a text, or NULL:
 *
 *     struct gf_tables tables = gf_tables_of(p2s, s2pp, nsym_list, perms);
 *     struct gf_set fc3 = {numbers, number_of_them};
 *     struct gf_why why;
 *     if (GF_REFUSED(gft_set_permutation_symmetry_compact_fc3(fc3, &tables, done, &why)))
 *         puts(why.text);
 *
 * prints, where a number is missing,
 *
 *     set_permutation_symmetry_compact_fc3: refusal 2, a slice is not as long as stated (fc3: length 107, stated
 *     n_patom * n_satom * n_satom * 27 = 108)
 *
 * in one line. Named are a count above its limit (1), a slice of a wrong length (2), an entry or an index that is out of range (3), and a
 * slab that is (4): the first such argument, in their order; and the rule that shift tables break, with its rows and atoms (6), as
 * gf_explain_shift_tables has it. Other refusals have their words alone. A call that is not refused leaves an empty text.
 *
 * TO ADD A CALL gf_NAME: a function gft_NAME with the arguments of gf_NAME in order; each slice is one argument, the four tables and the
 * three counts are `const struct gf_tables *tables`. Three lines: GF_OPEN(tables), if it has tables; the call, with GF_SLICE(x) for a
 * slice, GF_TABLES and GF_COUNTS; and GF_SAY with what gullyfork.h states of the arguments, in their order: GF_LENGTH for each slice,
 * GF_COUNT for each count with a limit, GF_ENTRIES for each index table, and GF_TABLES_SAID(limit) for the tables and their counts. Then a
 * line in tests/c/tables.c, which tries each argument with a wrong length and each count above its limit.
 */
#ifndef GULLYFORK_TABLES_H
#define GULLYFORK_TABLES_H

#include "gullyfork.h"

#include <inttypes.h>
#include <stdio.h>

/* ---- slices: a pointer, never NULL, and the number of elements that it points to ---- */

/* numbers that a call may write: a set, sums, work */
struct gf_set {
    double *at;
    size_t length;
};

/* numbers that it only reads */
struct gf_numbers {
    const double *at;
    size_t length;
};

/* the entries of an index table */
struct gf_indices {
    const int64_t *at;
    size_t length;
};

/* slots of a match, and the work of gft_distribute_fc2 */
struct gf_slots {
    int64_t *at;
    size_t length;
};

/* work of bytes, and marks */
struct gf_bytes {
    uint8_t *at;
    size_t length;
};

/* an array, not a pointer, with its length: struct gf_set fc3 = GF_ARRAY(numbers); */
#define GF_ARRAY(array) {(array), sizeof(array) / sizeof *(array)}

/* a set that is only read */
static inline struct gf_numbers gf_numbers_of(struct gf_set set)
{
    struct gf_numbers numbers = {set.at, set.length};
    return numbers;
}

/* ---- what belongs together ---- */

/* shift tables and their counts */
struct gf_tables {
    struct gf_indices p2s, s2pp, nsym_list, perms;
    size_t n_satom, n_patom, num_trans;
};

/* The tables with the counts that their lengths tell: n_patom is the length of p2s, n_satom that of s2pp, num_trans the rows of perms. */
static inline struct gf_tables gf_tables_of(
    struct gf_indices p2s, struct gf_indices s2pp, struct gf_indices nsym_list, struct gf_indices perms)
{
    struct gf_tables tables = {p2s, s2pp, nsym_list, perms, s2pp.length, p2s.length, s2pp.length == 0 ? 0 : perms.length / s2pp.length};
    return tables;
}

/* the cell in which positions are matched: the basis vectors in the columns of the lattice, a flag for each axis along which it repeats */
struct gf_cell {
    double lattice[9], symprec;
    uint8_t periodic[3];
};

/* the listed atoms and the rotations of gft_distribute_fc2 */
struct gf_listed {
    struct gf_indices atom_list, fc_indices_of_atom_list;
    struct gf_numbers r_carts;
    struct gf_indices permutations, map_atoms, map_syms;
    size_t num_pos, num_first, num_rot;
};

/* the displacements of gft_rotate_delta_fc2s (deltas: delta_fc2s) and gft_rotate_delta_fc3s (deltas: delta_fc3s) */
struct gf_displaced {
    struct gf_numbers deltas, inv_u, site_sym_cart;
    struct gf_indices rot_map_syms;
    size_t num_atom, num_site_sym, num_disp;
};

/* what a drift report writes: of place the first four numbers at second order, six at third */
struct gf_report {
    double value;
    size_t place[8];
};

/* what an audit writes: place[0] and place[1], and both numbers */
struct gf_difference {
    size_t place[2];
    double numbers[2];
};

/* a roll: its bytes, how many are lent, and how many of them the roll has */
struct gf_roll {
    uint8_t *bytes;
    size_t length, count;
};

/* what gft_read_roll writes: kind, set number, earlier number, where the label begins, how long it is, where the record ends */
struct gf_record {
    size_t slots[6];
};

/* ---- why a call was refused ---- */

/* the caller's buffer for the text, empty after a call that is not refused */
struct gf_why {
    char text[320];
};

/* What is stated of an argument, and the refusal that it may be the reason of: 1 a count and its limit, 2 a length and the stated one, 3 and
 * 4 an index, or the entries of a table, and the count that they are below, 6 shift tables. */
struct gf_stated {
    uint8_t refusal;
    const char *name, *rule;
    size_t has, bound;
    const int64_t *entries;
    const struct gf_tables *tables;
};

#define GF_COUNT(count, limit) {1, #count, "", (count), (limit), NULL, NULL}
#define GF_LENGTH(slice, stated) {2, #slice, #stated, (slice).length, (stated), NULL, NULL}
#define GF_ENTRIES(table, count) {3, #table, "", (table).length, (count), (table).at, NULL}
#define GF_INDEX(index, count) {3, #index, "", (index), (count), NULL, NULL}
#define GF_RULES(tables) {6, "", "", 0, 0, NULL, (tables)}
#define GF_SLAB(slab, count) {4, #slab, "", (slab), (count), NULL, NULL}

/* writes the rule that shift tables break into text; they have got refusal 6 */
static inline void gf_broken(char *text, size_t size, const struct gf_tables *t)
{
    const int64_t *perms = t->perms.at, *p2s = t->p2s.at, *s2pp = t->s2pp.at;
    const size_t n = t->n_satom;
    size_t place[5] = {0, 0, 0, 0, 0};
    gf_explain_shift_tables(
        p2s, t->p2s.length, s2pp, t->s2pp.length, t->nsym_list.at, t->nsym_list.length, perms, t->perms.length, place, 5, n, t->n_patom, t->num_trans);
    const size_t i = place[2], j = place[3], k = place[4];
    if (place[0] != GF_BAD_SHIFT_TABLES)
        return;
    if (place[1] == 0)
        snprintf(text, size, " (perms: %zu rows: n_satom %zu is not n_patom %zu x num_trans %zu)", t->num_trans, n, t->n_patom, t->num_trans);
    else if (place[1] == 1)
        snprintf(text, size, " (perms: row %zu sends atoms %zu and %zu to the same place)", i, j, k);
    else if (place[1] == 2)
        snprintf(text, size, " (perms: no row sends each atom to itself (the null shift))");
    else if (place[1] == 3)
        snprintf(text, size, " (perms: row %zu and then row %zu is no row: a shift is missing)", i, j);
    else if (place[1] == 4)
        snprintf(text, size, " (perms: rows %zu and %zu both send atom %zu to atom %" PRId64 ")", i, j, k, perms[i * n + k]);
    else if (place[1] == 5)
        snprintf(text, size, " (s2pp: entry %" PRId64 " is %" PRId64 ", and p2s[%zu] is %" PRId64 ")", p2s[i], s2pp[p2s[i]], i, p2s[i]);
    else if (place[1] == 6)
        snprintf(text, size, " (s2pp: it is %" PRId64 " for atom %zu and %" PRId64 " for atom %" PRId64 ", where row %zu sends it)", s2pp[j], j,
                 s2pp[perms[i * n + j]], perms[i * n + j], i);
    else {
        const int64_t row = t->nsym_list.at[i];
        snprintf(text, size, " (nsym_list: entry %zu is %" PRId64 ", which sends atom %zu to %" PRId64 ", not to %" PRId64 ")", i, row, i,
                 perms[(size_t)row * n + i], p2s[s2pp[i]]);
    }
}

/* writes what is wrong with an argument into text; false if nothing is */
static inline bool gf_wrong(char *text, size_t size, const struct gf_stated *a)
{
    if (a->refusal == 1 && a->has > a->bound)
        snprintf(text, size, " (%s: %zu, limit %zu)", a->name, a->has, a->bound);
    else if (a->refusal == 6)
        gf_broken(text, size, a->tables);
    else if (a->refusal == 2 && a->has != a->bound)
        snprintf(text, size, " (%s: length %zu, stated %s = %zu)", a->name, a->has, a->rule, a->bound);
    else if (a->refusal > 2 && a->entries == NULL && a->has >= a->bound)
        snprintf(text, size, " (%s: %zu, count %zu)", a->name, a->has, a->bound);
    else {
        for (size_t k = 0; a->entries != NULL && k < a->has; k++)
            if (a->entries[k] < 0 || (uint64_t)a->entries[k] >= a->bound) {
                snprintf(text, size, " (%s: entry %zu is %" PRId64 ", count %zu)", a->name, k, a->entries[k], a->bound);
                return true;
            }
        return false;
    }
    return true;
}

/* Puts the reason of a refusal into the text: the first argument that is wrong. */
static inline uint8_t gf_say(struct gf_why *why, const char *call, uint8_t answer, const struct gf_stated *stated, size_t number)
{
    char argument[160] = "";
    if (why == NULL)
        return answer;
    why->text[0] = 0;
    if (!GF_REFUSED(answer))
        return answer;
    for (size_t k = 0; k < number; k++)
        if (stated[k].refusal == answer && gf_wrong(argument, sizeof argument, &stated[k]))
            break;
    snprintf(why->text, sizeof why->text, "%s: refusal %d, %s%s", call, answer, gf_words(answer), argument);
    return answer;
}

/* ---- what the functions below are made of; __func__ is gft_NAME ---- */

#define GF_SLICE(slice) (slice).at, (slice).length
#define GF_OPEN(tables) \
    const struct gf_indices p2s = (tables)->p2s, s2pp = (tables)->s2pp, nsym_list = (tables)->nsym_list, perms = (tables)->perms; \
    const size_t n_satom = (tables)->n_satom, n_patom = (tables)->n_patom, num_trans = (tables)->num_trans
#define GF_TABLES GF_SLICE(p2s), GF_SLICE(s2pp), GF_SLICE(nsym_list), GF_SLICE(perms)
#define GF_COUNTS n_satom, n_patom, num_trans
#define GF_TABLES_SAID(limit) \
    GF_COUNT(n_satom, limit), GF_COUNT(n_patom, limit), GF_COUNT(num_trans, limit), \
    GF_LENGTH(p2s, n_patom), GF_LENGTH(s2pp, n_satom), GF_LENGTH(nsym_list, n_satom), GF_LENGTH(perms, num_trans * n_satom), \
    GF_ENTRIES(p2s, n_satom), GF_ENTRIES(s2pp, n_patom), GF_ENTRIES(nsym_list, num_trans), GF_ENTRIES(perms, n_satom), GF_RULES(tables)
#define GF_SAY(...) \
    const struct gf_stated stated[] = {__VA_ARGS__}; \
    return gf_say(why, __func__ + sizeof "gft_" - 1, answer, stated, sizeof stated / sizeof *stated)

/* ---- shift tables ---- */

static inline uint8_t gft_check_shift_tables(const struct gf_tables *tables, struct gf_why *why)
{
    GF_OPEN(tables);
    const uint8_t answer = gf_check_shift_tables(GF_TABLES, GF_COUNTS);
    GF_SAY(GF_TABLES_SAID(1024));
}

/* place has five numbers */
static inline uint8_t gft_explain_shift_tables(const struct gf_tables *tables, size_t *place, struct gf_why *why)
{
    GF_OPEN(tables);
    const uint8_t answer = gf_explain_shift_tables(GF_TABLES, place, 5, GF_COUNTS);
    return gf_say(why, __func__ + sizeof "gft_" - 1, answer, NULL, 0);
}

/* ---- matching: pair has two numbers ---- */

static inline uint8_t gft_compute_permutation(
    struct gf_slots rot_atom, const struct gf_cell *cell, struct gf_numbers pos, struct gf_numbers rot_pos, size_t *pair, size_t num_pos,
    struct gf_why *why)
{
    const uint8_t answer = gf_compute_permutation(
        GF_SLICE(rot_atom), cell->lattice, 9, cell->symprec, cell->periodic, 3, GF_SLICE(pos), GF_SLICE(rot_pos), pair, 2, num_pos);
    GF_SAY(GF_LENGTH(rot_atom, num_pos), GF_LENGTH(pos, 3 * num_pos), GF_LENGTH(rot_pos, 3 * num_pos), GF_COUNT(num_pos, 1024));
}

static inline uint8_t gft_find_permutation(
    struct gf_slots rot_atom, struct gf_bytes marks, const struct gf_cell *cell, struct gf_numbers pos, struct gf_numbers rot_pos,
    size_t num_pos, struct gf_why *why)
{
    const uint8_t answer = gf_find_permutation(
        GF_SLICE(rot_atom), GF_SLICE(marks), cell->lattice, 9, cell->symprec, cell->periodic, 3, GF_SLICE(pos), GF_SLICE(rot_pos), num_pos);
    GF_SAY(GF_LENGTH(rot_atom, num_pos), GF_LENGTH(marks, num_pos), GF_LENGTH(pos, 3 * num_pos), GF_LENGTH(rot_pos, 3 * num_pos),
           GF_COUNT(num_pos, 1024));
}

/* ---- second order ---- */

static inline uint8_t gft_perm_trans_symmetrize_fc(struct gf_set fc, size_t n_satom, size_t level, struct gf_why *why)
{
    const uint8_t answer = gf_perm_trans_symmetrize_fc(GF_SLICE(fc), n_satom, level);
    GF_SAY(GF_LENGTH(fc, n_satom * n_satom * 9), GF_COUNT(n_satom, 1024), GF_COUNT(level, 1000));
}

static inline uint8_t gft_perm_trans_symmetrize_compact_fc(
    struct gf_set fc, const struct gf_tables *tables, struct gf_bytes done, size_t level, struct gf_why *why)
{
    GF_OPEN(tables);
    const uint8_t answer = gf_perm_trans_symmetrize_compact_fc(GF_SLICE(fc), GF_TABLES, GF_SLICE(done), GF_COUNTS, level);
    GF_SAY(GF_LENGTH(fc, n_patom * n_satom * 9), GF_TABLES_SAID(1024), GF_LENGTH(done, n_patom * n_satom), GF_COUNT(level, 1000));
}

static inline uint8_t gft_set_index_permutation_symmetry_compact_fc(
    struct gf_set fc, const struct gf_tables *tables, struct gf_bytes done, bool transpose, struct gf_why *why)
{
    GF_OPEN(tables);
    const uint8_t answer = gf_set_index_permutation_symmetry_compact_fc(GF_SLICE(fc), GF_TABLES, GF_SLICE(done), GF_COUNTS, transpose);
    GF_SAY(GF_LENGTH(fc, n_patom * n_satom * 9), GF_TABLES_SAID(1024), GF_LENGTH(done, n_patom * n_satom));
}

static inline uint8_t gft_true_transpose_compact_fc2(
    struct gf_set fc, const struct gf_tables *tables, struct gf_bytes done, struct gf_why *why)
{
    GF_OPEN(tables);
    const uint8_t answer = gf_true_transpose_compact_fc2(GF_SLICE(fc), GF_TABLES, GF_SLICE(done), GF_COUNTS);
    GF_SAY(GF_LENGTH(fc, n_patom * n_satom * 9), GF_TABLES_SAID(1024), GF_LENGTH(done, n_patom * n_satom));
}

static inline uint8_t gft_drift_report(struct gf_numbers fc, struct gf_report *report, size_t n_satom, struct gf_why *why)
{
    const uint8_t answer = gf_drift_report(GF_SLICE(fc), &report->value, 1, report->place, 4, n_satom);
    GF_SAY(GF_LENGTH(fc, n_satom * n_satom * 9), GF_COUNT(n_satom, 1024));
}

static inline uint8_t gft_drift_report_compact_fc2(
    struct gf_numbers fc, const struct gf_tables *tables, struct gf_report *report, struct gf_why *why)
{
    GF_OPEN(tables);
    const uint8_t answer = gf_drift_report_compact_fc2(GF_SLICE(fc), GF_TABLES, &report->value, 1, report->place, 4, GF_COUNTS);
    GF_SAY(GF_LENGTH(fc, n_patom * n_satom * 9), GF_TABLES_SAID(1024));
}

static inline uint8_t gft_distribute_fc2(
    struct gf_set fc2, const struct gf_listed *listed, struct gf_slots atom_list_reverse, struct gf_why *why)
{
    const struct gf_indices atom_list = listed->atom_list, fc_indices_of_atom_list = listed->fc_indices_of_atom_list;
    const struct gf_indices permutations = listed->permutations, map_atoms = listed->map_atoms, map_syms = listed->map_syms;
    const struct gf_numbers r_carts = listed->r_carts;
    const size_t num_pos = listed->num_pos, num_first = listed->num_first, num_rot = listed->num_rot;
    const uint8_t answer = gf_distribute_fc2(
        GF_SLICE(fc2), GF_SLICE(atom_list), GF_SLICE(fc_indices_of_atom_list), GF_SLICE(r_carts), GF_SLICE(permutations), GF_SLICE(map_atoms),
        GF_SLICE(map_syms), GF_SLICE(atom_list_reverse), num_pos, num_first, num_rot);
    GF_SAY(GF_LENGTH(fc2, num_first * num_pos * 9), GF_COUNT(atom_list.length, 1024), GF_ENTRIES(atom_list, num_pos),
           GF_LENGTH(fc_indices_of_atom_list, atom_list.length), GF_ENTRIES(fc_indices_of_atom_list, num_first),
           GF_LENGTH(r_carts, num_rot * 9), GF_LENGTH(permutations, num_rot * num_pos), GF_ENTRIES(permutations, num_pos),
           GF_LENGTH(map_atoms, num_pos), GF_ENTRIES(map_atoms, num_pos), GF_LENGTH(map_syms, num_pos), GF_ENTRIES(map_syms, num_rot),
           GF_LENGTH(atom_list_reverse, num_pos), GF_COUNT(num_pos, 1024), GF_COUNT(num_first, 1024), GF_COUNT(num_rot, 1024));
}

static inline uint8_t gft_row_sums_fc2(struct gf_set sums, struct gf_numbers fc, size_t n_satom, struct gf_why *why)
{
    const uint8_t answer = gf_row_sums_fc2(GF_SLICE(sums), GF_SLICE(fc), n_satom);
    GF_SAY(GF_LENGTH(sums, n_satom * 9), GF_LENGTH(fc, n_satom * n_satom * 9), GF_COUNT(n_satom, 1024));
}

static inline uint8_t gft_replace_block_fc2(
    struct gf_set fc, struct gf_set sums, struct gf_numbers block, size_t i, size_t j, size_t n_satom, struct gf_why *why)
{
    const uint8_t answer = gf_replace_block_fc2(GF_SLICE(fc), GF_SLICE(sums), GF_SLICE(block), i, j, n_satom);
    GF_SAY(GF_LENGTH(fc, n_satom * n_satom * 9), GF_LENGTH(sums, n_satom * 9), GF_LENGTH(block, 9), GF_INDEX(i, n_satom),
           GF_INDEX(j, n_satom), GF_COUNT(n_satom, 1024));
}

static inline uint8_t gft_compact_to_full_fc2(
    struct gf_set full, struct gf_numbers fc2, const struct gf_tables *tables, struct gf_why *why)
{
    GF_OPEN(tables);
    const uint8_t answer = gf_compact_to_full_fc2(GF_SLICE(full), GF_SLICE(fc2), GF_TABLES, GF_COUNTS);
    GF_SAY(GF_LENGTH(full, n_satom * n_satom * 9), GF_LENGTH(fc2, n_patom * n_satom * 9), GF_TABLES_SAID(1024));
}

/* ---- third order ---- */

static inline uint8_t gft_set_permutation_symmetry_fc3(struct gf_set fc3, size_t num_atom, struct gf_why *why)
{
    const uint8_t answer = gf_set_permutation_symmetry_fc3(GF_SLICE(fc3), num_atom);
    GF_SAY(GF_LENGTH(fc3, num_atom * num_atom * num_atom * 27), GF_COUNT(num_atom, 256));
}

static inline uint8_t gft_set_permutation_symmetry_compact_fc3(
    struct gf_set fc3, const struct gf_tables *tables, struct gf_bytes done, struct gf_why *why)
{
    GF_OPEN(tables);
    const uint8_t answer = gf_set_permutation_symmetry_compact_fc3(GF_SLICE(fc3), GF_TABLES, GF_SLICE(done), GF_COUNTS);
    GF_SAY(GF_LENGTH(fc3, n_patom * n_satom * n_satom * 27), GF_TABLES_SAID(256), GF_LENGTH(done, n_patom * n_satom * n_satom));
}

static inline uint8_t gft_perm_trans_symmetrize_fc3(
    struct gf_set fc3, struct gf_set drift, size_t num_atom, size_t level, struct gf_why *why)
{
    const uint8_t answer = gf_perm_trans_symmetrize_fc3(GF_SLICE(fc3), GF_SLICE(drift), num_atom, level);
    GF_SAY(GF_LENGTH(fc3, num_atom * num_atom * num_atom * 27), GF_LENGTH(drift, num_atom * num_atom * 27), GF_COUNT(num_atom, 256),
           GF_COUNT(level, 1000));
}

static inline uint8_t gft_perm_trans_symmetrize_compact_fc3(
    struct gf_set fc3, const struct gf_tables *tables, struct gf_bytes done, struct gf_set drift, size_t level, struct gf_why *why)
{
    GF_OPEN(tables);
    const uint8_t answer = gf_perm_trans_symmetrize_compact_fc3(GF_SLICE(fc3), GF_TABLES, GF_SLICE(done), GF_SLICE(drift), GF_COUNTS, level);
    GF_SAY(GF_LENGTH(fc3, n_patom * n_satom * n_satom * 27), GF_TABLES_SAID(256), GF_LENGTH(done, n_patom * n_satom * n_satom),
           GF_LENGTH(drift, n_patom * n_satom * 27), GF_COUNT(level, 1000));
}

static inline uint8_t gft_transpose_compact_fc3(
    struct gf_set fc3, const struct gf_tables *tables, struct gf_bytes done, int64_t t_type, struct gf_why *why)
{
    GF_OPEN(tables);
    const uint8_t answer = gf_transpose_compact_fc3(GF_SLICE(fc3), GF_TABLES, GF_SLICE(done), GF_COUNTS, t_type);
    GF_SAY(GF_LENGTH(fc3, n_patom * n_satom * n_satom * 27), GF_TABLES_SAID(256), GF_LENGTH(done, n_patom * n_satom));
}

static inline uint8_t gft_true_transpose_compact_fc3(
    struct gf_set fc3, const struct gf_tables *tables, struct gf_bytes done, int64_t t_type, struct gf_why *why)
{
    GF_OPEN(tables);
    const uint8_t answer = gf_true_transpose_compact_fc3(GF_SLICE(fc3), GF_TABLES, GF_SLICE(done), GF_COUNTS, t_type);
    GF_SAY(GF_LENGTH(fc3, n_patom * n_satom * n_satom * 27), GF_TABLES_SAID(256), GF_LENGTH(done, n_patom * n_satom));
}

static inline uint8_t gft_distribute_fc3(
    struct gf_set fc3, size_t target, size_t source, struct gf_indices atom_mapping, size_t num_atom, struct gf_numbers rot_cart,
    size_t num_first, struct gf_why *why)
{
    const uint8_t answer = gf_distribute_fc3(GF_SLICE(fc3), target, source, GF_SLICE(atom_mapping), num_atom, GF_SLICE(rot_cart), num_first);
    GF_SAY(GF_LENGTH(fc3, num_first * num_atom * num_atom * 27), GF_SLAB(target, num_first), GF_SLAB(source, num_first),
           GF_LENGTH(atom_mapping, num_atom), GF_ENTRIES(atom_mapping, num_atom), GF_COUNT(num_atom, 256), GF_LENGTH(rot_cart, 9),
           GF_COUNT(num_first, 256));
}

static inline uint8_t gft_rotate_delta_fc2s(
    struct gf_set fc3, const struct gf_displaced *displaced, struct gf_set rot_delta, struct gf_why *why)
{
    const struct gf_numbers delta_fc2s = displaced->deltas, inv_u = displaced->inv_u, site_sym_cart = displaced->site_sym_cart;
    const struct gf_indices rot_map_syms = displaced->rot_map_syms;
    const size_t num_atom = displaced->num_atom, num_site_sym = displaced->num_site_sym, num_disp = displaced->num_disp;
    const uint8_t answer = gf_rotate_delta_fc2s(
        GF_SLICE(fc3), GF_SLICE(delta_fc2s), GF_SLICE(inv_u), GF_SLICE(site_sym_cart), GF_SLICE(rot_map_syms), GF_SLICE(rot_delta),
        num_atom, num_site_sym, num_disp);
    GF_SAY(GF_LENGTH(fc3, num_atom * num_atom * 27), GF_LENGTH(delta_fc2s, num_disp * num_atom * num_atom * 9),
           GF_LENGTH(inv_u, 3 * num_disp * num_site_sym), GF_LENGTH(site_sym_cart, num_site_sym * 9),
           GF_LENGTH(rot_map_syms, num_site_sym * num_atom), GF_ENTRIES(rot_map_syms, num_atom),
           GF_LENGTH(rot_delta, num_disp * num_site_sym * 9), GF_COUNT(num_atom, 256), GF_COUNT(num_site_sym, 1024),
           GF_COUNT(num_disp, 1024));
}

static inline uint8_t gft_compact_to_full_fc3(
    struct gf_set full, struct gf_numbers fc3, const struct gf_tables *tables, struct gf_why *why)
{
    GF_OPEN(tables);
    const uint8_t answer = gf_compact_to_full_fc3(GF_SLICE(full), GF_SLICE(fc3), GF_TABLES, GF_COUNTS);
    GF_SAY(GF_LENGTH(full, n_satom * n_satom * n_satom * 27), GF_LENGTH(fc3, n_patom * n_satom * n_satom * 27), GF_TABLES_SAID(256));
}

static inline uint8_t gft_drift_report_fc3(struct gf_numbers fc, struct gf_report *report, size_t num_atom, struct gf_why *why)
{
    const uint8_t answer = gf_drift_report_fc3(GF_SLICE(fc), &report->value, 1, report->place, 6, num_atom);
    GF_SAY(GF_LENGTH(fc, num_atom * num_atom * num_atom * 27), GF_COUNT(num_atom, 256));
}

/* ---- fourth order ---- */

static inline uint8_t gft_set_permutation_symmetry_fc4(struct gf_set fc4, struct gf_bytes done, size_t num_atom, struct gf_why *why)
{
    const uint8_t answer = gf_set_permutation_symmetry_fc4(GF_SLICE(fc4), GF_SLICE(done), num_atom);
    GF_SAY(GF_LENGTH(fc4, num_atom * num_atom * num_atom * num_atom * 81), GF_LENGTH(done, num_atom * num_atom * num_atom * num_atom),
           GF_COUNT(num_atom, 64));
}

static inline uint8_t gft_set_permutation_symmetry_compact_fc4(
    struct gf_set fc4, const struct gf_tables *tables, struct gf_bytes done, struct gf_why *why)
{
    GF_OPEN(tables);
    const uint8_t answer = gf_set_permutation_symmetry_compact_fc4(GF_SLICE(fc4), GF_TABLES, GF_SLICE(done), GF_COUNTS);
    GF_SAY(GF_LENGTH(fc4, n_patom * n_satom * n_satom * n_satom * 81), GF_TABLES_SAID(64),
           GF_LENGTH(done, n_patom * n_satom * n_satom * n_satom));
}

static inline uint8_t gft_perm_trans_symmetrize_fc4(
    struct gf_set fc4, struct gf_bytes done, struct gf_set drift, size_t num_atom, size_t level, struct gf_why *why)
{
    const uint8_t answer = gf_perm_trans_symmetrize_fc4(GF_SLICE(fc4), GF_SLICE(done), GF_SLICE(drift), num_atom, level);
    GF_SAY(GF_LENGTH(fc4, num_atom * num_atom * num_atom * num_atom * 81), GF_LENGTH(done, num_atom * num_atom * num_atom * num_atom),
           GF_LENGTH(drift, num_atom * num_atom * num_atom * 81), GF_COUNT(num_atom, 64), GF_COUNT(level, 1000));
}

static inline uint8_t gft_perm_trans_symmetrize_compact_fc4(
    struct gf_set fc4, const struct gf_tables *tables, struct gf_bytes done, struct gf_set drift, size_t level, struct gf_why *why)
{
    GF_OPEN(tables);
    const uint8_t answer = gf_perm_trans_symmetrize_compact_fc4(GF_SLICE(fc4), GF_TABLES, GF_SLICE(done), GF_SLICE(drift), GF_COUNTS, level);
    GF_SAY(GF_LENGTH(fc4, n_patom * n_satom * n_satom * n_satom * 81), GF_TABLES_SAID(64),
           GF_LENGTH(done, n_patom * n_satom * n_satom * n_satom), GF_LENGTH(drift, n_patom * n_satom * n_satom * 81), GF_COUNT(level, 1000));
}

static inline uint8_t gft_transpose_compact_fc4(
    struct gf_set fc4, const struct gf_tables *tables, struct gf_bytes done, int64_t t_type, struct gf_why *why)
{
    GF_OPEN(tables);
    const uint8_t answer = gf_transpose_compact_fc4(GF_SLICE(fc4), GF_TABLES, GF_SLICE(done), GF_COUNTS, t_type);
    GF_SAY(GF_LENGTH(fc4, n_patom * n_satom * n_satom * n_satom * 81), GF_TABLES_SAID(64), GF_LENGTH(done, n_patom * n_satom));
}

static inline uint8_t gft_true_transpose_compact_fc4(
    struct gf_set fc4, const struct gf_tables *tables, struct gf_bytes done, int64_t t_type, struct gf_why *why)
{
    GF_OPEN(tables);
    const uint8_t answer = gf_true_transpose_compact_fc4(GF_SLICE(fc4), GF_TABLES, GF_SLICE(done), GF_COUNTS, t_type);
    GF_SAY(GF_LENGTH(fc4, n_patom * n_satom * n_satom * n_satom * 81), GF_TABLES_SAID(64), GF_LENGTH(done, n_patom * n_satom));
}

static inline uint8_t gft_swap_pairs_compact_fc4(
    struct gf_set fc4, const struct gf_tables *tables, struct gf_bytes done, size_t leg_a, size_t leg_b, struct gf_why *why)
{
    GF_OPEN(tables);
    const uint8_t answer = gf_swap_pairs_compact_fc4(GF_SLICE(fc4), GF_TABLES, GF_SLICE(done), GF_COUNTS, leg_a, leg_b);
    GF_SAY(GF_LENGTH(fc4, n_patom * n_satom * n_satom * n_satom * 81), GF_TABLES_SAID(64), GF_LENGTH(done, n_patom * n_satom),
           GF_INDEX(leg_a, 4), GF_INDEX(leg_b, 4));
}

static inline uint8_t gft_distribute_fc4(
    struct gf_set fc4, size_t target, size_t source, struct gf_indices atom_mapping, size_t num_atom, struct gf_numbers rot_cart,
    size_t num_first, struct gf_why *why)
{
    const uint8_t answer = gf_distribute_fc4(GF_SLICE(fc4), target, source, GF_SLICE(atom_mapping), num_atom, GF_SLICE(rot_cart), num_first);
    GF_SAY(GF_LENGTH(fc4, num_first * num_atom * num_atom * num_atom * 81), GF_SLAB(target, num_first), GF_SLAB(source, num_first),
           GF_LENGTH(atom_mapping, num_atom), GF_ENTRIES(atom_mapping, num_atom), GF_COUNT(num_atom, 64), GF_LENGTH(rot_cart, 9),
           GF_COUNT(num_first, 64));
}

static inline uint8_t gft_rotate_delta_fc3s(
    struct gf_set fc4, const struct gf_displaced *displaced, struct gf_set rot_delta, struct gf_why *why)
{
    const struct gf_numbers delta_fc3s = displaced->deltas, inv_u = displaced->inv_u, site_sym_cart = displaced->site_sym_cart;
    const struct gf_indices rot_map_syms = displaced->rot_map_syms;
    const size_t num_atom = displaced->num_atom, num_site_sym = displaced->num_site_sym, num_disp = displaced->num_disp;
    const uint8_t answer = gf_rotate_delta_fc3s(
        GF_SLICE(fc4), GF_SLICE(delta_fc3s), GF_SLICE(inv_u), GF_SLICE(site_sym_cart), GF_SLICE(rot_map_syms), GF_SLICE(rot_delta),
        num_atom, num_site_sym, num_disp);
    GF_SAY(GF_LENGTH(fc4, num_atom * num_atom * num_atom * 81), GF_LENGTH(delta_fc3s, num_disp * num_atom * num_atom * num_atom * 27),
           GF_LENGTH(inv_u, 3 * num_disp * num_site_sym), GF_LENGTH(site_sym_cart, num_site_sym * 9),
           GF_LENGTH(rot_map_syms, num_site_sym * num_atom), GF_ENTRIES(rot_map_syms, num_atom),
           GF_LENGTH(rot_delta, num_disp * num_site_sym * 27), GF_COUNT(num_atom, 64), GF_COUNT(num_site_sym, 1024),
           GF_COUNT(num_disp, 1024));
}

static inline uint8_t gft_compact_to_full_fc4(
    struct gf_set full, struct gf_numbers fc4, const struct gf_tables *tables, struct gf_why *why)
{
    GF_OPEN(tables);
    const uint8_t answer = gf_compact_to_full_fc4(GF_SLICE(full), GF_SLICE(fc4), GF_TABLES, GF_COUNTS);
    GF_SAY(GF_LENGTH(full, n_satom * n_satom * n_satom * n_satom * 81), GF_LENGTH(fc4, n_patom * n_satom * n_satom * n_satom * 81),
           GF_TABLES_SAID(64));
}

/* ---- audits ---- */

static inline uint8_t gft_same_set(struct gf_numbers a, struct gf_numbers b, struct gf_difference *found, struct gf_why *why)
{
    const uint8_t answer = gf_same_set(GF_SLICE(a), GF_SLICE(b), found->place, 2, found->numbers, 2);
    GF_SAY(GF_LENGTH(b, a.length));
}

static inline uint8_t gft_audit_compact_fc2(
    struct gf_numbers fc, const struct gf_tables *tables, struct gf_difference *found, struct gf_why *why)
{
    GF_OPEN(tables);
    const uint8_t answer = gf_audit_compact_fc2(GF_SLICE(fc), GF_TABLES, found->place, 2, found->numbers, 2, GF_COUNTS);
    GF_SAY(GF_LENGTH(fc, n_patom * n_satom * 9), GF_TABLES_SAID(1024));
}

static inline uint8_t gft_audit_fc2(struct gf_numbers fc, struct gf_difference *found, size_t num_atom, struct gf_why *why)
{
    const uint8_t answer = gf_audit_fc2(GF_SLICE(fc), found->place, 2, found->numbers, 2, num_atom);
    GF_SAY(GF_LENGTH(fc, num_atom * num_atom * 9), GF_COUNT(num_atom, 1024));
}

static inline uint8_t gft_audit_compact_fc3(
    struct gf_numbers fc, const struct gf_tables *tables, struct gf_difference *found, struct gf_why *why)
{
    GF_OPEN(tables);
    const uint8_t answer = gf_audit_compact_fc3(GF_SLICE(fc), GF_TABLES, found->place, 2, found->numbers, 2, GF_COUNTS);
    GF_SAY(GF_LENGTH(fc, n_patom * n_satom * n_satom * 27), GF_TABLES_SAID(256));
}

static inline uint8_t gft_audit_fc3(struct gf_numbers fc, struct gf_difference *found, size_t num_atom, struct gf_why *why)
{
    const uint8_t answer = gf_audit_fc3(GF_SLICE(fc), found->place, 2, found->numbers, 2, num_atom);
    GF_SAY(GF_LENGTH(fc, num_atom * num_atom * num_atom * 27), GF_COUNT(num_atom, 256));
}

static inline uint8_t gft_audit_compact_fc4(
    struct gf_numbers fc, const struct gf_tables *tables, struct gf_difference *found, struct gf_why *why)
{
    GF_OPEN(tables);
    const uint8_t answer = gf_audit_compact_fc4(GF_SLICE(fc), GF_TABLES, found->place, 2, found->numbers, 2, GF_COUNTS);
    GF_SAY(GF_LENGTH(fc, n_patom * n_satom * n_satom * n_satom * 81), GF_TABLES_SAID(64));
}

static inline uint8_t gft_audit_fc4(struct gf_numbers fc, struct gf_difference *found, size_t num_atom, struct gf_why *why)
{
    const uint8_t answer = gf_audit_fc4(GF_SLICE(fc), found->place, 2, found->numbers, 2, num_atom);
    GF_SAY(GF_LENGTH(fc, num_atom * num_atom * num_atom * num_atom * 81), GF_COUNT(num_atom, 64));
}

/* ---- reports ---- */

static inline uint8_t gft_set_difference(struct gf_numbers a, struct gf_numbers b, struct gf_report *report, struct gf_why *why)
{
    const uint8_t answer = gf_set_difference(GF_SLICE(a), GF_SLICE(b), &report->value, 1, report->place, 2);
    GF_SAY(GF_LENGTH(b, a.length));
}

static inline uint8_t gft_difference_report_compact_fc2(
    struct gf_numbers fc, const struct gf_tables *tables, struct gf_report *report, struct gf_why *why)
{
    GF_OPEN(tables);
    const uint8_t answer = gf_difference_report_compact_fc2(GF_SLICE(fc), GF_TABLES, &report->value, 1, report->place, 2, GF_COUNTS);
    GF_SAY(GF_LENGTH(fc, n_patom * n_satom * 9), GF_TABLES_SAID(1024));
}

static inline uint8_t gft_difference_report_fc2(struct gf_numbers fc, struct gf_report *report, size_t num_atom, struct gf_why *why)
{
    const uint8_t answer = gf_difference_report_fc2(GF_SLICE(fc), &report->value, 1, report->place, 2, num_atom);
    GF_SAY(GF_LENGTH(fc, num_atom * num_atom * 9), GF_COUNT(num_atom, 1024));
}

static inline uint8_t gft_difference_report_compact_fc3(
    struct gf_numbers fc, const struct gf_tables *tables, struct gf_report *report, struct gf_why *why)
{
    GF_OPEN(tables);
    const uint8_t answer = gf_difference_report_compact_fc3(GF_SLICE(fc), GF_TABLES, &report->value, 1, report->place, 2, GF_COUNTS);
    GF_SAY(GF_LENGTH(fc, n_patom * n_satom * n_satom * 27), GF_TABLES_SAID(256));
}

static inline uint8_t gft_difference_report_fc3(struct gf_numbers fc, struct gf_report *report, size_t num_atom, struct gf_why *why)
{
    const uint8_t answer = gf_difference_report_fc3(GF_SLICE(fc), &report->value, 1, report->place, 2, num_atom);
    GF_SAY(GF_LENGTH(fc, num_atom * num_atom * num_atom * 27), GF_COUNT(num_atom, 256));
}

static inline uint8_t gft_difference_report_compact_fc4(
    struct gf_numbers fc, const struct gf_tables *tables, struct gf_report *report, struct gf_why *why)
{
    GF_OPEN(tables);
    const uint8_t answer = gf_difference_report_compact_fc4(GF_SLICE(fc), GF_TABLES, &report->value, 1, report->place, 2, GF_COUNTS);
    GF_SAY(GF_LENGTH(fc, n_patom * n_satom * n_satom * n_satom * 81), GF_TABLES_SAID(64));
}

static inline uint8_t gft_difference_report_fc4(struct gf_numbers fc, struct gf_report *report, size_t num_atom, struct gf_why *why)
{
    const uint8_t answer = gf_difference_report_fc4(GF_SLICE(fc), &report->value, 1, report->place, 2, num_atom);
    GF_SAY(GF_LENGTH(fc, num_atom * num_atom * num_atom * num_atom * 81), GF_COUNT(num_atom, 64));
}

static inline uint8_t gft_crystal_report_compact_fc2(
    struct gf_numbers fc, const struct gf_tables *tables, struct gf_numbers r_carts, struct gf_indices operations, size_t num_rot,
    struct gf_report *report, struct gf_why *why)
{
    GF_OPEN(tables);
    const uint8_t answer = gf_crystal_report_compact_fc2(
        GF_SLICE(fc), GF_TABLES, GF_SLICE(r_carts), GF_SLICE(operations), &report->value, 1, report->place, 2, GF_COUNTS, num_rot);
    GF_SAY(GF_LENGTH(fc, n_patom * n_satom * 9), GF_TABLES_SAID(1024), GF_LENGTH(r_carts, num_rot * 9),
           GF_LENGTH(operations, num_rot * n_satom), GF_ENTRIES(operations, n_satom), GF_COUNT(num_rot, 1024));
}

static inline uint8_t gft_crystal_report_fc2(
    struct gf_numbers fc, struct gf_numbers r_carts, struct gf_indices operations, size_t num_rot, struct gf_report *report, size_t num_atom,
    struct gf_why *why)
{
    const uint8_t answer = gf_crystal_report_fc2(
        GF_SLICE(fc), GF_SLICE(r_carts), GF_SLICE(operations), &report->value, 1, report->place, 2, num_atom, num_rot);
    GF_SAY(GF_LENGTH(fc, num_atom * num_atom * 9), GF_LENGTH(r_carts, num_rot * 9),
           GF_LENGTH(operations, num_rot * num_atom), GF_ENTRIES(operations, num_atom), GF_COUNT(num_atom, 1024), GF_COUNT(num_rot, 1024));
}

static inline uint8_t gft_crystal_report_compact_fc3(
    struct gf_numbers fc, const struct gf_tables *tables, struct gf_numbers r_carts, struct gf_indices operations, size_t num_rot,
    struct gf_report *report, struct gf_why *why)
{
    GF_OPEN(tables);
    const uint8_t answer = gf_crystal_report_compact_fc3(
        GF_SLICE(fc), GF_TABLES, GF_SLICE(r_carts), GF_SLICE(operations), &report->value, 1, report->place, 2, GF_COUNTS, num_rot);
    GF_SAY(GF_LENGTH(fc, n_patom * n_satom * n_satom * 27), GF_TABLES_SAID(256), GF_LENGTH(r_carts, num_rot * 9),
           GF_LENGTH(operations, num_rot * n_satom), GF_ENTRIES(operations, n_satom), GF_COUNT(num_rot, 1024));
}

static inline uint8_t gft_crystal_report_fc3(
    struct gf_numbers fc, struct gf_numbers r_carts, struct gf_indices operations, size_t num_rot, struct gf_report *report, size_t num_atom,
    struct gf_why *why)
{
    const uint8_t answer = gf_crystal_report_fc3(
        GF_SLICE(fc), GF_SLICE(r_carts), GF_SLICE(operations), &report->value, 1, report->place, 2, num_atom, num_rot);
    GF_SAY(GF_LENGTH(fc, num_atom * num_atom * num_atom * 27), GF_LENGTH(r_carts, num_rot * 9),
           GF_LENGTH(operations, num_rot * num_atom), GF_ENTRIES(operations, num_atom), GF_COUNT(num_atom, 256), GF_COUNT(num_rot, 1024));
}

static inline uint8_t gft_crystal_report_compact_fc4(
    struct gf_numbers fc, const struct gf_tables *tables, struct gf_numbers r_carts, struct gf_indices operations, size_t num_rot,
    struct gf_report *report, struct gf_why *why)
{
    GF_OPEN(tables);
    const uint8_t answer = gf_crystal_report_compact_fc4(
        GF_SLICE(fc), GF_TABLES, GF_SLICE(r_carts), GF_SLICE(operations), &report->value, 1, report->place, 2, GF_COUNTS, num_rot);
    GF_SAY(GF_LENGTH(fc, n_patom * n_satom * n_satom * n_satom * 81), GF_TABLES_SAID(64), GF_LENGTH(r_carts, num_rot * 9),
           GF_LENGTH(operations, num_rot * n_satom), GF_ENTRIES(operations, n_satom), GF_COUNT(num_rot, 1024));
}

static inline uint8_t gft_crystal_report_fc4(
    struct gf_numbers fc, struct gf_numbers r_carts, struct gf_indices operations, size_t num_rot, struct gf_report *report, size_t num_atom,
    struct gf_why *why)
{
    const uint8_t answer = gf_crystal_report_fc4(
        GF_SLICE(fc), GF_SLICE(r_carts), GF_SLICE(operations), &report->value, 1, report->place, 2, num_atom, num_rot);
    GF_SAY(GF_LENGTH(fc, num_atom * num_atom * num_atom * num_atom * 81), GF_LENGTH(r_carts, num_rot * 9),
           GF_LENGTH(operations, num_rot * num_atom), GF_ENTRIES(operations, num_atom), GF_COUNT(num_atom, 64), GF_COUNT(num_rot, 1024));
}

static inline uint8_t gft_drift_report_compact_fc3(
    struct gf_numbers fc, const struct gf_tables *tables, struct gf_report *report, struct gf_why *why)
{
    GF_OPEN(tables);
    const uint8_t answer = gf_drift_report_compact_fc3(GF_SLICE(fc), GF_TABLES, &report->value, 1, report->place, 2, GF_COUNTS);
    GF_SAY(GF_LENGTH(fc, n_patom * n_satom * n_satom * 27), GF_TABLES_SAID(256));
}

static inline uint8_t gft_drift_report_compact_fc4(
    struct gf_numbers fc, const struct gf_tables *tables, struct gf_report *report, struct gf_why *why)
{
    GF_OPEN(tables);
    const uint8_t answer = gf_drift_report_compact_fc4(GF_SLICE(fc), GF_TABLES, &report->value, 1, report->place, 2, GF_COUNTS);
    GF_SAY(GF_LENGTH(fc, n_patom * n_satom * n_satom * n_satom * 81), GF_TABLES_SAID(64));
}

static inline uint8_t gft_drift_report_fc4(struct gf_numbers fc, struct gf_report *report, size_t num_atom, struct gf_why *why)
{
    const uint8_t answer = gf_drift_report_fc4(GF_SLICE(fc), &report->value, 1, report->place, 2, num_atom);
    GF_SAY(GF_LENGTH(fc, num_atom * num_atom * num_atom * num_atom * 81), GF_COUNT(num_atom, 64));
}

/* ---- a delivery roll: the calls that write one keep its count ---- */

static inline bool gft_is_roll(const struct gf_roll *roll)
{
    return gf_is_roll(roll->bytes, roll->length, roll->count);
}

static inline bool gft_is_roll_former(const struct gf_roll *roll)
{
    return gf_is_roll_former(roll->bytes, roll->length, roll->count);
}

static inline uint8_t gft_read_roll(const struct gf_roll *roll, size_t at, struct gf_record *record, struct gf_why *why)
{
    return gf_say(why, "read_roll", gf_read_roll(roll->bytes, roll->length, roll->count, at, record->slots, 6), NULL, 0);
}

static inline uint8_t gft_read_roll_former(const struct gf_roll *roll, size_t at, struct gf_record *record, struct gf_why *why)
{
    return gf_say(why, "read_roll_former", gf_read_roll_former(roll->bytes, roll->length, roll->count, at, record->slots, 6), NULL, 0);
}

static inline uint8_t gft_append_roll(
    struct gf_roll *roll, uint8_t kind, uint32_t set, uint32_t earlier, const uint8_t *label, size_t label_len, struct gf_why *why)
{
    const uint8_t answer =
        gf_append_roll(roll->bytes, roll->length, roll->count, kind, set, earlier, label, label_len, &roll->count, 1);
    return gf_say(why, "append_roll", answer, NULL, 0);
}

static inline uint8_t gft_stands_now(const struct gf_roll *roll, uint32_t set, size_t *use_set, struct gf_why *why)
{
    return gf_say(why, "stands_now", gf_stands_now(roll->bytes, roll->length, roll->count, set, use_set, 1), NULL, 0);
}

static inline uint8_t gft_retire_all(struct gf_roll *roll, uint32_t set, struct gf_why *why)
{
    return gf_say(why, "retire_all", gf_retire_all(roll->bytes, roll->length, roll->count, set, &roll->count, 1), NULL, 0);
}

#endif
