/*
 * Every call of gullyfork.h on sets, tables and positions, by its plain name and by gullyfork_tables.h, with input of any size, and what is
 * stated of its arguments. tables.c holds the two beside each other, stack.c measures, threads.c makes the calls in many threads.
 *
 * A call is one CALL below: the lengths of its slices, the arguments of the plain name, those of the other; and one line of `calls`.
 */
#ifndef CALLS_H
#define CALLS_H

#include "gullyfork_tables.h"

#include <stddef.h>
#include <stdlib.h>
#include <string.h>

#define SLICES(SLICE) \
    SLICE(double, set) SLICE(double, full) SLICE(double, other) SLICE(double, sums) SLICE(double, block) SLICE(double, deltas) \
    SLICE(double, inv_u) SLICE(double, site_sym_cart) SLICE(double, rot_delta) SLICE(double, drift) SLICE(double, rot_cart) SLICE(double, r_carts) \
    SLICE(double, pos) SLICE(double, rot_pos) SLICE(int64_t, p2s) SLICE(int64_t, s2pp) SLICE(int64_t, nsym_list) SLICE(int64_t, perms) \
    SLICE(int64_t, atom_list) SLICE(int64_t, fc_indices_of_atom_list) SLICE(int64_t, permutations) SLICE(int64_t, map_atoms) \
    SLICE(int64_t, map_syms) SLICE(int64_t, atom_mapping) SLICE(int64_t, rot_map_syms) SLICE(int64_t, rot_atom) \
    SLICE(int64_t, operations) SLICE(int64_t, atom_list_reverse) SLICE(uint8_t, done) SLICE(uint8_t, marks)

/* what a call may be given; each slice has one element more than its length, so that a length that is one too large can be tried */
struct input {
#define SLICE(type, name) type *name; size_t name##_len, name##_room;
    SLICES(SLICE)
#undef SLICE
    size_t n_satom, n_patom, num_trans, num_atom, num_pos, num_first, num_rot, num_site_sym, num_disp, level;
    size_t target, source, i, j, leg_a, leg_b, pair[2];
    struct gf_report report;
    struct gf_difference found;
};

/* ---- lengths, as gullyfork.h states them ---- */

#define COMPACT2 (r->n_patom * r->n_satom * 9)
#define COMPACT3 (r->n_patom * r->n_satom * r->n_satom * 27)
#define COMPACT4 (r->n_patom * r->n_satom * r->n_satom * r->n_satom * 81)
#define WHOLE2 (r->n_satom * r->n_satom * 9)
#define WHOLE3 (r->n_satom * r->n_satom * r->n_satom * 27)
#define WHOLE4 (r->n_satom * r->n_satom * r->n_satom * r->n_satom * 81)
#define FULL2 (r->num_atom * r->num_atom * 9)
#define FULL3 (r->num_atom * r->num_atom * r->num_atom * 27)
#define FULL4 (r->num_atom * r->num_atom * r->num_atom * r->num_atom * 81)
#define PAIRS (r->n_patom * r->n_satom)

/* ---- arguments: a slice of the plain name, the tables and their counts, and the slices of the other ---- */

#define S(name) r->name, r->name##_len
#define T S(p2s), S(s2pp), S(nsym_list), S(perms)
#define N r->n_satom, r->n_patom, r->num_trans
#define SET(name) ((struct gf_set){S(name)})
#define NUMBERS(name) ((struct gf_numbers){S(name)})
#define INDICES(name) ((struct gf_indices){S(name)})
#define SLOTS(name) ((struct gf_slots){S(name)})
#define BYTES(name) ((struct gf_bytes){S(name)})
#define TABLES (&(struct gf_tables){INDICES(p2s), INDICES(s2pp), INDICES(nsym_list), INDICES(perms), N})
#define FOUND r->found.place, 2, r->found.numbers, 2
#define REPORT(count) &r->report.value, 1, r->report.place, count
#define LISTED (&(struct gf_listed){INDICES(atom_list), INDICES(fc_indices_of_atom_list), NUMBERS(r_carts), INDICES(permutations), \
    INDICES(map_atoms), INDICES(map_syms), r->num_pos, r->num_first, r->num_rot})
#define DISPLACED (&(struct gf_displaced){NUMBERS(deltas), NUMBERS(inv_u), NUMBERS(site_sym_cart), INDICES(rot_map_syms), \
    r->num_atom, r->num_site_sym, r->num_disp})
#define DELTAS S(deltas), S(inv_u), S(site_sym_cart), S(rot_map_syms), S(rot_delta), r->num_atom, r->num_site_sym, r->num_disp

static const struct gf_cell unit = {{1, 0, 0, 0, 1, 0, 0, 0, 1}, 1e-6, {1, 1, 1}};
#define CELL unit.lattice, 9, unit.symprec, unit.periodic, 3

#define CALL(name, lengths, plain_arguments, table_arguments) \
    static void lengths_##name(struct input *r) { (void)(lengths); } \
    static uint8_t plain_##name(struct input *r) { return gf_##name plain_arguments; } \
    static uint8_t layer_##name(struct input *r, struct gf_why *why) { return gft_##name table_arguments; }

CALL(check_shift_tables, (r->set_len = 0), (T, N), (TABLES, why))
CALL(explain_shift_tables, (r->set_len = 0), (T, r->report.place, 5, N), (TABLES, r->report.place, why))
CALL(compute_permutation, (r->set_len = 0), (S(rot_atom), CELL, S(pos), S(rot_pos), r->pair, 2, r->num_pos),
     (SLOTS(rot_atom), &unit, NUMBERS(pos), NUMBERS(rot_pos), r->pair, r->num_pos, why))
CALL(find_permutation, (r->set_len = 0), (S(rot_atom), S(marks), CELL, S(pos), S(rot_pos), r->num_pos),
     (SLOTS(rot_atom), BYTES(marks), &unit, NUMBERS(pos), NUMBERS(rot_pos), r->num_pos, why))

CALL(perm_trans_symmetrize_fc, (r->full_len = WHOLE2), (S(full), r->n_satom, r->level), (SET(full), r->n_satom, r->level, why))
CALL(perm_trans_symmetrize_compact_fc, (r->set_len = COMPACT2, r->done_len = PAIRS), (S(set), T, S(done), N, r->level),
     (SET(set), TABLES, BYTES(done), r->level, why))
CALL(set_index_permutation_symmetry_compact_fc, (r->set_len = COMPACT2, r->done_len = PAIRS), (S(set), T, S(done), N, false),
     (SET(set), TABLES, BYTES(done), false, why))
CALL(true_transpose_compact_fc2, (r->set_len = COMPACT2, r->done_len = PAIRS), (S(set), T, S(done), N), (SET(set), TABLES, BYTES(done), why))
CALL(drift_report, (r->full_len = WHOLE2), (S(full), REPORT(4), r->n_satom), (NUMBERS(full), &r->report, r->n_satom, why))
CALL(drift_report_compact_fc2, (r->set_len = COMPACT2), (S(set), T, REPORT(4), N), (NUMBERS(set), TABLES, &r->report, why))
CALL(distribute_fc2, (r->set_len = r->num_first * r->num_pos * 9),
     (S(set), S(atom_list), S(fc_indices_of_atom_list), S(r_carts), S(permutations), S(map_atoms), S(map_syms), S(atom_list_reverse),
      r->num_pos, r->num_first, r->num_rot),
     (SET(set), LISTED, SLOTS(atom_list_reverse), why))
CALL(row_sums_fc2, (r->full_len = WHOLE2), (S(sums), S(full), r->n_satom), (SET(sums), NUMBERS(full), r->n_satom, why))
CALL(replace_block_fc2, (r->full_len = WHOLE2), (S(full), S(sums), S(block), r->i, r->j, r->n_satom),
     (SET(full), SET(sums), NUMBERS(block), r->i, r->j, r->n_satom, why))
CALL(compact_to_full_fc2, (r->full_len = WHOLE2, r->set_len = COMPACT2), (S(full), S(set), T, N), (SET(full), NUMBERS(set), TABLES, why))

CALL(set_permutation_symmetry_fc3, (r->full_len = FULL3), (S(full), r->num_atom), (SET(full), r->num_atom, why))
CALL(set_permutation_symmetry_compact_fc3, (r->set_len = COMPACT3, r->done_len = PAIRS * r->n_satom), (S(set), T, S(done), N),
     (SET(set), TABLES, BYTES(done), why))
CALL(perm_trans_symmetrize_fc3, (r->full_len = FULL3, r->drift_len = FULL2 * 3), (S(full), S(drift), r->num_atom, r->level),
     (SET(full), SET(drift), r->num_atom, r->level, why))
CALL(perm_trans_symmetrize_compact_fc3, (r->set_len = COMPACT3, r->done_len = PAIRS * r->n_satom, r->drift_len = PAIRS * 27),
     (S(set), T, S(done), S(drift), N, r->level), (SET(set), TABLES, BYTES(done), SET(drift), r->level, why))
CALL(transpose_compact_fc3, (r->set_len = COMPACT3, r->done_len = PAIRS), (S(set), T, S(done), N, 1), (SET(set), TABLES, BYTES(done), 1, why))
CALL(true_transpose_compact_fc3, (r->set_len = COMPACT3, r->done_len = PAIRS), (S(set), T, S(done), N, 1),
     (SET(set), TABLES, BYTES(done), 1, why))
CALL(distribute_fc3, (r->set_len = r->num_first * FULL3 / r->num_atom),
     (S(set), r->target, r->source, S(atom_mapping), r->num_atom, S(rot_cart), r->num_first),
     (SET(set), r->target, r->source, INDICES(atom_mapping), r->num_atom, NUMBERS(rot_cart), r->num_first, why))
CALL(rotate_delta_fc2s,
     (r->set_len = FULL3 / r->num_atom, r->deltas_len = r->num_disp * FULL2, r->rot_delta_len = r->num_disp * r->num_site_sym * 9),
     (S(set), DELTAS), (SET(set), DISPLACED, SET(rot_delta), why))
CALL(compact_to_full_fc3, (r->full_len = WHOLE3, r->set_len = COMPACT3), (S(full), S(set), T, N), (SET(full), NUMBERS(set), TABLES, why))
CALL(drift_report_fc3, (r->full_len = FULL3), (S(full), REPORT(6), r->num_atom), (NUMBERS(full), &r->report, r->num_atom, why))

CALL(set_permutation_symmetry_fc4, (r->full_len = FULL4, r->done_len = FULL4 / 81), (S(full), S(done), r->num_atom),
     (SET(full), BYTES(done), r->num_atom, why))
CALL(set_permutation_symmetry_compact_fc4, (r->set_len = COMPACT4, r->done_len = PAIRS * r->n_satom * r->n_satom), (S(set), T, S(done), N),
     (SET(set), TABLES, BYTES(done), why))
CALL(perm_trans_symmetrize_fc4, (r->full_len = FULL4, r->done_len = FULL4 / 81, r->drift_len = FULL3 * 3),
     (S(full), S(done), S(drift), r->num_atom, r->level), (SET(full), BYTES(done), SET(drift), r->num_atom, r->level, why))
CALL(perm_trans_symmetrize_compact_fc4,
     (r->set_len = COMPACT4, r->done_len = PAIRS * r->n_satom * r->n_satom, r->drift_len = PAIRS * r->n_satom * 81),
     (S(set), T, S(done), S(drift), N, r->level), (SET(set), TABLES, BYTES(done), SET(drift), r->level, why))
CALL(transpose_compact_fc4, (r->set_len = COMPACT4, r->done_len = PAIRS), (S(set), T, S(done), N, 0), (SET(set), TABLES, BYTES(done), 0, why))
CALL(true_transpose_compact_fc4, (r->set_len = COMPACT4, r->done_len = PAIRS), (S(set), T, S(done), N, 0),
     (SET(set), TABLES, BYTES(done), 0, why))
CALL(swap_pairs_compact_fc4, (r->set_len = COMPACT4, r->done_len = PAIRS), (S(set), T, S(done), N, r->leg_a, r->leg_b),
     (SET(set), TABLES, BYTES(done), r->leg_a, r->leg_b, why))
CALL(distribute_fc4, (r->set_len = r->num_first * FULL4 / r->num_atom),
     (S(set), r->target, r->source, S(atom_mapping), r->num_atom, S(rot_cart), r->num_first),
     (SET(set), r->target, r->source, INDICES(atom_mapping), r->num_atom, NUMBERS(rot_cart), r->num_first, why))
CALL(rotate_delta_fc3s,
     (r->set_len = FULL4 / r->num_atom, r->deltas_len = r->num_disp * FULL3, r->rot_delta_len = r->num_disp * r->num_site_sym * 27),
     (S(set), DELTAS), (SET(set), DISPLACED, SET(rot_delta), why))
CALL(compact_to_full_fc4, (r->full_len = WHOLE4, r->set_len = COMPACT4), (S(full), S(set), T, N), (SET(full), NUMBERS(set), TABLES, why))

CALL(same_set, (r->set_len = r->other_len = COMPACT2), (S(set), S(other), FOUND), (NUMBERS(set), NUMBERS(other), &r->found, why))
CALL(audit_compact_fc2, (r->set_len = COMPACT2), (S(set), T, FOUND, N), (NUMBERS(set), TABLES, &r->found, why))
CALL(audit_fc2, (r->full_len = FULL2), (S(full), FOUND, r->num_atom), (NUMBERS(full), &r->found, r->num_atom, why))
CALL(audit_compact_fc3, (r->set_len = COMPACT3), (S(set), T, FOUND, N), (NUMBERS(set), TABLES, &r->found, why))
CALL(audit_fc3, (r->full_len = FULL3), (S(full), FOUND, r->num_atom), (NUMBERS(full), &r->found, r->num_atom, why))
CALL(audit_compact_fc4, (r->set_len = COMPACT4), (S(set), T, FOUND, N), (NUMBERS(set), TABLES, &r->found, why))
CALL(audit_fc4, (r->full_len = FULL4), (S(full), FOUND, r->num_atom), (NUMBERS(full), &r->found, r->num_atom, why))

CALL(set_difference, (r->set_len = r->other_len = COMPACT2), (S(set), S(other), REPORT(2)), (NUMBERS(set), NUMBERS(other), &r->report, why))
CALL(difference_report_compact_fc2, (r->set_len = COMPACT2), (S(set), T, REPORT(2), N), (NUMBERS(set), TABLES, &r->report, why))
CALL(difference_report_fc2, (r->full_len = FULL2), (S(full), REPORT(2), r->num_atom), (NUMBERS(full), &r->report, r->num_atom, why))
CALL(difference_report_compact_fc3, (r->set_len = COMPACT3), (S(set), T, REPORT(2), N), (NUMBERS(set), TABLES, &r->report, why))
CALL(difference_report_fc3, (r->full_len = FULL3), (S(full), REPORT(2), r->num_atom), (NUMBERS(full), &r->report, r->num_atom, why))
CALL(difference_report_compact_fc4, (r->set_len = COMPACT4), (S(set), T, REPORT(2), N), (NUMBERS(set), TABLES, &r->report, why))
CALL(difference_report_fc4, (r->full_len = FULL4), (S(full), REPORT(2), r->num_atom), (NUMBERS(full), &r->report, r->num_atom, why))
CALL(crystal_report_compact_fc2, (r->set_len = COMPACT2, r->operations_len = r->num_rot * r->n_satom), (S(set), T, S(r_carts), S(operations), REPORT(2), N, r->num_rot),
     (NUMBERS(set), TABLES, NUMBERS(r_carts), INDICES(operations), r->num_rot, &r->report, why))
CALL(crystal_report_fc2, (r->full_len = FULL2, r->operations_len = r->num_rot * r->num_atom), (S(full), S(r_carts), S(operations), REPORT(2), r->num_atom, r->num_rot),
     (NUMBERS(full), NUMBERS(r_carts), INDICES(operations), r->num_rot, &r->report, r->num_atom, why))
CALL(crystal_report_compact_fc3, (r->set_len = COMPACT3, r->operations_len = r->num_rot * r->n_satom), (S(set), T, S(r_carts), S(operations), REPORT(2), N, r->num_rot),
     (NUMBERS(set), TABLES, NUMBERS(r_carts), INDICES(operations), r->num_rot, &r->report, why))
CALL(crystal_report_fc3, (r->full_len = FULL3, r->operations_len = r->num_rot * r->num_atom), (S(full), S(r_carts), S(operations), REPORT(2), r->num_atom, r->num_rot),
     (NUMBERS(full), NUMBERS(r_carts), INDICES(operations), r->num_rot, &r->report, r->num_atom, why))
CALL(crystal_report_compact_fc4, (r->set_len = COMPACT4, r->operations_len = r->num_rot * r->n_satom), (S(set), T, S(r_carts), S(operations), REPORT(2), N, r->num_rot),
     (NUMBERS(set), TABLES, NUMBERS(r_carts), INDICES(operations), r->num_rot, &r->report, why))
CALL(crystal_report_fc4, (r->full_len = FULL4, r->operations_len = r->num_rot * r->num_atom), (S(full), S(r_carts), S(operations), REPORT(2), r->num_atom, r->num_rot),
     (NUMBERS(full), NUMBERS(r_carts), INDICES(operations), r->num_rot, &r->report, r->num_atom, why))
CALL(drift_report_compact_fc3, (r->set_len = COMPACT3), (S(set), T, REPORT(2), N), (NUMBERS(set), TABLES, &r->report, why))
CALL(drift_report_compact_fc4, (r->set_len = COMPACT4), (S(set), T, REPORT(2), N), (NUMBERS(set), TABLES, &r->report, why))
CALL(drift_report_fc4, (r->full_len = FULL4), (S(full), REPORT(2), r->num_atom), (NUMBERS(full), &r->report, r->num_atom, why))

/* ---- what is stated of the arguments ---- */

/* an argument: the refusal that it is the reason of if it is wrong, its name, where its length, count, index or table is, its limit, and
 * where its table's count is */
struct stated {
    uint8_t refusal;
    const char *name;
    size_t where, limit, count;
};

#define LENGTH(field, name) {2, name, offsetof(struct input, field##_len), 0, 0}
#define COUNT(field, limit) {1, #field, offsetof(struct input, field), limit, 0}
#define ENTRIES(field, count) {3, #field, offsetof(struct input, field), 0, offsetof(struct input, count)}
#define INDEX(refusal, field, below) {refusal, #field, offsetof(struct input, field), below, 0}
#define TABLES_SAID(limit) \
    COUNT(n_satom, limit), COUNT(n_patom, limit), COUNT(num_trans, limit), LENGTH(p2s, "p2s"), LENGTH(s2pp, "s2pp"), \
    LENGTH(nsym_list, "nsym_list"), LENGTH(perms, "perms"), ENTRIES(p2s, n_satom), ENTRIES(s2pp, n_patom), ENTRIES(nsym_list, num_trans), \
    ENTRIES(perms, n_satom)

struct call {
    const char *name;
    void (*lengths)(struct input *);
    uint8_t (*plain)(struct input *);
    uint8_t (*layer)(struct input *, struct gf_why *);
    size_t order; /* of the set: 2, 3 or 4 */
    bool compact;
    struct stated stated[20]; /* up to the first without a name */
};

#define NAMED(name) #name, lengths_##name, plain_##name, layer_##name

static const struct call calls[] = {
    {NAMED(check_shift_tables), 2, true, {TABLES_SAID(1024)}},
    {NAMED(explain_shift_tables), 2, true, {{0}}},
    {NAMED(compute_permutation), 2, false,
     {LENGTH(rot_atom, "rot_atom"), LENGTH(pos, "pos"), LENGTH(rot_pos, "rot_pos"), COUNT(num_pos, 1024)}},
    {NAMED(find_permutation), 2, false,
     {LENGTH(rot_atom, "rot_atom"), LENGTH(marks, "marks"), LENGTH(pos, "pos"), LENGTH(rot_pos, "rot_pos"), COUNT(num_pos, 1024)}},
    {NAMED(perm_trans_symmetrize_fc), 2, false, {LENGTH(full, "fc"), COUNT(n_satom, 1024), COUNT(level, 1000)}},
    {NAMED(perm_trans_symmetrize_compact_fc), 2, true, {LENGTH(set, "fc"), TABLES_SAID(1024), LENGTH(done, "done"), COUNT(level, 1000)}},
    {NAMED(set_index_permutation_symmetry_compact_fc), 2, true, {LENGTH(set, "fc"), TABLES_SAID(1024), LENGTH(done, "done")}},
    {NAMED(true_transpose_compact_fc2), 2, true, {LENGTH(set, "fc"), TABLES_SAID(1024), LENGTH(done, "done")}},
    {NAMED(drift_report), 2, false, {LENGTH(full, "fc"), COUNT(n_satom, 1024)}},
    {NAMED(drift_report_compact_fc2), 2, true, {LENGTH(set, "fc"), TABLES_SAID(1024)}},
    {NAMED(distribute_fc2), 2, false,
     {LENGTH(set, "fc2"), ENTRIES(atom_list, num_pos), LENGTH(fc_indices_of_atom_list, "fc_indices_of_atom_list"),
      ENTRIES(fc_indices_of_atom_list, num_first), LENGTH(r_carts, "r_carts"), LENGTH(permutations, "permutations"),
      ENTRIES(permutations, num_pos), LENGTH(map_atoms, "map_atoms"), ENTRIES(map_atoms, num_pos), LENGTH(map_syms, "map_syms"),
      ENTRIES(map_syms, num_rot), LENGTH(atom_list_reverse, "atom_list_reverse"), COUNT(num_pos, 1024), COUNT(num_first, 1024),
      COUNT(num_rot, 1024)}},
    {NAMED(row_sums_fc2), 2, false, {LENGTH(sums, "sums"), LENGTH(full, "fc"), COUNT(n_satom, 1024)}},
    {NAMED(replace_block_fc2), 2, false,
     {LENGTH(full, "fc"), LENGTH(sums, "sums"), LENGTH(block, "block"), INDEX(3, i, 8), INDEX(3, j, 8), COUNT(n_satom, 1024)}},
    {NAMED(compact_to_full_fc2), 2, true, {LENGTH(full, "full"), LENGTH(set, "fc2"), TABLES_SAID(1024)}},
    {NAMED(set_permutation_symmetry_fc3), 3, false, {LENGTH(full, "fc3"), COUNT(num_atom, 256)}},
    {NAMED(set_permutation_symmetry_compact_fc3), 3, true, {LENGTH(set, "fc3"), TABLES_SAID(256), LENGTH(done, "done")}},
    {NAMED(perm_trans_symmetrize_fc3), 3, false, {LENGTH(full, "fc3"), LENGTH(drift, "drift"), COUNT(num_atom, 256), COUNT(level, 1000)}},
    {NAMED(perm_trans_symmetrize_compact_fc3), 3, true,
     {LENGTH(set, "fc3"), TABLES_SAID(256), LENGTH(done, "done"), LENGTH(drift, "drift"), COUNT(level, 1000)}},
    {NAMED(transpose_compact_fc3), 3, true, {LENGTH(set, "fc3"), TABLES_SAID(256), LENGTH(done, "done")}},
    {NAMED(true_transpose_compact_fc3), 3, true, {LENGTH(set, "fc3"), TABLES_SAID(256), LENGTH(done, "done")}},
    {NAMED(distribute_fc3), 3, false,
     {LENGTH(set, "fc3"), INDEX(4, target, 3), INDEX(4, source, 3), LENGTH(atom_mapping, "atom_mapping"), ENTRIES(atom_mapping, num_atom),
      COUNT(num_atom, 256), LENGTH(rot_cart, "rot_cart"), COUNT(num_first, 256)}},
    {NAMED(rotate_delta_fc2s), 3, false,
     {LENGTH(set, "fc3"), LENGTH(deltas, "delta_fc2s"), LENGTH(inv_u, "inv_u"), LENGTH(site_sym_cart, "site_sym_cart"),
      LENGTH(rot_map_syms, "rot_map_syms"), ENTRIES(rot_map_syms, num_atom), LENGTH(rot_delta, "rot_delta"), COUNT(num_atom, 256),
      COUNT(num_site_sym, 1024), COUNT(num_disp, 1024)}},
    {NAMED(compact_to_full_fc3), 3, true, {LENGTH(full, "full"), LENGTH(set, "fc3"), TABLES_SAID(256)}},
    {NAMED(drift_report_fc3), 3, false, {LENGTH(full, "fc"), COUNT(num_atom, 256)}},
    {NAMED(set_permutation_symmetry_fc4), 4, false, {LENGTH(full, "fc4"), LENGTH(done, "done"), COUNT(num_atom, 64)}},
    {NAMED(set_permutation_symmetry_compact_fc4), 4, true, {LENGTH(set, "fc4"), TABLES_SAID(64), LENGTH(done, "done")}},
    {NAMED(perm_trans_symmetrize_fc4), 4, false,
     {LENGTH(full, "fc4"), LENGTH(done, "done"), LENGTH(drift, "drift"), COUNT(num_atom, 64), COUNT(level, 1000)}},
    {NAMED(perm_trans_symmetrize_compact_fc4), 4, true,
     {LENGTH(set, "fc4"), TABLES_SAID(64), LENGTH(done, "done"), LENGTH(drift, "drift"), COUNT(level, 1000)}},
    {NAMED(transpose_compact_fc4), 4, true, {LENGTH(set, "fc4"), TABLES_SAID(64), LENGTH(done, "done")}},
    {NAMED(true_transpose_compact_fc4), 4, true, {LENGTH(set, "fc4"), TABLES_SAID(64), LENGTH(done, "done")}},
    {NAMED(swap_pairs_compact_fc4), 4, true,
     {LENGTH(set, "fc4"), TABLES_SAID(64), LENGTH(done, "done"), INDEX(3, leg_a, 4), INDEX(3, leg_b, 4)}},
    {NAMED(distribute_fc4), 4, false,
     {LENGTH(set, "fc4"), INDEX(4, target, 3), INDEX(4, source, 3), LENGTH(atom_mapping, "atom_mapping"), ENTRIES(atom_mapping, num_atom),
      COUNT(num_atom, 64), LENGTH(rot_cart, "rot_cart"), COUNT(num_first, 64)}},
    {NAMED(rotate_delta_fc3s), 4, false,
     {LENGTH(set, "fc4"), LENGTH(deltas, "delta_fc3s"), LENGTH(inv_u, "inv_u"), LENGTH(site_sym_cart, "site_sym_cart"),
      LENGTH(rot_map_syms, "rot_map_syms"), ENTRIES(rot_map_syms, num_atom), LENGTH(rot_delta, "rot_delta"), COUNT(num_atom, 64),
      COUNT(num_site_sym, 1024), COUNT(num_disp, 1024)}},
    {NAMED(compact_to_full_fc4), 4, true, {LENGTH(full, "full"), LENGTH(set, "fc4"), TABLES_SAID(64)}},
    {NAMED(same_set), 2, true, {LENGTH(other, "b")}},
    {NAMED(audit_compact_fc2), 2, true, {LENGTH(set, "fc"), TABLES_SAID(1024)}},
    {NAMED(audit_fc2), 2, false, {LENGTH(full, "fc"), COUNT(num_atom, 1024)}},
    {NAMED(audit_compact_fc3), 3, true, {LENGTH(set, "fc"), TABLES_SAID(256)}},
    {NAMED(audit_fc3), 3, false, {LENGTH(full, "fc"), COUNT(num_atom, 256)}},
    {NAMED(audit_compact_fc4), 4, true, {LENGTH(set, "fc"), TABLES_SAID(64)}},
    {NAMED(audit_fc4), 4, false, {LENGTH(full, "fc"), COUNT(num_atom, 64)}},
    {NAMED(set_difference), 2, true, {LENGTH(other, "b")}},
    {NAMED(difference_report_compact_fc2), 2, true, {LENGTH(set, "fc"), TABLES_SAID(1024)}},
    {NAMED(difference_report_fc2), 2, false, {LENGTH(full, "fc"), COUNT(num_atom, 1024)}},
    {NAMED(difference_report_compact_fc3), 3, true, {LENGTH(set, "fc"), TABLES_SAID(256)}},
    {NAMED(difference_report_fc3), 3, false, {LENGTH(full, "fc"), COUNT(num_atom, 256)}},
    {NAMED(difference_report_compact_fc4), 4, true, {LENGTH(set, "fc"), TABLES_SAID(64)}},
    {NAMED(difference_report_fc4), 4, false, {LENGTH(full, "fc"), COUNT(num_atom, 64)}},
    {NAMED(crystal_report_compact_fc2), 2, true,
     {LENGTH(set, "fc"), TABLES_SAID(1024), LENGTH(r_carts, "r_carts"), LENGTH(operations, "operations"), ENTRIES(operations, n_satom), COUNT(num_rot, 1024)}},
    {NAMED(crystal_report_fc2), 2, false,
     {LENGTH(full, "fc"), LENGTH(r_carts, "r_carts"), LENGTH(operations, "operations"), ENTRIES(operations, num_atom), COUNT(num_atom, 1024), COUNT(num_rot, 1024)}},
    {NAMED(crystal_report_compact_fc3), 3, true,
     {LENGTH(set, "fc"), TABLES_SAID(256), LENGTH(r_carts, "r_carts"), LENGTH(operations, "operations"), ENTRIES(operations, n_satom), COUNT(num_rot, 1024)}},
    {NAMED(crystal_report_fc3), 3, false,
     {LENGTH(full, "fc"), LENGTH(r_carts, "r_carts"), LENGTH(operations, "operations"), ENTRIES(operations, num_atom), COUNT(num_atom, 256), COUNT(num_rot, 1024)}},
    {NAMED(crystal_report_compact_fc4), 4, true,
     {LENGTH(set, "fc"), TABLES_SAID(64), LENGTH(r_carts, "r_carts"), LENGTH(operations, "operations"), ENTRIES(operations, n_satom), COUNT(num_rot, 1024)}},
    {NAMED(crystal_report_fc4), 4, false,
     {LENGTH(full, "fc"), LENGTH(r_carts, "r_carts"), LENGTH(operations, "operations"), ENTRIES(operations, num_atom), COUNT(num_atom, 64), COUNT(num_rot, 1024)}},
    {NAMED(drift_report_compact_fc3), 3, true, {LENGTH(set, "fc"), TABLES_SAID(256)}},
    {NAMED(drift_report_compact_fc4), 4, true, {LENGTH(set, "fc"), TABLES_SAID(64)}},
    {NAMED(drift_report_fc4), 4, false, {LENGTH(full, "fc"), COUNT(num_atom, 64)}},
};

enum { CALLS = sizeof calls / sizeof *calls };

/* ---- input ---- */

/* How large: compact sets of two atoms in the primitive cell and k shifts in a circle (one is a half shift if k is even), full sets of m
 * atoms, p positions, which are moved on by one, or are a staircase. */
struct size {
    size_t k, m, p;
    bool staircase;
};

static void *lent(size_t count, size_t size)
{
    void *memory = calloc(count + 1, size);
    if (memory == NULL) {
        puts("no memory");
        exit(1);
    }
    return memory;
}

/* numbers on the grid, no two neighbours the same */
static void count_on(double *xs, size_t n)
{
    for (size_t i = 0; i < n; i++)
        xs[i] = ((double)(i * i % 101) - 50) * 0.125;
}

static void fill_tables(struct input *r, size_t k)
{
    for (size_t p = 0; p < 2; p++)
        r->p2s[p] = (int64_t)(p * k);
    for (size_t a = 0; a < 2 * k; a++) {
        r->s2pp[a] = (int64_t)(a / k);
        r->nsym_list[a] = (int64_t)((k - a % k) % k);
        for (size_t t = 0; t < k; t++)
            r->perms[t * 2 * k + a] = (int64_t)(a / k * k + (a % k + t) % k);
    }
}

/* Moved on: slot j holds what position j + 1 is. A staircase: position i is near slots i and i + 1, the last one near slot 0 alone, so that
 * the one chain of exchanges has every position. */
static void fill_positions(struct input *r, bool staircase)
{
    const double step = 1.6e-6; /* half of it is below symprec */
    for (size_t i = 0; i < r->num_pos; i++) {
        const double half = i + 1 < r->num_pos ? ((double)i + 0.5) * step : -0.5 * step;
        r->pos[3 * i] = staircase ? half : (double)i * step;
        r->rot_pos[3 * i] = staircase ? (double)i * step : (double)((i + 1) % r->num_pos) * step;
    }
}

static struct input input_of(const struct call *c, struct size size)
{
    struct input *r = &(struct input){0};
    r->n_patom = 2, r->num_trans = size.k, r->n_satom = 2 * size.k, r->num_atom = size.m, r->num_pos = size.p;
    r->num_first = 3, r->num_rot = 2, r->num_site_sym = 5, r->num_disp = 4, r->level = 2, r->target = 2, r->source = 1, r->i = 4, r->j = 5;
    r->leg_a = 3, r->leg_b = 1;
    r->sums_len = r->n_satom * 9, r->block_len = r->rot_cart_len = 9, r->inv_u_len = 3 * r->num_disp * r->num_site_sym;
    r->site_sym_cart_len = r->num_site_sym * 9, r->r_carts_len = r->num_rot * 9, r->pos_len = r->rot_pos_len = 3 * r->num_pos;
    r->p2s_len = 2, r->s2pp_len = r->nsym_list_len = r->n_satom, r->perms_len = r->num_trans * r->n_satom;
    r->atom_list_len = r->fc_indices_of_atom_list_len = 7, r->permutations_len = r->num_rot * r->num_pos;
    r->map_atoms_len = r->map_syms_len = r->rot_atom_len = r->atom_list_reverse_len = r->marks_len = r->num_pos;
    r->atom_mapping_len = r->num_atom, r->rot_map_syms_len = r->num_site_sym * r->num_atom;
    c->lengths(r);
#define SLICE(type, name) r->name##_room = r->name##_len; r->name = (type *)lent(r->name##_len, sizeof(type));
    SLICES(SLICE)
#undef SLICE
    count_on(r->set, r->set_len), count_on(r->full, r->full_len), count_on(r->other, r->other_len), count_on(r->deltas, r->deltas_len);
    count_on(r->inv_u, r->inv_u_len), count_on(r->r_carts, r->r_carts_len), count_on(r->site_sym_cart, r->site_sym_cart_len);
    count_on(r->rot_cart, r->rot_cart_len), count_on(r->block, r->block_len), count_on(r->sums, r->sums_len);
    count_on(r->drift, r->drift_len);
    fill_tables(r, size.k);
    fill_positions(r, size.staircase);
    for (size_t k = 0; k < r->atom_list_len; k++)
        r->atom_list[k] = (int64_t)(k % r->num_pos), r->fc_indices_of_atom_list[k] = (int64_t)(k % r->num_first);
    for (size_t k = 0; k < r->operations_len; k++)
        r->operations[k] = (int64_t)(k % (r->operations_len / r->num_rot));
    for (size_t k = 0; k < r->num_pos; k++)
        r->permutations[k] = (int64_t)k, r->permutations[r->num_pos + k] = (int64_t)(r->num_pos - 1 - k), r->map_syms[k] = (int64_t)(k % 2);
    memset(r->done, 7, r->done_len), memset(r->marks, 7, r->marks_len);
    return *r;
}

/* every slice and every slot, bit for bit */
static inline bool same_memory(const struct input *a, const struct input *b)
{
#define SLICE(type, name) if (memcmp(a->name, b->name, (a->name##_room + 1) * sizeof(type)) != 0) return false;
    SLICES(SLICE)
#undef SLICE
    return memcmp(a->pair, b->pair, sizeof a->pair) == 0 && memcmp(&a->report, &b->report, sizeof a->report) == 0
        && memcmp(&a->found, &b->found, sizeof a->found) == 0;
}

static void give_back(struct input *r)
{
#define SLICE(type, name) free(r->name);
    SLICES(SLICE)
#undef SLICE
}

#endif
