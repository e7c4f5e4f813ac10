/*
 * Gullyfork: force constants up to fourth order, the matching of atoms, and the roll of what was delivered.
 *
 * Link with -lgullyfork after `make install`, or with target/staticlib/libcapi.a, which bindings/library writes (x86-64 Linux). C99 or
 * later, and C++. gullyfork_tables.h has the same calls with less to pass, and says which argument a refusal is about.
 *
 * WHICH CALL FOR WHICH TASK
 *   check the tables of a cell   gf_check_shift_tables; which rule is broken: gf_explain_shift_tables
 *   symmetrize a full set        sum rule and permutations: gf_perm_trans_symmetrize_fc, gf_perm_trans_symmetrize_fc3, _fc4
 *                                permutations alone: gf_set_permutation_symmetry_fc3, _fc4
 *   symmetrize a compact set     sum rule and permutations: gf_perm_trans_symmetrize_compact_fc, gf_perm_trans_symmetrize_compact_fc3, _fc4
 *                                permutations alone: gf_set_permutation_symmetry_compact_fc3, _fc4
 *   look for faults before that  sum rule: gf_drift_report, gf_drift_report_fc3, _fc4, gf_drift_report_compact_fc2, _fc3, _fc4
 *                                orders of the same legs: gf_difference_report_fc2, _fc3, _fc4, gf_difference_report_compact_fc2, _fc3, _fc4
 *                                the crystal's symmetry: gf_crystal_report_fc2, _fc3, _fc4, gf_crystal_report_compact_fc2, _fc3, _fc4
 *   check a symmetrized set      gf_audit_fc2, _fc3, _fc4, gf_audit_compact_fc2, _fc3, _fc4
 *   compare two sets             bit for bit: gf_same_set; how far apart: gf_set_difference
 *   go from compact to full      gf_compact_to_full_fc2, _fc3, _fc4
 *   exchange legs                gf_true_transpose_compact_fc2, _fc3, _fc4; any two: gf_swap_pairs_compact_fc4
 *                                as phonopy, half shifts left out: gf_set_index_permutation_symmetry_compact_fc, gf_transpose_compact_fc3, _fc4
 *   fill a set by symmetry       gf_distribute_fc2, _fc3, _fc4; from displacements: gf_rotate_delta_fc2s, gf_rotate_delta_fc3s
 *   match atoms                  as phonopy: gf_compute_permutation; whenever there is a match: gf_find_permutation
 *   edit blocks, keep row sums   gf_row_sums_fc2, gf_replace_block_fc2
 *   round, take a root           gf_nint, gf_round, gf_sqrt
 *   keep a roll of deliveries    gf_append_roll, gf_read_roll, gf_is_roll, gf_stands_now, gf_retire_all
 *                                older rolls: gf_read_roll_former, gf_is_roll_former
 *   an answer in words; version  gf_words, gf_version
 *
 * SLICES
 *   A slice is two arguments: a pointer, and the number of elements that it points to. The pointer is aligned for its type and never
 *   NULL, also where the length is 0. A slice that a call may write (no const) overlaps no other slice of that call. The library
 *   reads and writes nothing but the slices, allocates nothing, and keeps no pointer.
 *
 * SETS
 *   Atoms and the three directions are numbered from 0. A set of order 2, 3 or 4 has a block of 9, 27 or 81 doubles for each pair, triple or
 *   quadruple of atoms; the last atom varies fastest, and in a block the last direction. A full set has all atoms of the supercell in
 *   every place; in a compact set the first atom is one of the primitive cell (its number there).
 *
 * ANSWERS
 *   Every call but gf_nint, gf_round and gf_sqrt takes every input and answers with a number. 0 says that its work is done. Refusals have
 *   the numbers 1 to 63, answers other than 0 those from 64 on: GF_REFUSED(answer) tells them apart, of later versions too. The six
 *   refusals, 1 to 6, are tried in the order of their numbers: all counts before any length, all lengths before any entry, and so on;
 *   the first that applies is answered. The calls on a roll have four more: 7 is looked at before all others, then 9, 11 and 8; and
 *   gf_replace_block_fc2 has 10, after 3. A refused call has written nothing: every slice is as it was. gf_is_roll and
 *   gf_is_roll_former answer with true or false.
 *   Limits, beyond which a count is refused: 1,024 atoms (second order and matching), 256 (third order) or 64 (fourth), and the same
 *   for n_patom, num_trans and num_first; level 1,000; the length of atom_list, num_rot, num_disp and num_site_sym 1,024. So more than
 *   1,024 operations (num_rot, num_site_sym) in one call are refused as more atoms are. 0 is within every limit; but the shift tables
 *   need a null shift, so a compact call with all counts 0 answers 6, not 0.
 *
 * THREADS AND STACK
 *   The library has no state, allocates nothing and keeps no pointer, so any number of threads may call it at the same time, on slices that
 *   overlap only where all of them only read. A call takes at most 103 kB of stack, but gf_find_permutation 378 kB at 1,024 positions:
 *   docs/GUIDE.md has each call's, measured.
 *
 * WORK SLICES
 *   done, drift, atom_list_reverse and rot_delta are memory to work in. What they hold has no influence on the result; a call that ends
 *   well leaves them filled with zeros.
 *
 * SHIFT TABLES (compact sets)
 *   The supercell has n_satom atoms, the primitive cell n_patom, and num_trans shifts (translations of the primitive cell) permute
 *   the atoms of the supercell.
 *     p2s        n_patom entries              p2s[p]: the atom of the supercell that stands for atom p of the primitive cell
 *     s2pp       n_satom entries              s2pp[a]: the atom of the primitive cell that a is an image of
 *     nsym_list  n_satom entries              nsym_list[a]: the row that sends a to p2s[s2pp[a]]
 *     perms      num_trans x n_satom entries  perms[t * n_satom + a]: the image of atom a under shift t
 *   Refusal 3: an entry is negative or not below the count that it points into (n_satom, n_patom, num_trans, n_satom in this order).
 *   Refusal 6: one of these rules is broken:
 *     n_satom = n_patom x num_trans;
 *     a row is a permutation of the atoms, one of them is the identity (the null shift), and any two taken one after the other
 *     make a row again;
 *     no atom has the same image under two rows;
 *     s2pp[p2s[p]] = p, and all images of an atom have its s2pp;
 *     perms[nsym_list[a] * n_satom + a] = p2s[s2pp[a]].
 *
 * A DELIVERY ROLL
 *   The register of deliveries, as bytes: its records from byte 0 on, each of them
 *     kind            1 byte    delivery is 1, replacement 2, retirement 3
 *     set number      4 bytes   not 0
 *     earlier number  4 bytes   of a replacement the set that it replaces, not 0; otherwise 0
 *     label length    1 byte
 *     label           any bytes
 *   and then the trailer, of numbers of 4 bytes: where each record starts, in rising order; how many records there are; where the
 *   trailer starts. Integers have the lowest byte first. Eight zero bytes are a roll without a record. The limits are 1,000 records and
 *   65,536 bytes. A roll stands at the beginning of the lent slice, `count` bytes long. The same records in the same order are always
 *   the same bytes. By a former rule the starts could stand in any order, each of them once: such older rolls are read by the calls that
 *   end in _former, and every other call refuses them with 7.
 *
 * NUMBERS
 *   The result of each call is proved equal to a definition, which is written to be the result of phonopy/phonors 8e92295164 bit for bit,
 *   any NaN for any NaN; docs/COMPARISON.md says how far the two were compared by running. The floating-point environment has to be the
 *   one that a program starts with: to nearest, subnormal numbers kept.
 *   The proof's model has one NaN. So where it says that a number is unchanged or that two have the same bits, a NaN may be another
 *   NaN. In practice a number that is only moved keeps all its bits, also a NaN's; this is tested, not proved.
 */
#ifndef GULLYFORK_H
#define GULLYFORK_H

#include <stdbool.h>
#include <stddef.h>
#include <stdint.h>

#ifdef __cplusplus
extern "C" {
#endif

/* The version of this header; gf_version gives that of the library. */
#define GF_VERSION "2.0.0"

/* What a call answers: each answer's name, number and words. gf_words gives the words of a number. */
#define GF_ANSWERS(ANSWER) \
    ANSWER(GF_DONE, 0, "the work is done") \
    ANSWER(GF_COUNT_ABOVE_LIMIT, 1, "a count is above its limit") \
    ANSWER(GF_WRONG_LENGTH, 2, "a slice is not as long as stated") \
    ANSWER(GF_INDEX_OUT_OF_RANGE, 3, "an index, or an entry of an index table, read or not, is negative or not below its count") \
    ANSWER(GF_BAD_SLAB, 4, "the set has no such source or target slab, or both are the same slab") \
    ANSWER(GF_BAD_REPRESENTATIVE, 5, "the representative of a listed atom is not listed, or does not represent itself") \
    ANSWER(GF_BAD_SHIFT_TABLES, 6, "the shift tables break a rule") \
    ANSWER(GF_NOT_A_ROLL, 7, "the bytes are no roll, the count is more than the slice has, nothing starts there, or the record breaks a rule") \
    ANSWER(GF_NO_ROOM, 8, "the roll would pass 1,000 records, 65,536 bytes or the lent slice") \
    ANSWER(GF_NOT_LAWFUL, 9, "a record delivers a set again, names one not delivered before it, or replaces one a second time") \
    ANSWER(GF_OFF_GRID, 10, "a number of the old block or of the new one is off the grid") \
    ANSWER(GF_UNKNOWN_SET, 11, "the set to retire was never delivered") \
    ANSWER(GF_NOT_MATCHED, 64, "some slot is left free") \
    ANSWER(GF_DRIFT_STILL, 65, "all numbers of the report are zero") \
    ANSWER(GF_DRIFT_WORST, 66, "the worst number of the report is named") \
    ANSWER(GF_DRIFT_NO_NUMBER, 67, "a number of the report is NaN") \
    ANSWER(GF_ROLL_END, 68, "the roll's trailer begins there") \
    ANSWER(GF_MATCH_NO_NUMBER, 69, "some slot is left free, and a distance was NaN") \
    ANSWER(GF_SET_UNKNOWN, 70, "the set was never delivered") \
    ANSWER(GF_SET_RETIRED, 71, "the set that stands at the end of its chain of replacements was retired") \
    ANSWER(GF_NO_MATCH, 72, "no bijection of near pairs exists") \
    ANSWER(GF_ALIKE, 73, "all numbers that are to be the same have the same bits") \
    ANSWER(GF_UNLIKE, 74, "the first difference is named")

#define GF_ANSWER_NUMBER(name, number, words) name = number,
enum gf_answer { GF_ANSWERS(GF_ANSWER_NUMBER) };
#undef GF_ANSWER_NUMBER

/* Whether an answer is a refusal, so that the call has written nothing. */
#define GF_REFUSED(answer) ((answer) >= 1 && (answer) <= 63)

/* Which sums a drift report names. */
enum gf_along {
    GF_ROWS = 0,   /* of a row, over the second atom */
    GF_COLUMNS = 1 /* of a column, over the first atom */
};

/* ---- the library itself ---- */

/* The version of the library, as GF_VERSION of the header that it was built with: three numbers with points between. */
const char *gf_version(void);

/* What an answer means, in words without a capital and a full stop; other numbers give "not an answer of this library". Never NULL. */
const char *gf_words(uint8_t answer);

/* ---- shift tables ---- */

/*
 * Judges shift tables alone, as every compact call of second order judges them.
 * Refusals: 1 (limit 1,024), 2, 3, 6. GF_DONE: the tables keep every rule.
 */
uint8_t gf_check_shift_tables(
    const int64_t *p2s, size_t p2s_len,
    const int64_t *s2pp, size_t s2pp_len,
    const int64_t *nsym_list, size_t nsym_list_len,
    const int64_t *perms, size_t perms_len,
    size_t n_satom, size_t n_patom, size_t num_trans);

/*
 * Why gf_check_shift_tables refuses tables. place[0] is what it answers of them, 0 too; the other numbers say what the refusal is about,
 * the first that is wrong in the order given here, and are 0 where nothing is named.
 *   1  place[1]: 0 n_satom, 1 n_patom, 2 num_trans
 *   2  place[1]: 0 perms, 1 p2s, 2 s2pp, 3 nsym_list
 *   3  place[1]: the same, and place[2] is the entry
 *   6  place[1] is the rule, in the order above, and i, j, k = place[2], place[3], place[4] the least numbers that break it, i before j
 *      before k:
 *        0  n_satom is not n_patom x num_trans
 *        1  row i sends atoms j and k to the same place
 *        2  no row sends each atom to itself
 *        3  row i and then row j is no row
 *        4  rows i and j send atom k to the same place
 *        5  s2pp[p2s[i]] is not i
 *        6  s2pp is another for the image of atom j under row i than for j
 *        7  row nsym_list[i] does not send i to p2s[s2pp[i]]
 * Tables that are good take as long as gf_check_shift_tables; for refusal 6 each rule is looked at in turn, which takes seconds at 1,024
 * atoms and shifts.
 *   place  5, only written
 * Refusals: 2, if place has another length. Every other call answers GF_DONE.
 */
uint8_t gf_explain_shift_tables(
    const int64_t *p2s, size_t p2s_len,
    const int64_t *s2pp, size_t s2pp_len,
    const int64_t *nsym_list, size_t nsym_list_len,
    const int64_t *perms, size_t perms_len,
    size_t *place, size_t place_len,
    size_t n_satom, size_t n_patom, size_t num_trans);

/* ---- symmetrize a set ---- */

/*
 * Symmetrizes a full set. Per level: the drift of each column is taken away, the drift of each row, and each number becomes the mean
 * with its counterpart (atoms and directions exchanged). At the end the on-site blocks (an atom with itself) are made anew
 * from the sums of the others. Level 0 rewrites the on-site blocks only.
 *   fc  n_satom x n_satom x 9
 * Refusals: 1 (n_satom above 1,024, level above 1,000), 2.
 */
uint8_t gf_perm_trans_symmetrize_fc(double *fc, size_t fc_len, size_t n_satom, size_t level);

/*
 * Symmetrizes a compact set. Per level: twice the transpose and the row drift, then the averages; at the end the on-site
 * blocks.
 *   fc    n_patom x n_satom x 9
 *   done  n_patom x n_satom, work
 * Refusals: 1 (a count above 1,024, level above 1,000), 2, 3, 6.
 */
uint8_t gf_perm_trans_symmetrize_compact_fc(
    double *fc, size_t fc_len,
    const int64_t *p2s, size_t p2s_len,
    const int64_t *s2pp, size_t s2pp_len,
    const int64_t *nsym_list, size_t nsym_list_len,
    const int64_t *perms, size_t perms_len,
    uint8_t *done, size_t done_len,
    size_t n_satom, size_t n_patom, size_t num_trans,
    size_t level);

/*
 * transpose true: the numbers of a compact set change places with their counterparts, the atoms of the pair exchanged and the
 * directions too. Blocks that a half shift (a shift that swaps the two atoms) exchanges stay as they are.
 * transpose false: each number becomes the mean of itself and its counterpart.
 *   fc    n_patom x n_satom x 9
 *   done  n_patom x n_satom, work
 * Refusals: 1 (a count above 1,024), 2, 3, 6.
 */
uint8_t gf_set_index_permutation_symmetry_compact_fc(
    double *fc, size_t fc_len,
    const int64_t *p2s, size_t p2s_len,
    const int64_t *s2pp, size_t s2pp_len,
    const int64_t *nsym_list, size_t nsym_list_len,
    const int64_t *perms, size_t perms_len,
    uint8_t *done, size_t done_len,
    size_t n_satom, size_t n_patom, size_t num_trans,
    bool transpose);

/*
 * Symmetrizes a full set: the six permutations of any three (atom, direction) pairs get their mean.
 *   fc3  num_atom x num_atom x num_atom x 27
 * Refusals: 1 (num_atom above 256), 2.
 */
uint8_t gf_set_permutation_symmetry_fc3(double *fc3, size_t fc3_len, size_t num_atom);

/*
 * Symmetrizes a compact set: read out to all atoms, the six permutations of any three (atom, direction) pairs then hold the same bits.
 *   fc3   n_patom x n_satom x n_satom x 27
 *   done  n_patom x n_satom x n_satom, work
 * Refusals: 1 (a count above 256), 2, 3, 6.
 */
uint8_t gf_set_permutation_symmetry_compact_fc3(
    double *fc3, size_t fc3_len,
    const int64_t *p2s, size_t p2s_len,
    const int64_t *s2pp, size_t s2pp_len,
    const int64_t *nsym_list, size_t nsym_list_len,
    const int64_t *perms, size_t perms_len,
    uint8_t *done, size_t done_len,
    size_t n_satom, size_t n_patom, size_t num_trans);

/*
 * Symmetrizes a full set and takes its drift off. Per level: of leg 0, then 1, then 2 the mean over that leg's atom is taken off every
 * number; then the six permutations of any three (atom, direction) pairs get their mean. The mean over an atom is the sum from 0.0, the
 * atom rising, times 1.0 / num_atom. Level 0 is gf_set_permutation_symmetry_fc3. One level leaves sums of the size of rounding.
 *   fc3    num_atom x num_atom x num_atom x 27
 *   drift  num_atom x num_atom x 27, work
 * Refusals: 1 (num_atom above 256, level above 1,000), 2.
 */
uint8_t gf_perm_trans_symmetrize_fc3(
    double *fc3, size_t fc3_len, double *drift, size_t drift_len, size_t num_atom, size_t level);

/*
 * Symmetrizes a compact set and takes its drift off: the same steps with the sums over all atoms of the supercell of what the set reads
 * out to, half shifts or not. The sum beside two atoms is taken where the first of them is the one that stands for the primitive cell's,
 * the second shifted along. Level 0 is gf_set_permutation_symmetry_compact_fc3.
 *   fc3    n_patom x n_satom x n_satom x 27
 *   done   n_patom x n_satom x n_satom, work
 *   drift  n_patom x n_satom x 27, work
 * Refusals: 1 (a count above 256, level above 1,000), 2, 3, 6.
 */
uint8_t gf_perm_trans_symmetrize_compact_fc3(
    double *fc3, size_t fc3_len,
    const int64_t *p2s, size_t p2s_len,
    const int64_t *s2pp, size_t s2pp_len,
    const int64_t *nsym_list, size_t nsym_list_len,
    const int64_t *perms, size_t perms_len,
    uint8_t *done, size_t done_len,
    double *drift, size_t drift_len,
    size_t n_satom, size_t n_patom, size_t num_trans,
    size_t level);

/*
 * Symmetrizes a full set: the 24 permutations of any four (atom, direction) pairs get their mean.
 *   fc4   num_atom x num_atom x num_atom x num_atom x 81
 *   done  num_atom x num_atom x num_atom x num_atom, work
 * Refusals: 1 (num_atom above 64), 2.
 */
uint8_t gf_set_permutation_symmetry_fc4(
    double *fc4, size_t fc4_len,
    uint8_t *done, size_t done_len,
    size_t num_atom);

/*
 * Symmetrizes a compact set: read out to all atoms, the 24 permutations of any four (atom, direction) pairs then hold the same bits.
 *   fc4   n_patom x n_satom x n_satom x n_satom x 81
 *   done  n_patom x n_satom x n_satom x n_satom, work
 * Refusals: 1 (a count above 64), 2, 3, 6.
 */
uint8_t gf_set_permutation_symmetry_compact_fc4(
    double *fc4, size_t fc4_len,
    const int64_t *p2s, size_t p2s_len,
    const int64_t *s2pp, size_t s2pp_len,
    const int64_t *nsym_list, size_t nsym_list_len,
    const int64_t *perms, size_t perms_len,
    uint8_t *done, size_t done_len,
    size_t n_satom, size_t n_patom, size_t num_trans);

/*
 * Symmetrizes a full set and takes its drift off: as gf_perm_trans_symmetrize_fc3, with legs 0, 1, 2 and 3 and the mean of the 24
 * permutations of any four (atom, direction) pairs. Level 0 is gf_set_permutation_symmetry_fc4.
 *   fc4    num_atom x num_atom x num_atom x num_atom x 81
 *   done   num_atom x num_atom x num_atom x num_atom, work
 *   drift  num_atom x num_atom x num_atom x 81, work
 * Refusals: 1 (num_atom above 64, level above 1,000), 2.
 */
uint8_t gf_perm_trans_symmetrize_fc4(
    double *fc4, size_t fc4_len,
    uint8_t *done, size_t done_len,
    double *drift, size_t drift_len,
    size_t num_atom,
    size_t level);

/*
 * Symmetrizes a compact set and takes its drift off: as gf_perm_trans_symmetrize_compact_fc3; the sum beside three atoms is taken where
 * the first of them is the one that stands for the primitive cell's, the others shifted along. Level 0 is
 * gf_set_permutation_symmetry_compact_fc4.
 *   fc4    n_patom x n_satom x n_satom x n_satom x 81
 *   done   n_patom x n_satom x n_satom x n_satom, work
 *   drift  n_patom x n_satom x n_satom x 81, work
 * Refusals: 1 (a count above 64, level above 1,000), 2, 3, 6.
 */
uint8_t gf_perm_trans_symmetrize_compact_fc4(
    double *fc4, size_t fc4_len,
    const int64_t *p2s, size_t p2s_len,
    const int64_t *s2pp, size_t s2pp_len,
    const int64_t *nsym_list, size_t nsym_list_len,
    const int64_t *perms, size_t perms_len,
    uint8_t *done, size_t done_len,
    double *drift, size_t drift_len,
    size_t n_satom, size_t n_patom, size_t num_trans,
    size_t level);

/* ---- check a set, bit for bit: audits. Sets are only read ---- */

/*
 * Whether two sets have the same bits. GF_ALIKE: they have, any NaN for any NaN. GF_UNLIKE: place[0] is the first place, in the order of
 * the sets, at which they differ, place[1] is 0, and numbers has the number of a and that of b there. Other answers leave the slots.
 *   b        as long as a
 *   place    2
 *   numbers  2
 * Refusals: 2.
 */
uint8_t gf_same_set(
    const double *a, size_t a_len,
    const double *b, size_t b_len,
    size_t *place, size_t place_len,
    double *numbers, size_t numbers_len);

/*
 * Whether all permutations of any two (atom, direction) pairs of a compact set read out the same bits, any NaN for any NaN.
 * GF_ALIKE: they do. GF_UNLIKE: place[0] is the first place, in the order of the set, at which some permutation reads another number,
 * place[1] the first permutation that does there, and numbers has the number at the place and that other one. Permutations count from
 * 0 in the order 01, 10; at third order 012, 021, 102, 120, 201, 210; at fourth order from 0123 to 3210 likewise: the digits name the
 * pairs in their new order. So where the number of the pairs p, q, r stands, permutation 3, which is 120, reads the number of q, r, p, and
 * permutation 4, which is 201, that of r, p, q. Other answers leave the slots.
 *   fc       n_patom x n_satom x 9
 *   place    2
 *   numbers  2
 * Refusals: 1 (a count above 1,024), 2, 3, 6.
 */
uint8_t gf_audit_compact_fc2(
    const double *fc, size_t fc_len,
    const int64_t *p2s, size_t p2s_len,
    const int64_t *s2pp, size_t s2pp_len,
    const int64_t *nsym_list, size_t nsym_list_len,
    const int64_t *perms, size_t perms_len,
    size_t *place, size_t place_len,
    double *numbers, size_t numbers_len,
    size_t n_satom, size_t n_patom, size_t num_trans);

/*
 * The same of a full set.
 *   fc       num_atom x num_atom x 9
 *   place    2
 *   numbers  2
 * Refusals: 1 (num_atom above 1,024), 2.
 */
uint8_t gf_audit_fc2(
    const double *fc, size_t fc_len,
    size_t *place, size_t place_len,
    double *numbers, size_t numbers_len,
    size_t num_atom);

/*
 * As gf_audit_compact_fc2, of all six permutations of any three pairs.
 *   fc       n_patom x n_satom x n_satom x 27
 *   place    2
 *   numbers  2
 * Refusals: 1 (a count above 256), 2, 3, 6.
 */
uint8_t gf_audit_compact_fc3(
    const double *fc, size_t fc_len,
    const int64_t *p2s, size_t p2s_len,
    const int64_t *s2pp, size_t s2pp_len,
    const int64_t *nsym_list, size_t nsym_list_len,
    const int64_t *perms, size_t perms_len,
    size_t *place, size_t place_len,
    double *numbers, size_t numbers_len,
    size_t n_satom, size_t n_patom, size_t num_trans);

/*
 * The same of a full set.
 *   fc       num_atom x num_atom x num_atom x 27
 *   place    2
 *   numbers  2
 * Refusals: 1 (num_atom above 256), 2.
 */
uint8_t gf_audit_fc3(
    const double *fc, size_t fc_len,
    size_t *place, size_t place_len,
    double *numbers, size_t numbers_len,
    size_t num_atom);

/*
 * As gf_audit_compact_fc2, of all 24 permutations of any four pairs.
 *   fc       n_patom x n_satom x n_satom x n_satom x 81
 *   place    2
 *   numbers  2
 * Refusals: 1 (a count above 64), 2, 3, 6.
 */
uint8_t gf_audit_compact_fc4(
    const double *fc, size_t fc_len,
    const int64_t *p2s, size_t p2s_len,
    const int64_t *s2pp, size_t s2pp_len,
    const int64_t *nsym_list, size_t nsym_list_len,
    const int64_t *perms, size_t perms_len,
    size_t *place, size_t place_len,
    double *numbers, size_t numbers_len,
    size_t n_satom, size_t n_patom, size_t num_trans);

/*
 * The same of a full set.
 *   fc       num_atom x num_atom x num_atom x num_atom x 81
 *   place    2
 *   numbers  2
 * Refusals: 1 (num_atom above 64), 2.
 */
uint8_t gf_audit_fc4(
    const double *fc, size_t fc_len,
    size_t *place, size_t place_len,
    double *numbers, size_t numbers_len,
    size_t num_atom);

/* ---- check a set: reports, how far it is from what it must obey. Sets are only read ---- */

/*
 * How far the rows and the columns of a full set are from adding up to zero: of each atom and pair of directions the row sum over
 * the second atom, and the column sum over the first. Each sum starts from 0.0 and adds the numbers one by one, the atom that is summed
 * over rising: value and place depend on that order to the last bit.
 *   GF_DRIFT_STILL      all sums are zero; value 0.0, place GF_ROWS, 0, 0, 0
 *   GF_DRIFT_WORST      value: the largest absolute value of a sum; place: the first sum that has it
 *   GF_DRIFT_NO_NUMBER  a sum is NaN; value NaN, place: the first such sum
 * First: rows come before columns, then by atom, then by directions. It never answers GF_DONE.
 *   fc     n_satom x n_satom x 9
 *   value  1, only written
 *   place  4: GF_ROWS or GF_COLUMNS, the atom and the two directions, only written
 * Refusals: 1 (n_satom above 1,024), 2.
 */
uint8_t gf_drift_report(
    const double *fc, size_t fc_len,
    double *value, size_t value_len,
    size_t *place, size_t place_len,
    size_t n_satom);

/*
 * The same of the full set that a compact set reads out to, which is not written: the row sum of an atom of the supercell adds its
 * read-out entries over the second atom, the column sum over the first, from 0.0, the atom of the supercell rising.
 *   fc     n_patom x n_satom x 9
 *   value  1, only written
 *   place  4: GF_ROWS or GF_COLUMNS, the atom and the two directions, only written
 * Refusals: 1 (a count above 1,024), 2, 3, 6.
 */
uint8_t gf_drift_report_compact_fc2(
    const double *fc, size_t fc_len,
    const int64_t *p2s, size_t p2s_len,
    const int64_t *s2pp, size_t s2pp_len,
    const int64_t *nsym_list, size_t nsym_list_len,
    const int64_t *perms, size_t perms_len,
    double *value, size_t value_len,
    size_t *place, size_t place_len,
    size_t n_satom, size_t n_patom, size_t num_trans);

/*
 * How far the sums over each leg of a full set of third order are from zero, by the rule of gf_drift_report: the sum over one of the
 * three atoms, the other two and the directions fixed, from 0.0, the atom that is summed over rising. The sums over the last leg come
 * first, then those over the middle one and the first; then by atoms, then by directions. A still report has leg 2 and zeros.
 *   fc     num_atom x num_atom x num_atom x 27
 *   value  1, only written
 *   place  6: the leg that is summed over (0, 1 or 2), the atoms of the two other legs, the three directions, only written
 * Refusals: 1 (num_atom above 256), 2.
 */
uint8_t gf_drift_report_fc3(
    const double *fc, size_t fc_len,
    double *value, size_t value_len,
    size_t *place, size_t place_len,
    size_t num_atom);

/*
 * How far the sums over each leg of the third-order set that a compact set reads out to are from zero, by the rule of gf_drift_report; the full set is
 * not made. The answers are those of gf_set_difference. place[0] is ((2 - leg) x n + a) x n + b, a and b the atoms of the two other legs, and place[1] (k x 3 + l) x 3 + m, the directions.
 * The sums over the last leg come first.
 *   fc     n_patom x n_satom x n_satom x 27
 *   value  1, only written
 *   place  2, only written
 * Refusals: 1 (a count above 256), 2, 3, 6.
 */
uint8_t gf_drift_report_compact_fc3(
    const double *fc, size_t fc_len,
    const int64_t *p2s, size_t p2s_len,
    const int64_t *s2pp, size_t s2pp_len,
    const int64_t *nsym_list, size_t nsym_list_len,
    const int64_t *perms, size_t perms_len,
    double *value, size_t value_len,
    size_t *place, size_t place_len,
    size_t n_satom, size_t n_patom, size_t num_trans);

/*
 * How far the sums over each leg of the fourth-order set that a compact set reads out to are from zero, by the rule of gf_drift_report; the full set is
 * not made. The answers are those of gf_set_difference. place[0] is (((3 - leg) x n + a) x n + b) x n + c, the atoms of the three other legs, and place[1] the position of the directions in a block of 81.
 * The sums over the last leg come first.
 *   fc     n_patom x n_satom x n_satom x n_satom x 81
 *   value  1, only written
 *   place  2, only written
 * Refusals: 1 (a count above 64), 2, 3, 6.
 */
uint8_t gf_drift_report_compact_fc4(
    const double *fc, size_t fc_len,
    const int64_t *p2s, size_t p2s_len,
    const int64_t *s2pp, size_t s2pp_len,
    const int64_t *nsym_list, size_t nsym_list_len,
    const int64_t *perms, size_t perms_len,
    double *value, size_t value_len,
    size_t *place, size_t place_len,
    size_t n_satom, size_t n_patom, size_t num_trans);

/*
 * The same of a full set of fourth order.
 *   fc     num_atom x num_atom x num_atom x num_atom x 81
 *   value  1, only written
 *   place  2, only written
 * Refusals: 1 (num_atom above 64), 2.
 */
uint8_t gf_drift_report_fc4(
    const double *fc, size_t fc_len,
    double *value, size_t value_len,
    size_t *place, size_t place_len,
    size_t num_atom);

/*
 * How far two sets are apart: the worst difference between their numbers, a's minus b's. GF_DRIFT_STILL: all differences are zero, of
 * either sign; value is 0.0 and place is zeros. GF_DRIFT_WORST: value is the largest absolute value of a difference, place[0] the first
 * address that has it, place[1] 0. GF_DRIFT_NO_NUMBER: a difference is NaN, as those of two infinities of one sign are; value is NaN,
 * place[0] the first address of one. A refusal leaves the slots.
 *   b      as long as a
 *   value  1, only written
 *   place  2, only written
 * Refusals: 2.
 */
uint8_t gf_set_difference(
    const double *a, size_t a_len,
    const double *b, size_t b_len,
    double *value, size_t value_len,
    size_t *place, size_t place_len);

/*
 * The worst difference between the numbers that the permutations of any two (atom, direction) pairs of a compact set read out: what a
 * permutation reads minus the number at the address. The answers are those of gf_set_difference; place[0] is the address and place[1] the
 * permutation, numbered as in gf_audit_compact_fc2. Places are in order of the addresses, then of the permutations.
 *   fc     n_patom x n_satom x 9
 *   value  1, only written
 *   place  2, only written
 * Refusals: 1 (a count above 1,024), 2, 3, 6.
 */
uint8_t gf_difference_report_compact_fc2(
    const double *fc, size_t fc_len,
    const int64_t *p2s, size_t p2s_len,
    const int64_t *s2pp, size_t s2pp_len,
    const int64_t *nsym_list, size_t nsym_list_len,
    const int64_t *perms, size_t perms_len,
    double *value, size_t value_len,
    size_t *place, size_t place_len,
    size_t n_satom, size_t n_patom, size_t num_trans);

/*
 * The same of a full set.
 *   fc     num_atom x num_atom x 9
 *   value  1, only written
 *   place  2, only written
 * Refusals: 1 (num_atom above 1,024), 2.
 */
uint8_t gf_difference_report_fc2(
    const double *fc, size_t fc_len,
    double *value, size_t value_len,
    size_t *place, size_t place_len,
    size_t num_atom);

/*
 * As gf_difference_report_compact_fc2, of all six permutations of any three pairs.
 *   fc     n_patom x n_satom x n_satom x 27
 *   value  1, only written
 *   place  2, only written
 * Refusals: 1 (a count above 256), 2, 3, 6.
 */
uint8_t gf_difference_report_compact_fc3(
    const double *fc, size_t fc_len,
    const int64_t *p2s, size_t p2s_len,
    const int64_t *s2pp, size_t s2pp_len,
    const int64_t *nsym_list, size_t nsym_list_len,
    const int64_t *perms, size_t perms_len,
    double *value, size_t value_len,
    size_t *place, size_t place_len,
    size_t n_satom, size_t n_patom, size_t num_trans);

/*
 * The same of a full set.
 *   fc     num_atom x num_atom x num_atom x 27
 *   value  1, only written
 *   place  2, only written
 * Refusals: 1 (num_atom above 256), 2.
 */
uint8_t gf_difference_report_fc3(
    const double *fc, size_t fc_len,
    double *value, size_t value_len,
    size_t *place, size_t place_len,
    size_t num_atom);

/*
 * As gf_difference_report_compact_fc2, of all 24 permutations of any four pairs.
 *   fc     n_patom x n_satom x n_satom x n_satom x 81
 *   value  1, only written
 *   place  2, only written
 * Refusals: 1 (a count above 64), 2, 3, 6.
 */
uint8_t gf_difference_report_compact_fc4(
    const double *fc, size_t fc_len,
    const int64_t *p2s, size_t p2s_len,
    const int64_t *s2pp, size_t s2pp_len,
    const int64_t *nsym_list, size_t nsym_list_len,
    const int64_t *perms, size_t perms_len,
    double *value, size_t value_len,
    size_t *place, size_t place_len,
    size_t n_satom, size_t n_patom, size_t num_trans);

/*
 * The same of a full set.
 *   fc     num_atom x num_atom x num_atom x num_atom x 81
 *   value  1, only written
 *   place  2, only written
 * Refusals: 1 (num_atom above 64), 2.
 */
uint8_t gf_difference_report_fc4(
    const double *fc, size_t fc_len,
    double *value, size_t value_len,
    size_t *place, size_t place_len,
    size_t num_atom);

/*
 * How far a compact set is from obeying the crystal's own operations: the read-out at the images of the atoms minus the block of the
 * atoms, rotated on every leg as gf_distribute_fc2 rotates it. Operation r is the matrix in the nine numbers of r_carts from 9 r on, row
 * after row, and sends atom a to operations[r x n_satom + a]. The answers are those of gf_set_difference; place[0] is the operation and
 * place[1] the address, and places are in this order. Only stored blocks are looked at: their first atom is a representative.
 *   fc          n_patom x n_satom x 9
 *   r_carts     num_rot x 9
 *   operations  num_rot x n_satom, entries below n_satom
 *   value       1, only written
 *   place       2, only written
 * Refusals: 1 (a count above 1,024, num_rot above 1,024), 2, 3, 6.
 */
uint8_t gf_crystal_report_compact_fc2(
    const double *fc, size_t fc_len,
    const int64_t *p2s, size_t p2s_len,
    const int64_t *s2pp, size_t s2pp_len,
    const int64_t *nsym_list, size_t nsym_list_len,
    const int64_t *perms, size_t perms_len,
    const double *r_carts, size_t r_carts_len,
    const int64_t *operations, size_t operations_len,
    double *value, size_t value_len,
    size_t *place, size_t place_len,
    size_t n_satom, size_t n_patom, size_t num_trans, size_t num_rot);

/*
 * The same of a full set.
 *   fc          num_atom x num_atom x 9
 *   r_carts     num_rot x 9
 *   operations  num_rot x num_atom, entries below num_atom
 *   value       1, only written
 *   place       2, only written
 * Refusals: 1 (num_atom above 1,024, num_rot above 1,024), 2, 3.
 */
uint8_t gf_crystal_report_fc2(
    const double *fc, size_t fc_len,
    const double *r_carts, size_t r_carts_len,
    const int64_t *operations, size_t operations_len,
    double *value, size_t value_len,
    size_t *place, size_t place_len,
    size_t num_atom, size_t num_rot);

/*
 * As gf_crystal_report_compact_fc2, at third order.
 *   fc          n_patom x n_satom x n_satom x 27
 *   r_carts     num_rot x 9
 *   operations  num_rot x n_satom, entries below n_satom
 *   value       1, only written
 *   place       2, only written
 * Refusals: 1 (a count above 256, num_rot above 1,024), 2, 3, 6.
 */
uint8_t gf_crystal_report_compact_fc3(
    const double *fc, size_t fc_len,
    const int64_t *p2s, size_t p2s_len,
    const int64_t *s2pp, size_t s2pp_len,
    const int64_t *nsym_list, size_t nsym_list_len,
    const int64_t *perms, size_t perms_len,
    const double *r_carts, size_t r_carts_len,
    const int64_t *operations, size_t operations_len,
    double *value, size_t value_len,
    size_t *place, size_t place_len,
    size_t n_satom, size_t n_patom, size_t num_trans, size_t num_rot);

/*
 * The same of a full set.
 *   fc          num_atom x num_atom x num_atom x 27
 *   r_carts     num_rot x 9
 *   operations  num_rot x num_atom, entries below num_atom
 *   value       1, only written
 *   place       2, only written
 * Refusals: 1 (num_atom above 256, num_rot above 1,024), 2, 3.
 */
uint8_t gf_crystal_report_fc3(
    const double *fc, size_t fc_len,
    const double *r_carts, size_t r_carts_len,
    const int64_t *operations, size_t operations_len,
    double *value, size_t value_len,
    size_t *place, size_t place_len,
    size_t num_atom, size_t num_rot);

/*
 * As gf_crystal_report_compact_fc2, at fourth order.
 *   fc          n_patom x n_satom x n_satom x n_satom x 81
 *   r_carts     num_rot x 9
 *   operations  num_rot x n_satom, entries below n_satom
 *   value       1, only written
 *   place       2, only written
 * Refusals: 1 (a count above 64, num_rot above 1,024), 2, 3, 6.
 */
uint8_t gf_crystal_report_compact_fc4(
    const double *fc, size_t fc_len,
    const int64_t *p2s, size_t p2s_len,
    const int64_t *s2pp, size_t s2pp_len,
    const int64_t *nsym_list, size_t nsym_list_len,
    const int64_t *perms, size_t perms_len,
    const double *r_carts, size_t r_carts_len,
    const int64_t *operations, size_t operations_len,
    double *value, size_t value_len,
    size_t *place, size_t place_len,
    size_t n_satom, size_t n_patom, size_t num_trans, size_t num_rot);

/*
 * The same of a full set.
 *   fc          num_atom x num_atom x num_atom x num_atom x 81
 *   r_carts     num_rot x 9
 *   operations  num_rot x num_atom, entries below num_atom
 *   value       1, only written
 *   place       2, only written
 * Refusals: 1 (num_atom above 64, num_rot above 1,024), 2, 3.
 */
uint8_t gf_crystal_report_fc4(
    const double *fc, size_t fc_len,
    const double *r_carts, size_t r_carts_len,
    const int64_t *operations, size_t operations_len,
    double *value, size_t value_len,
    size_t *place, size_t place_len,
    size_t num_atom, size_t num_rot);

/* ---- from a compact set to the full one ---- */

/*
 * Writes the full set that a compact set stands for: for any atoms and directions of the supercell the number that it has for them.
 * What was in `full` has no influence; the compact set is not changed.
 *   full  n_satom x n_satom x 9, only written
 *   fc2   n_patom x n_satom x 9
 * Refusals: 1 (a count above 1,024), 2, 3, 6.
 */
uint8_t gf_compact_to_full_fc2(
    double *full, size_t full_len,
    const double *fc2, size_t fc2_len,
    const int64_t *p2s, size_t p2s_len,
    const int64_t *s2pp, size_t s2pp_len,
    const int64_t *nsym_list, size_t nsym_list_len,
    const int64_t *perms, size_t perms_len,
    size_t n_satom, size_t n_patom, size_t num_trans);

/*
 * Writes the full set that a compact set stands for: for any atoms and directions of the supercell the number that it has for them.
 * What was in `full` has no influence; the compact set is not changed.
 * If every number of the set is on the grid (multiples of 2^-20 from -2^20 to 2^20), reading out and then symmetrizing with
 * gf_set_permutation_symmetry_fc3 gives the same bits as symmetrizing with gf_set_permutation_symmetry_compact_fc3 and then reading out.
 *   full  n_satom x n_satom x n_satom x 27, only written
 *   fc3   n_patom x n_satom x n_satom x 27
 * Refusals: 1 (a count above 256), 2, 3, 6.
 */
uint8_t gf_compact_to_full_fc3(
    double *full, size_t full_len,
    const double *fc3, size_t fc3_len,
    const int64_t *p2s, size_t p2s_len,
    const int64_t *s2pp, size_t s2pp_len,
    const int64_t *nsym_list, size_t nsym_list_len,
    const int64_t *perms, size_t perms_len,
    size_t n_satom, size_t n_patom, size_t num_trans);

/*
 * Writes the full set that a compact set stands for: for any atoms and directions of the supercell the number that it has for them.
 * What was in `full` has no influence; the compact set is not changed.
 * If every number of the set is on the grid (multiples of 2^-20 from -2^20 to 2^20), reading out and then symmetrizing with
 * gf_set_permutation_symmetry_fc4 gives the same bits as symmetrizing with gf_set_permutation_symmetry_compact_fc4 and then reading out.
 *   full  n_satom x n_satom x n_satom x n_satom x 81, only written
 *   fc4   n_patom x n_satom x n_satom x n_satom x 81
 * Refusals: 1 (a count above 64), 2, 3, 6.
 */
uint8_t gf_compact_to_full_fc4(
    double *full, size_t full_len,
    const double *fc4, size_t fc4_len,
    const int64_t *p2s, size_t p2s_len,
    const int64_t *s2pp, size_t s2pp_len,
    const int64_t *nsym_list, size_t nsym_list_len,
    const int64_t *perms, size_t perms_len,
    size_t n_satom, size_t n_patom, size_t num_trans);

/* ---- exchange legs: transposes ---- */

/*
 * Exchanges the two (atom, direction) pairs of every number of a compact set. Every number moves, also where a half shift (a shift that
 * swaps the two atoms) exchanges the blocks: read out to all atoms, block (i, j), transposed, comes to stand at (j, i).
 *   fc    n_patom x n_satom x 9
 *   done  n_patom x n_satom, work
 * Refusals: 1 (a count above 1,024), 2, 3, 6.
 */
uint8_t gf_true_transpose_compact_fc2(
    double *fc, size_t fc_len,
    const int64_t *p2s, size_t p2s_len,
    const int64_t *s2pp, size_t s2pp_len,
    const int64_t *nsym_list, size_t nsym_list_len,
    const int64_t *perms, size_t perms_len,
    uint8_t *done, size_t done_len,
    size_t n_satom, size_t n_patom, size_t num_trans);

/*
 * Exchanges two of the three (atom, direction) pairs of every number of a compact set: t_type 0 pairs 0 and 1, t_type 1 pairs 0
 * and 2, t_type 2 pairs 1 and 2; any other t_type changes nothing. With t_type 0 and 1, blocks that a half shift (a shift that swaps
 * the two atoms) exchanges stay as they are.
 *   fc3   n_patom x n_satom x n_satom x 27
 *   done  n_patom x n_satom, work
 * Refusals, whatever the t_type: 1 (a count above 256), 2, 3, 6.
 */
uint8_t gf_transpose_compact_fc3(
    double *fc3, size_t fc3_len,
    const int64_t *p2s, size_t p2s_len,
    const int64_t *s2pp, size_t s2pp_len,
    const int64_t *nsym_list, size_t nsym_list_len,
    const int64_t *perms, size_t perms_len,
    uint8_t *done, size_t done_len,
    size_t n_satom, size_t n_patom, size_t num_trans,
    int64_t t_type);

/*
 * Exchanges two of the three (atom, direction) pairs of every number of a compact set: t_type 0 the first two, 1 the first and the
 * third, 2 the last two; any other t_type changes nothing. Every number moves, also where a half shift exchanges the blocks.
 *   fc3   n_patom x n_satom x n_satom x 27
 *   done  n_patom x n_satom, work
 * Refusals, whatever the t_type: 1 (a count above 256), 2, 3, 6.
 */
uint8_t gf_true_transpose_compact_fc3(
    double *fc3, size_t fc3_len,
    const int64_t *p2s, size_t p2s_len,
    const int64_t *s2pp, size_t s2pp_len,
    const int64_t *nsym_list, size_t nsym_list_len,
    const int64_t *perms, size_t perms_len,
    uint8_t *done, size_t done_len,
    size_t n_satom, size_t n_patom, size_t num_trans,
    int64_t t_type);

/*
 * Exchanges the first two of the four (atom, direction) pairs of every number of a compact set, with t_type 0; any other t_type
 * changes nothing. Blocks that a half shift (a shift that swaps the two atoms) exchanges stay as they are.
 *   fc4   n_patom x n_satom x n_satom x n_satom x 81
 *   done  n_patom x n_satom, work
 * Refusals, whatever the t_type: 1 (a count above 64), 2, 3, 6.
 */
uint8_t gf_transpose_compact_fc4(
    double *fc4, size_t fc4_len,
    const int64_t *p2s, size_t p2s_len,
    const int64_t *s2pp, size_t s2pp_len,
    const int64_t *nsym_list, size_t nsym_list_len,
    const int64_t *perms, size_t perms_len,
    uint8_t *done, size_t done_len,
    size_t n_satom, size_t n_patom, size_t num_trans,
    int64_t t_type);

/*
 * Exchanges the first two of the four (atom, direction) pairs of every number of a compact set, with t_type 0; any other t_type
 * changes nothing. Every number moves, also where a half shift exchanges the blocks.
 *   fc4   n_patom x n_satom x n_satom x n_satom x 81
 *   done  n_patom x n_satom, work
 * Refusals, whatever the t_type: 1 (a count above 64), 2, 3, 6.
 */
uint8_t gf_true_transpose_compact_fc4(
    double *fc4, size_t fc4_len,
    const int64_t *p2s, size_t p2s_len,
    const int64_t *s2pp, size_t s2pp_len,
    const int64_t *nsym_list, size_t nsym_list_len,
    const int64_t *perms, size_t perms_len,
    uint8_t *done, size_t done_len,
    size_t n_satom, size_t n_patom, size_t num_trans,
    int64_t t_type);

/*
 * Exchanges two of the four (atom, direction) pairs of every number of a compact set, named by their legs 0 to 3 in either order. Every
 * number moves, also where a half shift exchanges the blocks; with equal legs nothing moves.
 *   fc4   n_patom x n_satom x n_satom x n_satom x 81
 *   done  n_patom x n_satom, work
 * Refusals: 1 (a count above 64), 2, 3 (also a leg above 3), 6.
 */
uint8_t gf_swap_pairs_compact_fc4(
    double *fc4, size_t fc4_len,
    const int64_t *p2s, size_t p2s_len,
    const int64_t *s2pp, size_t s2pp_len,
    const int64_t *nsym_list, size_t nsym_list_len,
    const int64_t *perms, size_t perms_len,
    uint8_t *done, size_t done_len,
    size_t n_satom, size_t n_patom, size_t num_trans,
    size_t leg_a, size_t leg_b);

/* ---- fill a set by symmetry, make one from displacements ---- */

/*
 * Fills the rows of the listed atoms from those of their representatives. Position i of the list is atom atom_list[i], whose blocks
 * are row fc_indices_of_atom_list[i] of the set. Atom a is represented by atom map_atoms[a]; rotation map_syms[a] sends it there.
 * To block (a, j) of a listed atom a that does not represent itself, block (map_atoms[a], image of j under that rotation) is added,
 * rotated by the rotation's transpose on both legs; so row a should be zero before. The list is gone through in order: an atom that it
 * has twice is added to twice, and of a representative that it has twice the later row is used.
 *   fc2                      num_first x num_pos x 9
 *   atom_list                up to 1,024 entries below num_pos
 *   fc_indices_of_atom_list  as many entries as atom_list, below num_first
 *   r_carts                  num_rot x 9
 *   permutations             num_rot x num_pos entries below num_pos: rotation s sends atom a to permutations[s * num_pos + a]
 *   map_atoms                num_pos entries below num_pos
 *   map_syms                 num_pos entries below num_rot
 *   atom_list_reverse        num_pos, work
 * Refusals: 1 (num_pos, num_first, num_rot or the list's length above 1,024), 2, 3, 5.
 */
uint8_t gf_distribute_fc2(
    double *fc2, size_t fc2_len,
    const int64_t *atom_list, size_t atom_list_len,
    const int64_t *fc_indices_of_atom_list, size_t fc_indices_of_atom_list_len,
    const double *r_carts, size_t r_carts_len,
    const int64_t *permutations, size_t permutations_len,
    const int64_t *map_atoms, size_t map_atoms_len,
    const int64_t *map_syms, size_t map_syms_len,
    int64_t *atom_list_reverse, size_t atom_list_reverse_len,
    size_t num_pos, size_t num_first, size_t num_rot);

/*
 * Fills slab target from slab source, a slab being all blocks of one first atom: block (i, j) of the target is block
 * (atom_mapping[i], atom_mapping[j]) of the source, rotated by rot_cart on each leg. Other slabs stay.
 *   fc3           num_first x num_atom x num_atom x 27
 *   atom_mapping  num_atom entries below num_atom
 *   rot_cart      9
 * Refusals: 1 (num_atom or num_first above 256), 2, 3, 4.
 */
uint8_t gf_distribute_fc3(
    double *fc3, size_t fc3_len,
    size_t target, size_t source,
    const int64_t *atom_mapping, size_t atom_mapping_len,
    size_t num_atom,
    const double *rot_cart, size_t rot_cart_len,
    size_t num_first);

/*
 * Fills slab target from slab source: block (i, j, k) of the target is block (atom_mapping[i], atom_mapping[j], atom_mapping[k]) of
 * the source, rotated by rot_cart on each leg. Other slabs stay.
 *   fc4           num_first x num_atom x num_atom x num_atom x 81
 *   atom_mapping  num_atom entries below num_atom
 *   rot_cart      9
 * Refusals: 1 (num_atom or num_first above 64), 2, 3, 4.
 */
uint8_t gf_distribute_fc4(
    double *fc4, size_t fc4_len,
    size_t target, size_t source,
    const int64_t *atom_mapping, size_t atom_mapping_len,
    size_t num_atom,
    const double *rot_cart, size_t rot_cart_len,
    size_t num_first);

/*
 * The blocks of third order of one displaced atom with all pairs of atoms, from the changes that num_disp displacements of that atom
 * make to a set of second order. Each change is rotated by each site symmetry; inv_u makes of them one block for each direction of
 * the displaced atom. With num_disp or num_site_sym 0 the result is +0.0 everywhere.
 *   fc3            num_atom x num_atom x 27, only written
 *   delta_fc2s     num_disp x num_atom x num_atom x 9
 *   inv_u          3 x num_disp x num_site_sym
 *   site_sym_cart  num_site_sym x 9
 *   rot_map_syms   num_site_sym x num_atom entries below num_atom: symmetry s sends atom a to rot_map_syms[s * num_atom + a]
 *   rot_delta      num_disp x num_site_sym x 9, work
 * Refusals: 1 (num_atom above 256, num_site_sym or num_disp above 1,024), 2, 3.
 */
uint8_t gf_rotate_delta_fc2s(
    double *fc3, size_t fc3_len,
    const double *delta_fc2s, size_t delta_fc2s_len,
    const double *inv_u, size_t inv_u_len,
    const double *site_sym_cart, size_t site_sym_cart_len,
    const int64_t *rot_map_syms, size_t rot_map_syms_len,
    double *rot_delta, size_t rot_delta_len,
    size_t num_atom, size_t num_site_sym, size_t num_disp);

/*
 * The blocks of fourth order of one displaced atom with all triples of atoms, from the changes that num_disp displacements of that
 * atom make to a set of third order, as gf_rotate_delta_fc2s does one order below.
 *   fc4            num_atom x num_atom x num_atom x 81, only written
 *   delta_fc3s     num_disp x num_atom x num_atom x num_atom x 27
 *   inv_u          3 x num_disp x num_site_sym
 *   site_sym_cart  num_site_sym x 9
 *   rot_map_syms   num_site_sym x num_atom entries below num_atom: symmetry s sends atom a to rot_map_syms[s * num_atom + a]
 *   rot_delta      num_disp x num_site_sym x 27, work
 * Refusals: 1 (num_atom above 64, num_site_sym or num_disp above 1,024), 2, 3.
 */
uint8_t gf_rotate_delta_fc3s(
    double *fc4, size_t fc4_len,
    const double *delta_fc3s, size_t delta_fc3s_len,
    const double *inv_u, size_t inv_u_len,
    const double *site_sym_cart, size_t site_sym_cart_len,
    const int64_t *rot_map_syms, size_t rot_map_syms_len,
    double *rot_delta, size_t rot_delta_len,
    size_t num_atom, size_t num_site_sym, size_t num_disp);

/* ---- match atoms ---- */

/*
 * Which position each rotated position comes from. All slots of rot_atom are set to -1; then one position i after another goes to the
 * first slot j that is free and whose rot_pos j is near pos i: slot j holds the number of the position that rotated position j comes
 * from. Near: the difference d of the coordinates, each less its own rounding where the cell repeats along that axis and whole where it
 * does not, is shorter than symprec; component k of its length is row k of the lattice times d. NaN is never near. To the last bit, each
 * operation rounded to the nearest double, l being the lattice:
 *     d[k] = pos[3 * i + k] - rot_pos[3 * j + k]; where the cell repeats along axis k, then d[k] = d[k] - gf_round(d[k])
 *     c[k] = ((0.0 + l[3 * k] * d[0]) + l[3 * k + 1] * d[1]) + l[3 * k + 2] * d[2]
 *     near if gf_sqrt(((0.0 + c[0] * c[0]) + c[1] * c[1]) + c[2] * c[2]) < symprec
 * So the basis vectors stand in the COLUMNS of lattice. For a = (3, 0, 0), b = (1, 2, 0), c = (0, 0, 4) it is
 *     {3, 1, 0,  0, 2, 0,  0, 0, 4}
 * and d = (0, 0.5, 0) has the length of b / 2, the root of 1.25. With the vectors in the rows, {3, 0, 0,  1, 2, 0,  0, 0, 4}, it would
 * get the length 1: such a lattice is not refused, and gives wrong distances wherever the cell is oblique.
 * GF_DONE: all slots are filled, and they are a bijection of near pairs. GF_NOT_MATCHED: a slot is left at -1; a match may exist all
 * the same, since a slot once taken is not given up. GF_MATCH_NO_NUMBER: the same, and a distance was NaN, as it is of NaN coordinates;
 * pair is the first pair of position i and free slot j with such a distance, in the order in which they were tried. In words, for
 * pair {3, 7}: "position 3 against slot 7: the distance is not a number". A NaN tolerance makes no distance NaN: all numbers are far
 * then. An infinite distance is far.
 *   rot_atom  num_pos      only written
 *   lattice   9            row after row, the basis vectors in the columns
 *   periodic  3            for each axis, that is for each coordinate: 0 if the cell does not repeat along it, anything else if it does
 *   pos       3 x num_pos
 *   rot_pos   3 x num_pos
 *   pair      2            position and slot, written with GF_MATCH_NO_NUMBER only
 * Refusals: 1 (num_pos above 1,024), 2.
 */
uint8_t gf_compute_permutation(
    int64_t *rot_atom, size_t rot_atom_len,
    const double *lattice, size_t lattice_len,
    double symprec,
    const uint8_t *periodic, size_t periodic_len,
    const double *pos, size_t pos_len,
    const double *rot_pos, size_t rot_pos_len,
    size_t *pair, size_t pair_len,
    size_t num_pos);

/*
 * The same, by chains of exchanges: a bijection of near pairs is found whenever one exists, and where gf_compute_permutation fills all
 * slots it is that one. Near is as above; a NaN distance is not near.
 * GF_DONE: the slots are a bijection of near pairs, the marks zeros. GF_NO_MATCH: none exists; the slots are all -1, and the positions
 * that marks has a 1 for, 0 for the others, have fewer near slots between them than they are. Where several bijections or groups exist
 * any may be returned. A chain takes up to num_pos calls, each a step deeper in the stack: up to 378 kB at 1,024 positions.
 *   rot_atom  num_pos      only written
 *   marks     num_pos      only written
 *   lattice   9            row after row, the basis vectors in the columns
 *   periodic  3            as above
 *   pos       3 x num_pos
 *   rot_pos   3 x num_pos
 * Refusals: 1 (num_pos above 1,024), 2.
 */
uint8_t gf_find_permutation(
    int64_t *rot_atom, size_t rot_atom_len,
    uint8_t *marks, size_t marks_len,
    const double *lattice, size_t lattice_len,
    double symprec,
    const uint8_t *periodic, size_t periodic_len,
    const double *pos, size_t pos_len,
    const double *rot_pos, size_t rot_pos_len,
    size_t num_pos);

/* ---- edit pair blocks and keep the row sums ---- */

/*
 * The row sums of a full set: for each atom and pair of directions its numbers added up over the second atom, from 0.0 on. Sum k of atom i is
 * sums[i * 9 + k], where k counts the directions as in a block. Any numbers.
 *   sums  n_satom x 9, only written
 *   fc    n_satom x n_satom x 9
 * Refusals: 1 (n_satom above 1,024), 2.
 */
uint8_t gf_row_sums_fc2(double *sums, size_t sums_len, const double *fc, size_t fc_len, size_t n_satom);

/*
 * Replaces block (i, j) of a full set, and brings the nine sums of atom i up to date: from each the old number is subtracted, and then
 * the new one is added. Nine zeros take a block out. All other blocks and sums are as they were. The time does not grow with n_satom.
 * If every number of the set is on the grid, and the sums are those of gf_row_sums_fc2, then after any series of these calls they still
 * are, bit for bit. On the grid are the multiples of 2^-20 from -2^20 to 2^20, -0.0 too.
 *   fc     n_satom x n_satom x 9
 *   sums   n_satom x 9; any numbers are followed
 *   block  9
 * Refusals: 1 (n_satom above 1,024), 2, 3 (i or j not below n_satom), then 10 (a number of the old block (i, j) or of the new one is off
 * the grid; other blocks are not looked at).
 */
uint8_t gf_replace_block_fc2(
    double *fc, size_t fc_len,
    double *sums, size_t sums_len,
    const double *block, size_t block_len,
    size_t i, size_t j, size_t n_satom);

/* ---- rounding and the root: never refused ---- */

/* The nearest whole number as an integer, ties away from zero; what is beyond int64_t gives the end that is nearest, and NaN 0. */
int64_t gf_nint(double x);

/* The nearest whole number, ties away from zero. */
double gf_round(double x);

/* The square root as IEEE 754 rounds it to nearest, ties to even: of -0.0 it is -0.0, of any other negative number NaN. */
double gf_sqrt(double x);

/* ---- a delivery roll ---- */

/* Whether the first count bytes of the lent slice are there and are a roll. Never refused. */
bool gf_is_roll(const uint8_t *lent, size_t lent_len, size_t count);

/*
 * The same by the former rule: the trailer lists every start just once, in any order. Every roll is one by this rule too. It takes 66 kB of
 * stack, for a table with a mark for each byte.
 */
bool gf_is_roll_former(const uint8_t *lent, size_t lent_len, size_t count);

/*
 * Reads a roll at a position: begin with 0 and go on with slots[5] until the answer is GF_ROLL_END. GF_DONE: a record starts there, and
 * slots has
 *     slots[0]  its kind
 *     slots[1]  its set number
 *     slots[2]  its earlier set number, 0 except for a replacement
 *     slots[3]  where its label begins: the label is part of the roll, lent + slots[3]
 *     slots[4]  how many bytes the label has
 *     slots[5]  where the record ends: the next position
 * GF_ROLL_END: the trailer begins there; the slots stay. The whole roll is judged in each call.
 *   lent   count or more
 *   slots  6
 * Refusals: 7 (no roll, or neither a record of it nor its trailer starts at the position), then 2 (slots).
 */
uint8_t gf_read_roll(const uint8_t *lent, size_t lent_len, size_t count, size_t at, size_t *slots, size_t slots_len);

/*
 * The same by the former rule, for older rolls; 66 kB of stack. Such a roll comes over record by record: what is read here is appended to an
 * empty roll (gf_append_roll), and the new roll has as many bytes as the older one.
 */
uint8_t gf_read_roll_former(const uint8_t *lent, size_t lent_len, size_t count, size_t at, size_t *slots, size_t slots_len);

/*
 * Adds a record at the end of a roll. GF_DONE: new_count[0] is how many bytes the roll has now; it has the former records and then this
 * one, its starts in rising order, and the bytes after it are as they were. The numbers are not looked up in the roll: a second
 * delivery of a set is accepted.
 *   lent       count or more; the roll grows by 14 bytes and the label
 *   label      at most 255
 *   new_count  1
 * Refusals: 7 (no roll, or the record breaks the rules), then 2 (new_count), then 8.
 */
uint8_t gf_append_roll(
    uint8_t *lent, size_t lent_len,
    size_t count, uint8_t kind, uint32_t set, uint32_t earlier,
    const uint8_t *label, size_t label_len,
    size_t *new_count, size_t new_count_len);

/*
 * Which set stands now for a set number. A delivery and a replacement deliver their own set number. A set that was never delivered is
 * unknown; a replaced one answers as the set that replaced it; where nothing replaced it, a retired one is retired, and any other is
 * current, and use_set[0] is the number to use. GF_DONE: current; GF_SET_UNKNOWN and GF_SET_RETIRED leave the slot.
 *   lent     count or more
 *   use_set  1
 * Refusals: 7 (no roll), then 2 (use_set), then 9 (whichever set was asked for: some record delivers a number a second time, or replaces
 * or retires a set that no record before it delivers, or replaces a set that has been replaced).
 */
uint8_t gf_stands_now(const uint8_t *lent, size_t lent_len, size_t count, uint32_t set, size_t *use_set, size_t use_set_len);

/*
 * Retires a set everywhere: the set, those it replaces and those that replace it, step by step, get a retirement with an empty label if
 * they have none, the lowest set number first. new_count[0] is how many bytes the roll has then; the same as
 * before where every one of them has its retirement. Each retirement takes 14 bytes.
 *   lent       count or more; the roll grows into it, the bytes after it stay
 *   new_count  1
 * Refusals: 7 (no roll), then 2 (new_count), then 9 (as gf_stands_now), then 11 (the set was never delivered), then 8 (the retirements do
 * not all fit). On each of them no byte is written.
 */
uint8_t gf_retire_all(uint8_t *lent, size_t lent_len, size_t count, uint32_t set, size_t *new_count, size_t new_count_len);

#ifdef __cplusplus
}
#endif

#endif
