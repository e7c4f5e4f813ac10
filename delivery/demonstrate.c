/*
 * Shows on a delivery what the calls of third order do: demonstrate FOLDER
 *
 * FOLDER is a delivery, as delivery/run takes it; nothing is written. Prints how many numbers each kind of transpose moves, how many triples of
 * pairs of atom and direction read out the same bits in all six orders before and after symmetrizing, looked at one by one in plain C (which
 * takes long for a large supercell), and what becomes of damaged copies. Exit status 0 only if all is as the guide says, 2 for a wrong call of
 * the program.
 */
#include "gullyfork.h"
#include "job.h"
#include "progress.h"

#include <math.h>
#include <stdio.h>
#include <stdlib.h>
#include <string.h>

/* ---- all orders of any three pairs */

/* the number at three pairs of atom and direction, x = atom * 3 + direction */
static double read_out(const struct delivery *d, size_t x, size_t y, size_t z)
{
    size_t n = d->n_satom;
    const int64_t *row = d->perms + (size_t)d->nsym_list[x / 3] * n;
    size_t block = ((size_t)d->s2pp[x / 3] * n + (size_t)row[y / 3]) * n + (size_t)row[z / 3];
    return d->sets[1].numbers[block * 27 + (x % 3) * 9 + (y % 3) * 3 + z % 3];
}

static int same_bits(double a, double b)
{
    return memcmp(&a, &b, sizeof a) == 0;
}

/* whether all six orders of the three pairs read out the same bits; *widest is the widest difference so far */
static int alike(const struct delivery *d, size_t x, size_t y, size_t z, double *widest)
{
    double v[6] = {read_out(d, x, y, z), read_out(d, x, z, y), read_out(d, y, x, z),
                   read_out(d, y, z, x), read_out(d, z, x, y), read_out(d, z, y, x)};
    int same = 1;
    for (int i = 1; i < 6; i++) {
        same &= same_bits(v[0], v[i]);
        double wide = fabs(v[0] - v[i]);
        if (!(wide <= *widest)) /* a NaN too, and it stays */
            *widest = wide;
    }
    return same;
}

/* how many triples of pairs do not read out alike */
static size_t print_alike(const struct delivery *d, const char *when)
{
    size_t legs = d->n_satom * 3, all = 0, same = 0;
    double widest = 0.0;
    begin_step("all orders of legs of", "fc3.f64");
    for (size_t x = legs; x-- > 0;) { /* from the last one on: the later, the more triples */
        for (size_t y = x; y < legs; y++)
            for (size_t z = y; z < legs; z++, all++)
                same += (size_t)alike(d, x, y, z, &widest);
        how_far((legs - x) * (legs - x) * (legs - x), legs * legs * legs);
    }
    end_step();
    printf("  %s: of %zu triples of (atom, direction) pairs %zu read out the same bits in all six orders; widest difference %.3e\n",
           when, all, same, widest);
    return all - same;
}

static void symmetrized(struct delivery *d)
{
    size_t blocks = d->n_patom * d->n_satom * d->n_satom;
    uint8_t *done = room(blocks, 1);
    printf("all orders of legs\n");
    print_alike(d, "before");
    must(symmetrize_third(d, d->nsym_list, d->sets[1].numbers, blocks * 27, done), "set_permutation_symmetry_compact_fc3");
    size_t unlike = print_alike(d, "after");
    if (unlike != 0)
        fault("fc3.f64: %zu triples read out differing bits after symmetrizing", unlike);
    free(done);
}

/* ---- transposes: the Rust's leave the blocks that a half shift exchanges, the true ones move every block */

typedef uint8_t transpose(double *, size_t, const int64_t *, size_t, const int64_t *, size_t, const int64_t *, size_t,
                          const int64_t *, size_t, uint8_t *, size_t, size_t, size_t, size_t, int64_t);

static void transpose_third(const struct delivery *d, transpose *call, double *fc3, uint8_t *done, int64_t t_type)
{
    size_t n = d->n_satom, pairs = d->n_patom * n;
    must(call(fc3, pairs * n * 27, d->p2s, d->n_patom, d->s2pp, n, d->nsym_list, n, d->perms, d->num_trans * n, done, pairs, n,
              d->n_patom, d->num_trans, t_type),
         "transpose of third order");
}

/* of how many places the new set reads out what the old one reads out with the first two pairs exchanged */
static size_t moved(const struct delivery *old, const struct delivery *new)
{
    size_t legs = old->n_satom * 3, count = 0;
    begin_step("transposes of", "fc3.f64");
    for (size_t x = 0; x < legs; x++) {
        for (size_t y = 0; y < legs; y++)
            for (size_t z = 0; z < legs; z++)
                count += (size_t)same_bits(read_out(new, x, y, z), read_out(old, y, x, z));
        how_far(x + 1, legs);
    }
    end_step();
    return count;
}

/* one transpose of each kind, and a list of true ones followed by its inverse, each on a copy of the set as delivered */
static void transposes(const struct delivery *d)
{
    static const int64_t list[] = {0, 1, 2, 2, 1, 0};
    size_t n = d->n_satom, numbers = d->n_patom * n * n * 27, legs = n * 3, all = legs * legs * legs;
    struct delivery copy = *d;
    copy.sets[1].numbers = room(numbers, sizeof *copy.sets[1].numbers);
    uint8_t *done = room(d->n_patom * n, 1);
    memcpy(copy.sets[1].numbers, d->sets[1].numbers, numbers * sizeof *copy.sets[1].numbers);
    transpose_third(d, gf_transpose_compact_fc3, copy.sets[1].numbers, done, 0);
    size_t by_old = moved(d, &copy);
    memcpy(copy.sets[1].numbers, d->sets[1].numbers, numbers * sizeof *copy.sets[1].numbers);
    transpose_third(d, gf_true_transpose_compact_fc3, copy.sets[1].numbers, done, 0);
    size_t by_true = moved(d, &copy);
    memcpy(copy.sets[1].numbers, d->sets[1].numbers, numbers * sizeof *copy.sets[1].numbers);
    for (size_t k = 0; k < sizeof list / sizeof *list; k++)
        transpose_third(d, gf_true_transpose_compact_fc3, copy.sets[1].numbers, done, list[k]);
    int back = memcmp(copy.sets[1].numbers, d->sets[1].numbers, numbers * sizeof *copy.sets[1].numbers) == 0;
    printf("transposes of type 0, as delivered: of %zu read-out entries %zu are right after the Rust's, %zu after the true one\n", all, by_old,
           by_true);
    printf("  true transposes 0, 1, 2, then 2, 1, 0: the bits are %s\n", back ? "as they were" : "NOT as they were");
    if (by_true != all || !back)
        fault("fc3.f64: the true transposes did not move every number");
    free(copy.sets[1].numbers);
    free(done);
}

/* ---- damaged copies: each is refused with its reason, and the set that was lent is as it was */

static void refuse(const struct delivery *d, const char *damage, const int64_t *nsym_list, size_t len)
{
    size_t blocks = d->n_patom * d->n_satom * d->n_satom;
    double *set = room(blocks * 27, sizeof *set);
    uint8_t *done = room(blocks, 1);
    memcpy(set, d->sets[1].numbers, blocks * 27 * sizeof *set);
    uint8_t answer = symmetrize_third(d, nsym_list, set, len, done);
    int kept = memcmp(set, d->sets[1].numbers, blocks * 27 * sizeof *set) == 0;
    printf("  %s: refusal %d, %s; the set is %s\n", damage, answer, gf_words(answer), kept ? "as it was" : "CHANGED");
    if (answer == GF_DONE || !kept)
        fault("a damaged copy was not refused, or was changed");
    free(set);
    free(done);
}

static void damaged_copies(const struct delivery *d)
{
    size_t n = d->n_satom, len = d->n_patom * n * n * 27;
    int64_t *list = room(n, sizeof *list);
    printf("damaged copies\n");
    refuse(d, "one number short", d->nsym_list, len - 1);
    memcpy(list, d->nsym_list, n * sizeof *list);
    list[n - 1] = -1;
    refuse(d, "last entry of nsym_list -1", list, len);
    list[n - 1] = (d->nsym_list[n - 1] + 1) % (int64_t)d->num_trans;
    if (d->num_trans > 1)
        refuse(d, "last entry of nsym_list another row", list, len);
    free(list);
}

int main(int argc, char **argv)
{
    fill_standard_streams();
    int help = argc == 2 && strcmp(argv[1], "--help") == 0;
    if (argc != 2 || help) {
        fputs("usage: demonstrate FOLDER\nShows on the delivery in FOLDER what the calls of third order do; writes nothing. Status 0: all is as it should be.\n",
              help ? stdout : stderr);
        return help ? 0 : 2;
    }
    program = "demonstrate";
    struct delivery d;
    read_delivery(argv[1], &d);
    must(gf_check_shift_tables(d.p2s, d.n_patom, d.s2pp, d.n_satom, d.nsym_list, d.n_satom, d.perms, d.num_trans * d.n_satom, d.n_satom, d.n_patom,
                               d.num_trans),
         "check of the shift tables");
    printf("%zu atoms, %zu of them in the primitive cell, %zu shifts\n", d.n_satom, d.n_patom, d.num_trans);
    transposes(&d);
    symmetrized(&d);
    damaged_copies(&d);
    free_delivery(&d);
    return faults == 0 && fflush(stdout) == 0 && !ferror(stdout) ? 0 : 1;
}
