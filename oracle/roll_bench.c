/*
 * Times the calls on a delivery roll beside plain C programs: one that walks and judges the same bytes once, and one that judges, fills a
 * register of the sets and answers for one.
 *   cc -std=c99 -D_POSIX_C_SOURCE=199309L -O2 -I include -o target/roll_bench oracle/roll_bench.c target/staticlib/libcapi.a
 * Prints a table: the least of many runs.
 */
#include "gullyfork.h"

#include <stdio.h>
#include <stdlib.h>
#include <string.h>
#include <time.h>

#define MOST 65536

static uint8_t lent[MOST], copy[MOST];

static double now(void)
{
    struct timespec t;
    clock_gettime(CLOCK_MONOTONIC, &t);
    return (double)t.tv_sec * 1e6 + (double)t.tv_nsec / 1e3;
}

static uint32_t four(const uint8_t *b)
{
    return b[0] | (uint32_t)b[1] << 8 | (uint32_t)b[2] << 16 | (uint32_t)b[3] << 24;
}

/* the plain program: one walk that judges, each start beside its number in the trailer's list; the sum keeps it honest */
static uint64_t plain(const uint8_t *b, size_t n)
{
    if (n < 8 || n > MOST)
        return 0;
    uint64_t sum = 1;
    size_t count = four(b + n - 8), t = four(b + n - 4), at = 0;
    if (count > 1000 || t + 4 * count + 8 != n)
        return 0;
    for (size_t i = 0; i < count; i++) {
        if (at + 10 > t || at + 10 + b[at + 9] > t)
            return 0;
        uint8_t kind = b[at];
        uint32_t set = four(b + at + 1), earlier = four(b + at + 5);
        if (kind < 1 || kind > 3 || set < 1 || (kind == 2) != (earlier != 0) || four(b + t + 4 * i) != at)
            return 0;
        sum += set;
        at += 10 + b[at + 9];
    }
    return at == t ? sum : 0;
}

static uint64_t walk(const uint8_t *b, size_t n)
{
    size_t at = 0, slots[6];
    uint64_t sum = 1;
    while (gf_read_roll(b, MOST, n, at, slots, 6) == GF_DONE) {
        sum += slots[1];
        at = slots[5];
    }
    return sum;
}

static uint64_t judge(const uint8_t *b, size_t n)
{
    return gf_is_roll(b, MOST, n);
}

static uint64_t judge_former(const uint8_t *b, size_t n)
{
    return gf_is_roll_former(b, MOST, n);
}

static uint64_t append(const uint8_t *b, size_t n)
{
    size_t count[1] = {0};
    (void)b;
    gf_append_roll(lent, MOST, n, 1, 9, 0, (const uint8_t *)"label of one", 12, count, 1);
    return count[0];
}

/* the least time of one call, in microseconds; the lent slice is put back before each */
static double least(uint64_t (*call)(const uint8_t *, size_t), size_t n, int runs)
{
    double best = 1e30;
    volatile uint64_t kept = 0;
    for (int i = 0; i < runs; i++) {
        memcpy(lent, copy, sizeof lent);
        double from = now();
        kept += call(lent, n);
        double took = now() - from;
        if (took < best)
            best = took;
    }
    return best;
}

/* one record more, and how many bytes the roll has then */
static size_t grow(size_t n, uint32_t set, uint32_t earlier)
{
    size_t count[1] = {0};
    if (gf_append_roll(lent, MOST, n, earlier ? 2 : 1, set, earlier, (const uint8_t *)"label of one", 12, count, 1) != GF_DONE)
        exit(1);
    return count[0];
}

static void reading(size_t size)
{
    size_t n = 8;
    memset(lent, 0, sizeof lent);
    for (uint32_t i = 1; i < size; i++)
        n = grow(n, i, 0);
    memcpy(copy, lent, sizeof copy);
    double add = least(append, n, 1000);
    memcpy(lent, copy, sizeof copy);
    n = grow(n, (uint32_t)size, 0);
    memcpy(copy, lent, sizeof copy);
    if (plain(lent, n) == 0 || plain(lent, n) != walk(lent, n))
        exit(1);
    double c = least(plain, n, 2000), is = least(judge, n, 2000), was = least(judge_former, n, 2000), all = least(walk, n, 50);
    printf("| %zu | %zu | %.2f | %.2f | %.2f | %.1f | %.2f | %.2f |\n", size, n, c, is, was, all, all / (double)size, add);
}

/* ---- which set stands now */

static uint32_t sets[1000], replaced_by[1000];
static size_t noted;

/* where a set stands in the register; `noted` if it does not */
static size_t find(uint32_t set)
{
    size_t i = 0;
    while (i < noted && sets[i] != set)
        i++;
    return i;
}

/* the set to use for set 1, by a register that is searched from the front; the rolls here have no retirements */
static uint64_t plain_standing(const uint8_t *b, size_t n)
{
    if (plain(b, n) == 0)
        return 0;
    size_t count = four(b + n - 8), at = 0, k;
    noted = 0;
    for (size_t i = 0; i < count; i++, at += 10 + b[at + 9]) {
        uint32_t set = four(b + at + 1);
        if (find(set) < noted)
            return 0;
        if (b[at] == 2) {
            if ((k = find(four(b + at + 5))) == noted || replaced_by[k])
                return 0;
            replaced_by[k] = set;
        }
        sets[noted] = set;
        replaced_by[noted++] = 0;
    }
    uint32_t set = 1;
    while (replaced_by[k = find(set)])
        set = replaced_by[k];
    return set;
}

static uint64_t stands(const uint8_t *b, size_t n)
{
    size_t use[1];
    return gf_stands_now(b, MOST, n, 1, use, 1) == GF_DONE ? use[0] : 0;
}

/* the records in `chains` chains, one record of each in turn; set 1 begins the first */
static void standing(size_t size, size_t chains, const char *how)
{
    size_t n = 8;
    memset(lent, 0, sizeof lent);
    for (size_t i = 0; i < size; i++)
        n = grow(n, (uint32_t)i + 1, i < chains ? 0 : (uint32_t)(i + 1 - chains));
    memcpy(copy, lent, sizeof copy);
    if (plain_standing(lent, n) == 0 || plain_standing(lent, n) != stands(lent, n))
        exit(1);
    double c = least(plain_standing, n, 200), now = least(stands, n, 50);
    printf("| %zu | %s | %.2f | %.2f | %.1f |\n", size, how, c, now, now / c);
}

/* ---- a set retired everywhere */

static uint64_t press(const uint8_t *b, size_t n)
{
    size_t count[1] = {0};
    (void)b;
    return gf_retire_all(lent, MOST, n, 1, count, 1) == GF_DONE ? count[0] : 0;
}

/* the same retirements by the appender, one after the other; as many as there are records */
static uint64_t one_by_one(const uint8_t *b, size_t n)
{
    size_t count[1] = {n}, many = four(b + n - 8);
    for (size_t i = 0; i < many; i++)
        if (gf_append_roll(lent, MOST, count[0], 3, (uint32_t)i + 1, 0, b, 0, count, 1) != GF_DONE)
            return 0;
    return count[0];
}

/* one chain of half the records: the button adds the other half */
static void retiring(size_t size)
{
    size_t n = 8;
    memset(lent, 0, sizeof lent);
    for (uint32_t i = 1; i <= size / 2; i++)
        n = grow(n, i, i - 1);
    memcpy(copy, lent, sizeof copy);
    uint64_t all = press(lent, n);
    memcpy(lent, copy, sizeof copy);
    if (all == 0 || all != one_by_one(lent, n))
        exit(1);
    double each = least(one_by_one, n, 50), button = least(press, n, 50);
    printf("| %zu | %zu | %.2f | %.2f | %.1f |\n", size / 2, size / 2, each, button, button / each);
}

int main(void)
{
    static const size_t sizes[] = {10, 100, 1000};
    puts("| records | bytes | plain C, one walk | gf_is_roll | gf_is_roll_former | whole walk | for each record | appending the last one |");
    puts("|---|---|---|---|---|---|---|---|");
    for (int k = 0; k < 3; k++)
        reading(sizes[k]);
    puts("\n| records | chains | plain C, a register | gf_stands_now | ratio |");
    puts("|---|---|---|---|---|");
    for (int k = 0; k < 3; k++) {
        standing(sizes[k], sizes[k], "none: deliveries alone");
        standing(sizes[k], 5, "five");
        standing(sizes[k], 1, "one");
    }
    puts("\n| records, one chain | retirements added | the same by gf_append_roll | gf_retire_all | ratio |");
    puts("|---|---|---|---|---|");
    for (int k = 0; k < 3; k++)
        retiring(sizes[k]);
    return 0;
}
