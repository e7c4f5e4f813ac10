/*
 * Times an edit of a full second-order set beside the fresh pass that it saves.
 *   cc -std=c99 -D_POSIX_C_SOURCE=199309L -O2 -I include -o target/row_sums_bench oracle/row_sums_bench.c target/staticlib/libcapi.a
 * Prints a table: the least of many runs.
 */
#include "gullyfork.h"

#include <stdio.h>
#include <stdlib.h>
#include <time.h>

static double now(void)
{
    struct timespec t;
    clock_gettime(CLOCK_MONOTONIC, &t);
    return (double)t.tv_sec * 1e9 + (double)t.tv_nsec;
}

static uint64_t state = 1;

static size_t below(size_t n)
{
    state = state * 6364136223846793005u + 1442695040888963407u;
    return (size_t)((state >> 33) % n);
}

/* on the grid: whole steps of 2^-20 */
static double on_grid(void)
{
    return ((double)below(2000001) - 1000000.0) / 1048576.0;
}

static double edits(double *fc, double *sums, size_t n, size_t count, size_t spread)
{
    double block[9];
    for (size_t k = 0; k < 9; k++)
        block[k] = on_grid();
    double start = now();
    for (size_t e = 0; e < count; e++) {
        size_t i = below(spread), j = below(spread);
        if (gf_replace_block_fc2(fc, n * n * 9, sums, n * 9, block, 9, i, j, n))
            exit(1);
    }
    return (now() - start) / (double)count;
}

int main(void)
{
    const size_t sizes[] = {16, 64, 256, 1024};
    puts("| atoms | an edit anywhere, ns | an edit among 16 atoms, ns | a fresh pass, us | a pass takes so many edits |\n| --- | --- | --- | --- | --- |");
    for (size_t s = 0; s < sizeof sizes / sizeof *sizes; s++) {
        size_t n = sizes[s];
        double *fc = malloc(n * n * 9 * sizeof *fc), *sums = malloc(n * 9 * sizeof *sums);
        if (!fc || !sums)
            return 1;
        for (size_t k = 0; k < n * n * 9; k++)
            fc[k] = on_grid();
        double pass = 1e99, far = 1e99, near = 1e99;
        for (int run = 0; run < 15; run++) {
            double start = now();
            if (gf_row_sums_fc2(sums, n * 9, fc, n * n * 9, n))
                return 1;
            double t = now() - start;
            pass = t < pass ? t : pass;
            t = edits(fc, sums, n, 20000, n);
            far = t < far ? t : far;
            t = edits(fc, sums, n, 20000, 16);
            near = t < near ? t : near;
        }
        printf("| %zu | %.0f | %.0f | %.1f | %.0f |\n", n, far, near, pass / 1e3, pass / far);
        free(fc);
        free(sums);
    }
    return 0;
}
