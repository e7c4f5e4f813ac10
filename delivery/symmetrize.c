/*
 * Symmetrizes a delivery and judges it: symmetrize FOLDER [OUT]
 *
 * FOLDER holds cell.txt, tables.txt, fc2.f64 and fc3.f64, and may hold operations.txt, fc4.f64 and job.txt; samples/README.md says what is in them.
 * What is measured, before and after, is printed as the certificate has it (certificate.c). What is beyond its bound is a FAULT in words: then
 * the exit status is 1 and nothing is written. With OUT, another folder, the symmetrized sets, the texts and the certificate are written there,
 * which delivery/verify holds against each other. Exit status 2: a wrong call of the program. Where standard error is a terminal, long steps say
 * there how far they are.
 */
#include "gullyfork.h"
#include "certificate.h"
#include "job.h"
#include "progress.h"

#include <math.h>
#include <stdio.h>
#include <stdlib.h>
#include <string.h>

static struct certificate c;

/* a line as it was worked out, or what is wrong */
static void tell(const char *form, const char *set, const char *file, const char *wrong)
{
    const struct line *l = line_of(&c, form, set);
    if (l->is.fault)
        fault("%s: %s (%s: %s)", file, wrong, l->name, l->is.words);
    else
        printf("%s: %s\n", l->name, l->is.words);
}

static const char *short_name(const struct set *s)
{
    static const char *const names[] = {"fc2", "fc3", "fc4"};
    return names[s->order - 2];
}

/* ---- the numbers as delivered */

static double swapped(double x)
{
    unsigned char b[sizeof x];
    memcpy(b, &x, sizeof x);
    for (size_t i = 0; i < sizeof x / 2; i++) {
        unsigned char byte = b[i];
        b[i] = b[sizeof x - 1 - i];
        b[sizeof x - 1 - i] = byte;
    }
    memcpy(&x, b, sizeof x);
    return x;
}

/* whether the numbers are possible once the bytes of each are in the other order */
static int turned_round(const struct delivery *d, const struct set *s)
{
    struct verdict v;
    struct set other = *s;
    other.numbers = room(s->count, sizeof *other.numbers);
    for (size_t q = 0; q < s->count; q++)
        other.numbers[q] = swapped(s->numbers[q]);
    size_verdict(d, &other, &v);
    free(other.numbers);
    return !v.fault;
}

static void judge_numbers(const struct delivery *d, const struct set *s)
{
    struct verdict v;
    size_verdict(d, s, &v);
    if (!v.fault)
        return;
    fault("%s: %s", set_name(s), v.words);
    if (turned_round(d, s))
        printf("  with the bytes of each number in the other order all are possible: the file has the highest byte first, not the lowest\n");
}

/* ---- before, and after */

static void judge_cell(const struct delivery *d)
{
    say_cell(d, &c);
    tell("%s", "counts", "tables.txt", "");
    tell("%s", "cell", "cell.txt", "");
    tell("%s", "tables", "tables.txt", "they are no shift tables");
    if (faults == 0)
        tell("%s", "positions", "cell.txt", "cell.txt and tables.txt are not of one cell");
    if (faults == 0)
        tell("%s", "operations", "operations.txt", "they are not the operations of this cell");
}

#define SWAPPED "the orders of the same legs differ, as where a leg is swapped"
#define NOT_STILL "the sums over an atom are not zero, as the acoustic sum rule asks"
#define NOT_OF_CRYSTAL "the numbers do not obey the crystal's own operations"

static void judge_before(const struct delivery *d, const struct set *s, const struct bounds *b)
{
    say_before(d, s, b, &c);
    tell("orders %s before", short_name(s), set_name(s), SWAPPED);
    tell("drift %s before", short_name(s), set_name(s), NOT_STILL);
    tell("crystal %s before", short_name(s), set_name(s), NOT_OF_CRYSTAL);
}

static void judge_after(const struct delivery *d, const struct set *s, const struct bounds *b)
{
    say_set(d, s, b, &c);
    tell("size %s", short_name(s), set_name(s), "after symmetrizing");
    tell("audit %s", short_name(s), set_name(s), "the orders of the same legs differ after symmetrizing");
    tell("drift %s after", short_name(s), set_name(s), NOT_STILL);
    tell("crystal %s after", short_name(s), set_name(s), NOT_OF_CRYSTAL);
    if (s->order == 2)
        tell("on-site %s", short_name(s), set_name(s), "an atom that is displaced is pushed on, not back: is the sign right?");
}

static void work_on(const struct delivery *d, struct set *s, const struct bounds *b)
{
    struct set before = *s;
    before.numbers = room(s->count, sizeof *before.numbers);
    memcpy(before.numbers, s->numbers, s->count * sizeof *before.numbers);
    begin_step("symmetrizing of", set_name(s));
    double start = seconds();
    symmetrize(d, s);
    double taken = seconds() - start;
    end_step();
    printf("%s: symmetrized in %.1f microseconds\n", set_name(s), 1e6 * taken);
    struct line *l = line_of(&c, "change %s", short_name(s));
    change_verdict(d, &before, s, b->at_most[CHANGE], &l->is);
    tell("change %s", short_name(s), set_name(s), "symmetrizing changes the set by too much");
    free(before.numbers);
    judge_after(d, s, b);
}

/* a step on every set, if no fault was found so far */
typedef void step(const struct delivery *d, struct set *s, const struct bounds *b);

static void on_every_set(struct delivery *d, const struct bounds *b, step *work)
{
    int go_on = faults == 0;
    for (size_t k = 0; k < 3 && go_on; k++)
        if (d->sets[k].numbers)
            work(d, &d->sets[k], b);
}

static void numbers_step(const struct delivery *d, struct set *s, const struct bounds *b)
{
    (void)b;
    judge_numbers(d, s);
}

static void before_step(const struct delivery *d, struct set *s, const struct bounds *b)
{
    judge_before(d, s, b);
}

/* the lines that are stated of the job */
static void state(const char *folder, const struct job *j, const struct delivery *d)
{
    snprintf(line_of(&c, "%s", "set")->is.words, WORDS, "%s", j->set);
    snprintf(line_of(&c, "%s", "unit")->is.words, WORDS, "%s", j->unit);
    bounds_words(&j->bounds, line_of(&c, "%s", "bounds")->is.words);
    for (size_t k = 0; k < 3; k++)
        if (d->sets[k].numbers)
            say_file(folder, set_name(&d->sets[k]), NULL, line_of(&c, "input %s", set_name(&d->sets[k]))->is.words);
    tell("%s", "set", "job.txt", "");
    tell("%s", "unit", "job.txt", "");
    tell("%s", "bounds", "job.txt", "");
}

static int usage(int help)
{
    fputs("usage: symmetrize FOLDER [OUT]\n"
          "Symmetrizes the delivery in FOLDER, judges it by its bounds and, with OUT, another folder, writes it there with a certificate. FOLDER has\n"
          "tables.txt, cell.txt, fc2.f64 and fc3.f64; it may have fc4.f64, operations.txt and job.txt (set number, unit, bounds).\n"
          "Status 0: all went well; 1: there is a fault, which is said, or something cannot be read or written; 2: wrong usage.\n",
          help ? stdout : stderr);
    return help ? 0 : 2;
}

int main(int argc, char **argv)
{
    fill_standard_streams();
    int help = argc == 2 && strcmp(argv[1], "--help") == 0;
    if ((argc != 2 && argc != 3) || help)
        return usage(help);
    program = "symmetrize";
    if (argc == 3 && same_folder(argv[1], argv[2])) {
        fprintf(stderr, "symmetrize: %s is the folder that is read: name another one to write to\n", argv[2]);
        return 1;
    }
    struct delivery d;
    struct job j;
    read_job(argv[1], &j);
    read_delivery(argv[1], &d);
    lay_out(&c, d.num_rot > 0, d.sets[2].numbers != NULL);
    state(argv[1], &j, &d);
    judge_cell(&d);
    on_every_set(&d, &j.bounds, numbers_step);
    on_every_set(&d, &j.bounds, before_step);
    on_every_set(&d, &j.bounds, work_on);
    if (faults == 0 && argc == 3)
        write_delivery(argv[1], argv[2], &d, &c);
    if (faults != 0)
        printf("%zu fault%s; nothing was written\n", faults, faults == 1 ? "" : "s");
    free_delivery(&d);
    return faults == 0 && fflush(stdout) == 0 && !ferror(stdout) ? 0 : 1;
}
