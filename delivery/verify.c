/*
 * Holds a delivery against its certificate: verify [--roll ROLL] FOLDER
 *
 * FOLDER holds a delivery and its certificate.txt, as `delivery/run FOLDER OUT` leaves them in OUT. Prints a line for each line of the certificate,
 * and a verdict; writes nothing. A line holds if it is true of the files and states no fault. With --roll: also which set of the roll it is, and
 * whether that stands now. Exit status 0: it holds; 1: it does not, or something cannot be read; 2: wrong usage.
 */
#include "certificate.h"

#include <stdio.h>
#include <stdlib.h>
#include <string.h>

static struct held held;
static int ended;

static void verdict(void)
{
    if (held.wrong > 0)
        printf("DOES NOT HOLD: %zu line%s\n", held.wrong, held.wrong == 1 ? "" : "s");
    else if (!ended)
        puts("DOES NOT HOLD: it cannot be read");
    else
        puts(held.wide ? "HOLDS, by bounds that are wider than the defaults" : "HOLDS");
}

/* where the delivery cannot be read to its end */
static void cut_off(void)
{
    if (!ended)
        verdict();
}

static int usage(int help)
{
    fputs("usage: verify [--roll ROLL] FOLDER\n"
          "Holds a delivery against its certificate: a line holds if it is true of the files and states no fault. With --roll: also which set of the\n"
          "roll this delivery is, and whether it stands now. Status 0: it holds; 1: it does not, or something cannot be read; 2: wrong usage.\n",
          help ? stdout : stderr);
    return help ? 0 : 2;
}

int main(int argc, char **argv)
{
    const char *roll = NULL, *folder = NULL;
    fill_standard_streams();
    if (argc == 2 && strcmp(argv[1], "--help") == 0)
        return usage(1);
    for (int k = 1; k < argc; k++)
        if (strcmp(argv[k], "--roll") == 0 && !roll && k + 1 < argc)
            roll = argv[++k];
        else if (!folder)
            folder = argv[k];
        else
            return usage(0);
    if (!folder || strncmp(folder, "--", 2) == 0)
        return usage(0);
    program = "verify";
    atexit(cut_off);
    verify_certificate(folder, roll, &held);
    ended = 1;
    verdict();
    return held.wrong == 0 && fflush(stdout) == 0 && !ferror(stdout) ? 0 : 1;
}
