#include "progress.h"

#include <stdio.h>
#include <time.h>
#include <unistd.h>

static const char *step_what = "", *step_of = "";
static double step_begun, last_said;

double seconds(void)
{
    struct timespec t;
    clock_gettime(CLOCK_MONOTONIC, &t);
    return (double)t.tv_sec + 1e-9 * (double)t.tv_nsec;
}

void begin_step(const char *what, const char *of)
{
    step_what = what;
    step_of = of;
    step_begun = last_said = seconds();
    if (isatty(2))
        fprintf(stderr, "\r%78s\r%s %s ..", "", what, of);
}

void how_far(size_t done, size_t all)
{
    double now = seconds();
    if (now < step_begun + 0.5 || now < last_said + 0.2)
        return;
    last_said = now;
    if (isatty(2))
        fprintf(stderr, "\r%s %s: %3.0f %%", step_what, step_of, 100.0 * (double)done / (double)all);
}

void end_step(void)
{
    if (isatty(2))
        fprintf(stderr, "\r%78s\r", "");
}
