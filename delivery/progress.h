/* How far the work is, on standard error where that is a terminal; elsewhere nothing is said. */
#ifndef PROGRESS_H
#define PROGRESS_H

#include <stddef.h>

/* of a clock that only goes forward */
double seconds(void);

/* names the step that begins, as "audit of" "fc3.f64"; the line is overwritten by the next one */
void begin_step(const char *what, const char *of);

/* how far that step is, from the first half second on, five times a second */
void how_far(size_t done, size_t all);

/* wipes the line */
void end_step(void);

#endif
