#include "bounds.h"
#include "text.h"

#include <inttypes.h>
#include <stdlib.h>
#include <string.h>

static const char *const names[MEASURES] = {"orders", "drift", "change", "crystal", "left"};
static const struct bounds defaults = {{3e-3, 1e-2, 3e-3, 5e-3, 1e-9}};
static const struct bounds widest = {{3e-2, 1e-1, 3e-2, 5e-2, 1e-8}}; /* ten times as wide: a set that is farther off is not to be delivered */

/* a bound that a certificate can hold to the last bit */
static double bound(const struct text *t, const char *name, const char *word, size_t k)
{
    char shown[32];
    double x = real(t, name, word);
    snprintf(shown, sizeof shown, "%g", x);
    if (!(x >= 0.0 && x <= widest.at_most[k]))
        bad_line(t, "%s has %s: it is a part of the largest number, from 0 to %g", name, word, widest.at_most[k]);
    if (strtod(shown, NULL) != x)
        bad_line(t, "%s has %s: a bound has six digits at most", name, word);
    return x;
}

static void one_word(const struct text *t, const char *name, char **word)
{
    *word = next_word();
    if (!*word || next_word())
        bad_line(t, "%s asks for one entry", name);
}

static void read_line(const struct text *t, const char *name, struct job *j)
{
    char *word;
    size_t k = 0;
    while (k < MEASURES && strcmp(name, names[k]) != 0)
        k++;
    if (k < MEASURES) {
        one_word(t, name, &word);
        j->bounds.at_most[k] = bound(t, name, word, k);
    } else if (strcmp(name, "set") == 0) {
        one_word(t, name, &word);
        int64_t set = integer(t, name, word);
        if (set < 1 || set > UINT32_MAX)
            bad_line(t, "set has %s: a set number is from 1 to 4,294,967,295", word);
        snprintf(j->set, sizeof j->set, "%" PRId64, set);
    } else if (strcmp(name, "unit") == 0) {
        char *energy = next_word(), *length = energy ? next_word() : NULL;
        if (!length || next_word())
            bad_line(t, "unit asks for two entries, of energy and of length, as in: unit eV Angstrom");
        snprintf(j->unit, sizeof j->unit, "%s/%s^2, ^3, ^4 at order 2, 3, 4; the lattice in %s", energy, length, length);
    } else
        bad_line(t, "it begins with %s: a job has set, unit, orders, drift, change, crystal, left", name);
}

void read_job(const char *folder, struct job *j)
{
    struct text t;
    const char *name;
    snprintf(j->set, sizeof j->set, "not stated");
    snprintf(j->unit, sizeof j->unit, "not stated");
    j->bounds = defaults;
    if (!there(folder, "job.txt"))
        return;
    open_text(&t, folder, "job.txt");
    while ((name = next_line(&t)))
        read_line(&t, name, j);
    close_text(&t, "");
}

void bounds_words(const struct bounds *b, char *words)
{
    size_t at = 0;
    for (size_t k = 0; k < MEASURES; k++) {
        at += (size_t)snprintf(words + at, WORDS - at, "%s%s %g", k ? ", " : "", names[k], b->at_most[k]);
        if (b->at_most[k] != defaults.at_most[k])
            at += (size_t)snprintf(words + at, WORDS - at, " (default %g)", defaults.at_most[k]);
    }
}

int parse_bounds(const char *words, struct bounds *b)
{
    char again[WORDS];
    const char *at = words;
    for (size_t k = 0; k < MEASURES; k++) {
        size_t n = strlen(names[k]);
        at = strstr(at, names[k]);
        if (!at || at[n] != ' ')
            return 0;
        b->at_most[k] = strtod(at + n + 1, NULL);
        if (!(b->at_most[k] >= 0.0 && b->at_most[k] <= widest.at_most[k]))
            return 0;
        at += n;
    }
    bounds_words(b, again);
    return strcmp(words, again) == 0;
}

int wider(const struct bounds *b)
{
    for (size_t k = 0; k < MEASURES; k++)
        if (b->at_most[k] > defaults.at_most[k])
            return 1;
    return 0;
}
