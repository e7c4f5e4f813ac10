/*
 * The certificate of a delivery. Its lines, in this order:
 *   gullyfork certificate 2
 *   library, date, set, unit   the version of the library that wrote it, when, the number of the set, the unit; only stated
 *   NAME               for each file of the delivery its bytes and their SHA-256
 *   input NAME         the same of the sets that the job was given; only stated
 *   counts             n_satom, n_patom, num_trans
 *   cell               formula, which atoms are of which element, lengths of the vectors, volume
 *   tables             what the check of the shift tables says
 *   positions          how many shifts send the positions of cell.txt as their row of the tables says
 *   operations         how many operations of the crystal do, and whether they are a group
 *   bounds             by which the lines below are judged
 * and for each set FCN
 *   size FCN           the largest number and the sum of squares
 *   orders FCN before, drift FCN before, crystal FCN before   of the set that the job was given; only stated
 *   change FCN         how much the job changed a number; only stated
 *   audit FCN          what the proved audit says: alike, or where it is not
 *   drift FCN after, crystal FCN after   of the set beside the certificate
 *   on-site fc2        the smallest number on the diagonal of an on-site block
 *   end                the SHA-256 of the lines from `library` on, so that a damaged certificate is found too
 */
#include "certificate.h"
#include "gullyfork.h"
#include "progress.h"
#include "records.h"
#include "sha256.h"

#include <errno.h>
#include <stdio.h>
#include <stdlib.h>
#include <string.h>
#include <sys/stat.h>
#include <time.h>
#include <unistd.h>

#define UNREADABLE "cannot be read: "

static const char first_line[] = "gullyfork certificate 2";

/* ---- its lines */

static const char *const of_sets[] = {"size %s", "orders %s before", "drift %s before", "crystal %s before", "change %s", "audit %s",
                                      "drift %s after", "crystal %s after"};

static void add_line(struct certificate *c, const char *form, const char *set)
{
    struct line *l = &c->lines[c->count++];
    snprintf(l->name, sizeof l->name, form, set);
    l->is.words[0] = '\0';
    l->is.fault = 0;
}

void lay_out(struct certificate *c, int operations, int fourth)
{
    static const char *const first[] = {"library", "date", "set", "unit"}, *const of_cell[] = {"counts", "cell", "tables", "positions", "operations", "bounds"};
    static const char *const sets[] = {"fc2", "fc3", "fc4"};
    c->count = 0;
    for (size_t k = 0; k < 4; k++)
        add_line(c, "%s", first[k]);
    for (size_t k = 0; k < DELIVERED; k++)
        if (k == 2 ? operations : k < 5 || fourth)
            add_line(c, "%s", delivered[k]);
    for (size_t k = 3; k < DELIVERED; k++)
        if (k < 5 || fourth)
            add_line(c, "input %s", delivered[k]);
    for (size_t k = 0; k < 6; k++)
        add_line(c, "%s", of_cell[k]);
    for (size_t s = 0; s < (fourth ? 3 : 2); s++) {
        for (size_t k = 0; k < sizeof of_sets / sizeof *of_sets; k++)
            add_line(c, of_sets[k], sets[s]);
        if (s == 0)
            add_line(c, "on-site %s", sets[s]);
    }
}

struct line *line_of(struct certificate *c, const char *form, const char *set)
{
    char name[32];
    snprintf(name, sizeof name, form, set);
    for (size_t k = 0; k < c->count; k++)
        if (strcmp(c->lines[k].name, name) == 0)
            return &c->lines[k];
    return NULL;
}

static struct verdict *verdict_of(struct certificate *c, const char *form, const char *set)
{
    return &line_of(c, form, set)->is;
}

/* of a line that nothing in the delivery tells: the measure by whose bound it is judged, MEASURES if by none, -1 if it is no such line */
static int stated_by(const char *name)
{
    static const char *const first[] = {"library", "date", "set", "unit", "bounds"};
    for (size_t k = 0; k < 5; k++)
        if (strcmp(name, first[k]) == 0)
            return MEASURES;
    if (strncmp(name, "input ", 6) == 0)
        return MEASURES;
    if (strncmp(name, "change ", 7) == 0)
        return CHANGE;
    if (!strstr(name, " before"))
        return -1;
    return name[0] == 'o' ? ORDERS : name[0] == 'd' ? DRIFT : CRYSTAL;
}

static int line_is_file(const char *name)
{
    for (size_t k = 0; k < DELIVERED; k++)
        if (strcmp(name, delivered[k]) == 0)
            return 1;
    return 0;
}

/* ---- what stands in a folder */

static void say_sum(FILE *f, const char *name, long long bytes, char *words)
{
    static unsigned char part[1u << 16u];
    char sum[65];
    struct sha s;
    sha_begin(&s);
    begin_step("checksum of", name);
    for (size_t n; (n = fread(part, 1, sizeof part, f)) > 0;) {
        sha_add(&s, part, n);
        how_far((size_t)s.bytes, (size_t)bytes);
    }
    end_step();
    unsigned long long all = s.bytes;
    sha_end(&s, sum);
    if (ferror(f))
        snprintf(words, WORDS, UNREADABLE "%s", strerror(errno));
    else
        snprintf(words, WORDS, "%llu bytes, sha256 %s", all, sum);
}

void say_file(const char *folder, const char *name, const char *stated, char *words)
{
    char path[PATH_ROOM];
    long long bytes = 0;
    FILE *f = NULL;
    path_in(folder, name, path);
    const char *why = open_to_read(path, &f, &bytes);
    if (why)
        snprintf(words, WORDS, UNREADABLE "%s", why);
    else if (stated && atoll(stated) != bytes)
        snprintf(words, WORDS, "%lld bytes", bytes);
    else
        say_sum(f, name, bytes, words);
    if (f)
        fclose(f);
}

static const char *const short_names[] = {"fc2", "fc3", "fc4"};

void say_cell(const struct delivery *d, struct certificate *c)
{
    snprintf(verdict_of(c, "%s", "counts")->words, WORDS, "%zu atoms, %zu in the primitive cell, %zu shifts", d->n_satom, d->n_patom, d->num_trans);
    cell_verdict(d, verdict_of(c, "%s", "cell"));
    tables_verdict(d, verdict_of(c, "%s", "tables"));
    positions_verdict(d, verdict_of(c, "%s", "positions"));
    if (d->num_rot > 0)
        operations_verdict(d, verdict_of(c, "%s", "operations"));
    else
        snprintf(verdict_of(c, "%s", "operations")->words, WORDS, NO_OPERATIONS);
}

void say_before(const struct delivery *d, const struct set *s, const struct bounds *b, struct certificate *c)
{
    const char *name = short_names[s->order - 2];
    orders_verdict(d, s, b->at_most[ORDERS], verdict_of(c, "orders %s before", name));
    drift_verdict(d, s, b->at_most[DRIFT], verdict_of(c, "drift %s before", name));
    crystal_verdict(d, s, b->at_most[CRYSTAL], verdict_of(c, "crystal %s before", name));
}

void say_set(const struct delivery *d, const struct set *s, const struct bounds *b, struct certificate *c)
{
    const char *name = short_names[s->order - 2];
    size_verdict(d, s, verdict_of(c, "size %s", name));
    audit_verdict(d, s, verdict_of(c, "audit %s", name));
    drift_verdict(d, s, b->at_most[LEFT], verdict_of(c, "drift %s after", name));
    crystal_verdict(d, s, b->at_most[CRYSTAL], verdict_of(c, "crystal %s after", name));
    if (s->order == 2)
        on_site_verdict(d, s, verdict_of(c, "on-site %s", name));
}

static void sum_of(const struct certificate *c, char sum[65])
{
    struct sha s;
    sha_begin(&s);
    for (size_t k = 0; k < c->count; k++) {
        const struct line *l = &c->lines[k];
        sha_add(&s, l->name, strlen(l->name));
        sha_add(&s, ": ", 2);
        sha_add(&s, l->is.words, strlen(l->is.words));
        sha_add(&s, "\n", 1);
    }
    sha_end(&s, sum);
}

/* ---- writing */

/* a folder inside the one to write to, in which everything is made before anything there is replaced */
static char staging[PATH_ROOM];

/* the files of a delivery, and last its certificate */
static const char *file_name(size_t k)
{
    return k < DELIVERED ? delivered[k] : CERTIFICATE;
}

static void clear_staging(void)
{
    char path[PATH_ROOM];
    if (!*staging)
        return;
    for (size_t k = 0; k <= DELIVERED; k++) {
        path_in(staging, file_name(k), path);
        remove(path);
    }
    rmdir(staging);
    *staging = '\0';
}

static void begin_staging(const char *folder)
{
    char path[PATH_ROOM], longest[PATH_ROOM];
    path_in(folder, "new.XXXXXX", path);
    path_in(path, CERTIFICATE, longest); /* no name in it is too long */
    if (!mkdtemp(path))
        fail(folder, strerror(errno));
    strcpy(staging, path);
    atexit(clear_staging); /* whatever ends the program */
}

static void write_certificate(const char *folder, const struct certificate *c)
{
    char path[PATH_ROOM], sum[65];
    sum_of(c, sum);
    path_in(folder, CERTIFICATE, path);
    FILE *f = fopen(path, "wb");
    if (!f)
        fail(path, strerror(errno));
    fprintf(f, "%s\n", first_line);
    for (size_t k = 0; k < c->count; k++)
        fprintf(f, "%s: %s\n", c->lines[k].name, c->lines[k].is.words);
    fprintf(f, "end: sha256 %s\n", sum);
    if (ferror(f) || fclose(f) != 0)
        fail(path, strerror(errno));
}

/* ends the program unless each set that is read back has the bits of the one that was written: what was said of that one is true of it */
static void must_be_same(const struct delivery *d, const struct delivery *back)
{
    for (size_t k = 0; k < 3; k++) {
        const struct set *was = &d->sets[k], *is = &back->sets[k];
        size_t place[2] = {0, 0};
        double numbers[2] = {0.0, 0.0};
        if (!was->numbers)
            continue;
        begin_step("comparison of", set_name(was));
        uint8_t answer = gf_same_set(was->numbers, was->count, is->numbers, is->count, place, 2, numbers, 2);
        end_step();
        if (answer != GF_ALIKE)
            fail(set_name(was), "what was written cannot be read back as it was");
    }
}

/* the lines of the files in the staging folder, which are read back */
static void certify(const struct delivery *d, struct certificate *c)
{
    struct delivery back;
    time_t now = time(NULL);
    struct tm utc;
    snprintf(verdict_of(c, "%s", "library")->words, WORDS, "%s", gf_version());
    strftime(verdict_of(c, "%s", "date")->words, WORDS, "%Y-%m-%dT%H:%M:%SZ", gmtime_r(&now, &utc));
    for (size_t k = 0; k < DELIVERED; k++)
        if (line_of(c, "%s", delivered[k]))
            say_file(staging, delivered[k], NULL, verdict_of(c, "%s", delivered[k])->words);
    read_delivery(staging, &back);
    must_be_same(d, &back);
    free_delivery(&back);
}

/* gives the files their places; nothing is moved if a place cannot be taken. A file of a former delivery that this one has not is removed. */
static void take_places(const char *folder)
{
    char new[PATH_ROOM], path[PATH_ROOM];
    struct stat is;
    for (size_t k = 0; k <= DELIVERED; k++) {
        path_in(folder, file_name(k), path);
        if (lstat(path, &is) == 0 && S_ISDIR(is.st_mode))
            fail(path, strerror(EISDIR));
    }
    for (size_t k = 0; k <= DELIVERED; k++) {
        path_in(staging, file_name(k), new);
        path_in(folder, file_name(k), path);
        if (optional(file_name(k)) && !there(staging, file_name(k))) {
            if (remove(path) == 0)
                printf("removed: %s, which this delivery has not\n", path);
            continue;
        }
        if (rename(new, path) != 0)
            fail(path, strerror(errno));
        printf("written: %s\n", path);
    }
}

void write_delivery(const char *from, const char *folder, const struct delivery *d, struct certificate *c)
{
    begin_staging(folder);
    int why = write_files(from, staging, d);
    if (why != 0)
        fail(folder, strerror(why));
    certify(d, c);
    write_certificate(staging, c);
    take_places(folder);
    clear_staging();
}

/* ---- reading */

/* the next line without its end; NULL if no whole line is left */
static char *take_line(char **at)
{
    char *line = *at, *end = strchr(line, '\n');
    if (!end)
        return NULL;
    *end = '\0';
    *at = end + 1;
    return line;
}

/* takes the words of the lines that were laid out; whether they were there */
static int parse_lines(char **at, struct certificate *c)
{
    for (size_t k = 0; k < c->count; k++) {
        struct line *l = &c->lines[k];
        size_t name = strlen(l->name);
        char *line = take_line(at);
        if (!line || strncmp(line, l->name, name) != 0 || strncmp(line + name, ": ", 2) != 0 || strlen(line + name + 2) >= WORDS)
            return 0;
        strcpy(l->is.words, line + name + 2);
    }
    return 1;
}

static const char *parse(char *at, struct certificate *c)
{
    char sum[65], *line = take_line(&at);
    if (!line || strcmp(line, first_line) != 0)
        return "it does not begin as a certificate of this kind";
    lay_out(c, strstr(at, "\noperations.txt: ") != NULL, strstr(at, "\nfc4.f64: ") != NULL);
    if (!parse_lines(&at, c))
        return "a line is missing, or is none of a certificate";
    line = take_line(&at);
    sum_of(c, sum);
    if (!line || strncmp(line, "end: sha256 ", 12) != 0 || strcmp(line + 12, sum) != 0 || *at)
        return "its lines are not those that it was written with: the checksum at its end is another";
    return NULL;
}

/* what is wrong with the certificate itself, or NULL */
static const char *read_certificate(const char *folder, struct certificate *c)
{
    static char text[MOST_LINES * (WORDS + 40)];
    char path[PATH_ROOM];
    long long bytes = 0;
    FILE *f = NULL;
    path_in(folder, CERTIFICATE, path);
    const char *why = open_to_read(path, &f, &bytes);
    if (why)
        return why;
    size_t n = fread(text, 1, sizeof text - 1, f);
    int failed = ferror(f);
    fclose(f);
    if (failed || n == sizeof text - 1 || memchr(text, '\0', n))
        return "it is no certificate";
    text[n] = '\0';
    return parse(text, c);
}

/* ---- holding one against the other; 1 if it does not hold */

static size_t say(const char *word, const char *name, const char *words)
{
    printf("%-16s%s: %s\n", word, name, words);
    fflush(stdout);
    return word[0] == 'D';
}

/* a line that was worked out again */
static size_t hold(const struct line *found, const char *stated)
{
    if (strcmp(found->is.words, stated) != 0) {
        printf("DOES NOT HOLD   %s: %s; the certificate has: %s\n", found->name, found->is.words, stated);
        fflush(stdout);
        return 1;
    }
    if (!found->is.fault)
        return say(strcmp(stated, NO_OPERATIONS) == 0 ? "STATED ONLY" : "holds", found->name, stated);
    printf("DOES NOT HOLD   %s: it is so, and it is a fault: %s\n", found->name, stated);
    fflush(stdout);
    return 1;
}

/* a line that nothing in the delivery tells; it must not state a fault all the same */
static size_t hold_stated(const struct line *l, int measure, const struct bounds *b)
{
    if (strcmp(l->name, "library") == 0 && strcmp(l->is.words, gf_version()) == 0)
        return say("holds", l->name, l->is.words);
    if (strcmp(l->name, "library") == 0) {
        printf("STATED ONLY     %s: %s wrote it, %s looks at it\n", l->name, l->is.words, gf_version());
        return 0;
    }
    if (measure == MEASURES || strcmp(l->is.words, NO_OPERATIONS) == 0 || !states_fault(l->is.words, b->at_most[measure]))
        return say("STATED ONLY", l->name, l->is.words);
    printf("DOES NOT HOLD   %s: it states a fault: %s\n", l->name, l->is.words);
    return 1;
}

/* holds the files against their lines; whether each has as many bytes as stated, so that the delivery can be read whole */
static int hold_files(const char *folder, struct certificate *stated, size_t *wrong)
{
    int fit = 1;
    for (size_t k = 0; k < DELIVERED; k++) {
        struct line found, *l = line_of(stated, "%s", delivered[k]);
        if (!l && !there(folder, delivered[k]))
            continue;
        if (!l) {
            *wrong += say("DOES NOT HOLD", delivered[k], "it is there, and the certificate does not name it");
            fit = 0;
            continue;
        }
        found = *l;
        say_file(folder, delivered[k], l->is.words, found.is.words);
        found.is.fault = strncmp(found.is.words, UNREADABLE, strlen(UNREADABLE)) == 0;
        fit &= !found.is.fault && strncmp(found.is.words, l->is.words, strcspn(l->is.words, ",") + 1) == 0;
        *wrong += hold(&found, l->is.words);
    }
    return fit;
}

/* the lines of a certificate that follow those of the files */
static void hold_lines(const struct certificate *stated, const struct certificate *found, const struct bounds *b, size_t *wrong)
{
    for (size_t k = 0; k < stated->count; k++) {
        const struct line *l = &stated->lines[k];
        int measure = stated_by(l->name);
        if (k < 4 || line_is_file(l->name))
            continue;
        *wrong += measure >= 0 ? hold_stated(l, measure, b) : hold(&found->lines[k], l->is.words);
    }
}

/* which set of the roll has this certificate, and whether it stands now */
static size_t hold_roll(const char *folder, const char *roll, const char *set)
{
    char words[WORDS], label[LABEL], path[PATH_ROOM], again[16];
    path_in(folder, CERTIFICATE, path);
    label_of(path, label, again);
    return say(standing(roll, label, set, words, WORDS) ? "holds" : "DOES NOT HOLD", "roll", words);
}

void verify_certificate(const char *folder, const char *roll, struct held *held)
{
    static struct certificate stated, found;
    struct delivery d;
    struct bounds b;
    size_t *wrong = &held->wrong;
    const char *why = read_certificate(folder, &stated);
    if (why) {
        *wrong += say("DOES NOT HOLD", CERTIFICATE, why);
        return;
    }
    say("holds", CERTIFICATE, "it is as it was written");
    for (size_t k = 0; k < 4; k++)
        *wrong += hold_stated(&stated.lines[k], MEASURES, NULL);
    if (roll)
        *wrong += hold_roll(folder, roll, verdict_of(&stated, "%s", "set")->words);
    if (!parse_bounds(verdict_of(&stated, "%s", "bounds")->words, &b)) {
        *wrong += say("DOES NOT HOLD", "bounds", "they are no bounds of a certificate, or one judges nothing");
        return;
    }
    held->wide = wider(&b);
    if (!hold_files(folder, &stated, wrong)) {
        printf("                a file is missing, longer or shorter than it was, or not named: nothing more is looked at\n");
        return;
    }
    found = stated;
    read_delivery(folder, &d);
    say_cell(&d, &found);
    for (size_t k = 0; k < 3; k++)
        if (d.sets[k].numbers)
            say_set(&d, &d.sets[k], &b, &found);
    hold_lines(&stated, &found, &b, wrong);
    free_delivery(&d);
}
