/*
 * The dispatch desk's roll: lists one, begins one, appends to one, retires a set everywhere, brings an older one over. `roll help` says how,
 * and docs/DELIVERIES.md has the clerk's page. The Python package has the same command, with the same words (bindings/python/src/gullyfork/_desk.py).
 *
 * No record is written that another one does not allow (gf_stands_now refuses such a roll whole) unless the clerk says --anyway; a file that is
 * not a roll is named and left alone; how a roll is replaced is alone.c's. The button shows what it would append, and asks first. An older
 * roll, whose trailer lists the starts in another order than rising, is read by `renew` alone.
 */
#include "alone.h"
#include "gullyfork.h"
#include "records.h"

#include <errno.h>
#include <inttypes.h>
#include <signal.h>
#include <stdlib.h>
#include <string.h>
#include <unistd.h>

#define WRONG_USAGE 2
#define NOT_AGREED 3

static const char *const kinds[] = {"", "delivery", "replacement", "retirement"};

/* ---- what the command says */

static void say(FILE *out)
{
    fputs("usage: roll list FILE [SET]\n"
          "       roll new FILE\n"
          "       roll append [--anyway] FILE delivery SET [LABEL | --certificate CERTIFICATE]\n"
          "       roll append [--anyway] FILE replacement SET EARLIER [LABEL | --certificate CERTIFICATE]\n"
          "       roll append [--anyway] FILE retirement SET [LABEL]\n"
          "       roll retire [--yes] FILE SET\n"
          "       roll renew [--anyway] OLD NEW\n"
          "       roll help\n", out);
}

static int usage(void)
{
    say(stderr);
    return WRONG_USAGE;
}

/* what was printed has arrived */
static int told(int status)
{
    if (fflush(stdout) != 0 || ferror(stdout))
        fail("standard output", strerror(errno));
    return status;
}

static int help(void)
{
    say(stdout);
    puts("list    the records, or which set stands now for SET\n"
         "new     an empty roll, in a file that is not there yet\n"
         "append  a record at the end; --anyway: even one that the others do not allow, after which no standing can be told;\n"
         "        --certificate: the label is the checksum of a delivery's certificate.txt, by which verify --roll finds the set\n"
         "retire  SET and every set linked to it by replacements; --yes: without asking\n"
         "renew   the records of an older roll, in a file that is not there yet\n"
         "A word that begins with - is an option; after -- none is.\n"
         "status  0 done, or a set to use; 70 the set is unknown; 71 retired; 1 a file cannot be read or written;\n"
         "        2 wrong usage; 3 not agreed to; 7 not a roll, or a label above 255 bytes; 8 the roll is full;\n"
         "        9 a record that the others do not allow; 11 the set to retire was never delivered.");
    return told(0);
}

static int not_a_roll(const char *path, const uint8_t *bytes, size_t n)
{
    if (gf_is_roll_former(bytes, n, n))
        fprintf(stderr, "roll: %s: an older roll, whose trailer does not list the starts in rising order (refusal 7); left as it is:"
                " roll renew %s NEW brings its records over to a new file\n", path, path);
    else
        fprintf(stderr, "roll: %s: not a roll (refusal 7); left as it is\n", path);
    return GF_NOT_A_ROLL;
}

static int full(const char *path)
{
    fprintf(stderr, "roll: %s: full (refusal 8): a roll has at most 1,000 records and 65,536 bytes; left as it is\n", path);
    return GF_NO_ROOM;
}

/* ---- records */

/* how many bytes the character of UTF-8 at s has; 0 where there is none, or one that would move a terminal's cursor */
static size_t shown(const uint8_t *s, size_t n)
{
    static const uint32_t least[] = {0, 0, 0xa0, 0x800, 0x10000}; /* from 0x80 to 0x9f stand controls */
    if (s[0] < 0x80)
        return s[0] >= 32 && s[0] != 127;
    size_t k = s[0] >= 0xf0 ? 4 : s[0] >= 0xe0 ? 3 : 2;
    if (s[0] < 0xc2 || s[0] > 0xf4 || k > n)
        return 0;
    uint32_t c = s[0] & (0xffu >> (k + 1));
    for (size_t i = 1; i < k; i++) {
        if ((s[i] & 0xc0) != 0x80)
            return 0;
        c = c << 6 | (s[i] & 0x3f);
    }
    return c >= least[k] && c <= 0x10ffff && (c < 0xd800 || c > 0xdfff) ? k : 0;
}

static void print_label(FILE *out, const uint8_t *label, size_t n)
{
    fputc('"', out);
    for (size_t i = 0, k; i < n; i += k ? k : 1) {
        k = shown(label + i, n - i);
        if (k == 0)
            fprintf(out, "\\x%02x", label[i]);
        else if (label[i] == '"' || label[i] == '\\')
            fprintf(out, "\\%c", label[i]);
        else
            fwrite(label + i, 1, k, out);
    }
    fputc('"', out);
}

/* replacement 8 of 7 "MgO" */
static void print_record(FILE *out, const uint8_t *bytes, const struct record *r)
{
    fprintf(out, "%s %zu", kinds[r->kind], r->set);
    if (r->kind == 2)
        fprintf(out, " of %zu", r->earlier);
    if (r->length > 0)
        fputc(' ', out), print_label(out, bytes + r->label, r->length);
}

static int delivered_before(const struct record *records, size_t k, size_t set)
{
    while (k-- > 0)
        if (records[k].kind != 3 && records[k].set == set)
            return 1;
    return 0;
}

static int replaced_before(const struct record *records, size_t k, size_t set)
{
    while (k-- > 0)
        if (records[k].kind == 2 && records[k].earlier == set)
            return 1;
    return 0;
}

/* says what the records before record k do not allow of it; 0 if they allow it */
static int blame(const uint8_t *bytes, const struct record *records, size_t k)
{
    const struct record *r = &records[k];
    const char *does, *which;
    size_t set = r->kind == 2 ? r->earlier : r->set;
    if (r->kind != 1 && !delivered_before(records, k, set))
        does = "names", which = "no earlier record delivers";
    else if (r->kind == 2 && replaced_before(records, k, set))
        does = "replaces", which = "was replaced before";
    else if (r->kind != 3 && delivered_before(records, k, r->set))
        does = "delivers", which = "was delivered before", set = r->set;
    else
        return 0;
    print_record(stderr, bytes, r);
    fprintf(stderr, ", line %zu of the list, %s set %zu, which %s", k + 1, does, set, which);
    return 1;
}

/* names the first record that the others do not allow; that there is one is the library's verdict */
static int not_lawful(const char *path, const uint8_t *bytes, size_t n, const char *so)
{
    static struct record records[RECORDS];
    size_t count, k = 0;
    read_records(bytes, n, records, &count);
    fprintf(stderr, "roll: %s: ", path);
    while (k < count && !blame(bytes, records, k))
        k++;
    fprintf(stderr, " (refusal 9)%s\n", so);
    return GF_NOT_LAWFUL;
}

static int lawful(const uint8_t *bytes, size_t n)
{
    size_t use[1];
    return gf_stands_now(bytes, MOST + 1, n, 1, use, 1) != GF_NOT_LAWFUL;
}

#define NOTHING_WRITTEN ": nothing was written; with --anyway it is, and no standing can be told from then on"
#define NO_STANDING ": no standing can be told"

/* ---- reading */

static int list(const char *path)
{
    static uint8_t bytes[MOST + 1];
    static struct record records[RECORDS];
    size_t n = read_file(path, bytes), count;
    if (read_records(bytes, n, records, &count) != GF_ROLL_END)
        return not_a_roll(path, bytes, n);
    for (size_t k = 0; k < count; k++)
        print_record(stdout, bytes, &records[k]), putchar('\n');
    printf("%zu record%s, %zu bytes\n", count, count == 1 ? "" : "s", n);
    return told(0);
}

/* "41: replaced, use 57" */
static int ask(const char *path, uint32_t set)
{
    static uint8_t bytes[MOST + 1];
    size_t n = read_file(path, bytes), use_set[1];
    uint8_t answer = gf_stands_now(bytes, sizeof bytes, n, set, use_set, 1);
    if (answer == GF_NOT_A_ROLL)
        return not_a_roll(path, bytes, n);
    if (answer == GF_NOT_LAWFUL)
        return not_lawful(path, bytes, n, NO_STANDING);
    printf("%" PRIu32 ": ", set);
    if (answer == GF_SET_UNKNOWN)
        puts("unknown");
    else if (answer == GF_SET_RETIRED)
        puts("retired");
    else if (use_set[0] == set)
        puts("current");
    else
        printf("replaced, use %zu\n", use_set[0]);
    return told(answer);
}

/* ---- writing */

static int new(const char *path)
{
    static const uint8_t empty[8];
    begin(path, empty, sizeof empty);
    return 0;
}

/* the records of an older roll, read by the former rule and appended anew; the new roll has as many bytes as the older one */
static int renew(const char *path, const char *new_path, int anyway)
{
    static uint8_t bytes[MOST + 1], new_bytes[MOST + 1]; /* eight zero bytes are an empty roll */
    size_t n = read_file(path, bytes), at = 0, slots[6], count[1] = {8};
    uint8_t answer;
    while ((answer = gf_read_roll_former(bytes, sizeof bytes, n, at, slots, 6)) == GF_DONE) {
        if (gf_append_roll(new_bytes, sizeof new_bytes, count[0], (uint8_t)slots[0], (uint32_t)slots[1], (uint32_t)slots[2],
                           bytes + slots[3], slots[4], count, 1) != GF_DONE)
            fail(path, "a record of it cannot be appended");
        at = slots[5];
    }
    if (answer != GF_ROLL_END)
        return not_a_roll(path, bytes, n);
    if (!anyway && !lawful(new_bytes, count[0]))
        return not_lawful(path, new_bytes, count[0], NOTHING_WRITTEN);
    begin(new_path, new_bytes, count[0]);
    return 0;
}

static int append(const char *named, const struct record *r, const char *label, int anyway)
{
    static uint8_t bytes[MOST + 1];
    static struct alone file;
    hold(&file, named);
    size_t n = read_bytes(file.fd, named, bytes), count[1];
    if (!gf_is_roll(bytes, sizeof bytes, n))
        return not_a_roll(named, bytes, n);
    uint8_t answer = gf_append_roll(bytes, sizeof bytes, n, (uint8_t)r->kind, (uint32_t)r->set, (uint32_t)r->earlier, (const uint8_t *)label,
                                    strlen(label), count, 1);
    if (answer == GF_NO_ROOM)
        return full(named);
    if (answer != GF_DONE) {
        fprintf(stderr, "roll: %s: a label has at most 255 bytes (refusal 7); left as it is\n", named);
        return answer;
    }
    if (!anyway && !lawful(bytes, count[0]))
        return not_lawful(named, bytes, count[0], NOTHING_WRITTEN);
    replace(&file, bytes, count[0]);
    release(&file);
    return 0;
}

/* ---- the button */

/* the roll with the retirements; how many bytes it has then, or what is said where there is none */
static int press(const char *named, uint8_t *bytes, size_t n, uint32_t set, size_t *count)
{
    uint8_t answer = gf_retire_all(bytes, MOST + 1, n, set, count, 1);
    if (answer == GF_NOT_A_ROLL)
        return not_a_roll(named, bytes, n);
    if (answer == GF_NOT_LAWFUL)
        return not_lawful(named, bytes, n, NO_STANDING);
    if (answer == GF_NO_ROOM)
        return full(named);
    if (answer == GF_UNKNOWN_SET)
        fprintf(stderr, "roll: %s: set %" PRIu32 " was never delivered (refusal 11)\n", named, set);
    return answer;
}

/* the retirements that stand at the end of the new roll */
static void show(const char *named, const uint8_t *bytes, size_t n, size_t more)
{
    static struct record records[RECORDS];
    size_t count;
    read_records(bytes, n, records, &count);
    printf("%s: %zu retirement%s to append:", named, more, more == 1 ? "" : "s");
    for (size_t k = count - more; k < count; k++)
        printf(" %zu", records[k].set);
    putchar('\n');
}

static int agreed(void)
{
    fputs("append? [y/N] ", stdout);
    fflush(stdout);
    int first = getchar();
    if (first != 'y' && first != 'Y')
        puts("left as it is");
    return first == 'y' || first == 'Y';
}

static int retire(const char *named, uint32_t set, int yes)
{
    static uint8_t seen[MOST + 1], now[MOST + 1], bytes[MOST + 1];
    static struct alone file;
    hold(&file, named);
    size_t n = read_bytes(file.fd, named, seen), count[1];
    memcpy(bytes, seen, sizeof bytes);
    int answer = press(named, bytes, n, set, count);
    if (answer != GF_DONE)
        return answer;
    if (count[0] == n) {
        printf("%s: every set linked to %" PRIu32 " has its retirement; nothing to append\n", named, set);
        return told(0);
    }
    show(named, bytes, count[0], (count[0] - n) / 14);
    if (!yes) {
        release(&file); /* nobody waits for the answer; after it the roll has to be the one that was shown */
        if (!agreed())
            return told(NOT_AGREED);
        hold(&file, named);
        if (read_bytes(file.fd, named, now) != n || memcmp(now, seen, n) != 0) {
            fprintf(stderr, "roll: %s: changed meanwhile; left as it is\n", named);
            return NOT_AGREED;
        }
    }
    replace(&file, bytes, count[0]);
    release(&file);
    puts("appended");
    return told(0);
}

/* ---- the words of the command */

#define MOST_WORDS 6

struct request {
    int help, anyway, yes;
    const char *certificate; /* NULL: none was named */
    int count; /* of words; the first one is the command */
    const char *words[MOST_WORDS];
};

/* options and words; 0 where there are words or options too many */
static int sort_words(int argc, char **argv, struct request *q)
{
    int ended = 0;
    for (int k = 1; k < argc; k++) {
        const char *word = argv[k];
        int option = !ended && word[0] == '-' && word[1] != '\0';
        if (!option && q->count < MOST_WORDS)
            q->words[q->count++] = word;
        else if (option && strcmp(word, "--") == 0)
            ended = 1;
        else if (option && strcmp(word, "--help") == 0)
            q->help = 1;
        else if (option && strcmp(word, "--anyway") == 0)
            q->anyway = 1;
        else if (option && strcmp(word, "--yes") == 0)
            q->yes = 1;
        else if (option && strcmp(word, "--certificate") == 0 && !q->certificate && k + 1 < argc)
            q->certificate = argv[++k];
        else
            return 0;
    }
    return 1;
}

/* whether this command was asked for, with so many words after it */
static int asked(const struct request *q, const char *command, int least, int most)
{
    return q->count > least && q->count <= most + 1 && strcmp(q->words[0], command) == 0;
}

static uint32_t number(const char *word)
{
    char *end;
    errno = 0;
    unsigned long long n = strtoull(word, &end, 10);
    if (*word < '0' || *word > '9' || *end != '\0' || errno != 0 || n == 0 || n > UINT32_MAX) {
        fprintf(stderr, "roll: %s: not a set number (1 to 4,294,967,295)\n", word);
        exit(WRONG_USAGE);
    }
    return (uint32_t)n;
}

/* the label that names a certificate, whose set is the one to deliver */
static void certified(const char *path, size_t set, char label[LABEL])
{
    char stated[16], why[128];
    label_of(path, label, stated);
    if (strcmp(stated, "not stated") != 0 && strtoull(stated, NULL, 10) != set) {
        snprintf(why, sizeof why, "it is the certificate of set %s, not of %zu", stated, set);
        fail(path, why);
    }
}

static int append_words(const struct request *q)
{
    struct record r = {1, 0, 0, 0, 0};
    char sum[LABEL];
    while (r.kind <= 3 && strcmp(q->words[2], kinds[r.kind]) != 0)
        r.kind++;
    int label = r.kind == 2 ? 5 : 4;
    if (r.kind > 3 || q->count < label || q->count > label + 1)
        return usage();
    r.set = number(q->words[3]);
    if (r.kind == 2)
        r.earlier = number(q->words[4]);
    if (q->certificate && (r.kind == 3 || q->count > label))
        return usage();
    if (q->certificate)
        certified(q->certificate, r.set, sum);
    return append(q->words[1], &r, q->certificate ? sum : q->count > label ? q->words[label] : "", q->anyway);
}

int main(int argc, char **argv)
{
    struct request q = {0};
    fill_standard_streams();
    program = "roll";
    signal(SIGXFSZ, SIG_IGN); /* a file that may grow no further is an error in words */
    if (!sort_words(argc, argv, &q))
        return usage();
    if (q.help || asked(&q, "help", 0, 0))
        return help();
    if (asked(&q, "append", 3, 5) && !q.yes)
        return append_words(&q);
    if (q.certificate)
        return usage();
    if (asked(&q, "renew", 2, 2) && !q.yes)
        return renew(q.words[1], q.words[2], q.anyway);
    if (q.anyway)
        return usage();
    if (asked(&q, "retire", 2, 2))
        return retire(q.words[1], number(q.words[2]), q.yes);
    if (q.yes)
        return usage();
    if (asked(&q, "list", 1, 1))
        return list(q.words[1]);
    if (asked(&q, "list", 2, 2))
        return ask(q.words[1], number(q.words[2]));
    if (asked(&q, "new", 1, 1))
        return new(q.words[1]);
    return usage();
}
