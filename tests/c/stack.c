/*
 * How much stack each call takes: run on a stack that was painted before, from the lowest byte whose paint is gone. With the name of
 * docs/GUIDE.md as argument it holds each call against the table there, and exits with 0 only if every call of gullyfork.h has a line, takes
 * no more than it says, and not less by more than a tenth and 1 kB. Files named after it have to say the largest numbers of the table.
 * Without a name it prints the numbers.
 */
#define _XOPEN_SOURCE 700
#include "calls.h"

#include <stdio.h>
#include <ucontext.h>

enum { STACK = 1 << 20, PAINT = 0xA5, NAMES = 96 };

static ucontext_t caller, callee;
static void (*todo)(void);
static uint8_t stack[STACK];

static void run_it(void)
{
    todo();
}

/* bytes from the top of the painted stack to the lowest one that was written */
static size_t depth_of(void (*f)(void))
{
    size_t low = 0;
    memset(stack, PAINT, sizeof stack);
    todo = f;
    getcontext(&callee);
    callee.uc_stack.ss_sp = stack, callee.uc_stack.ss_size = sizeof stack, callee.uc_link = &caller;
    makecontext(&callee, run_it, 0);
    swapcontext(&caller, &callee);
    while (low < sizeof stack && stack[low] == PAINT)
        low++;
    return sizeof stack - low;
}

static void nothing(void)
{
}

/* ---- the calls: those of calls.h, the rolls, and the three on one number ---- */

static const struct call *call;
static struct input *input;

static uint8_t bytes[65536];
static size_t count, slots[6], one_slot[1];
static volatile double number = 2.0;
static volatile uint8_t answer;

static void plain(void) { answer = call->plain(input); }
static void is_roll(void) { answer = !gf_is_roll(bytes, sizeof bytes, count); }
static void is_roll_former(void) { answer = !gf_is_roll_former(bytes, sizeof bytes, count); }
static void read_roll(void) { answer = gf_read_roll(bytes, sizeof bytes, count, 0, slots, 6); }
static void read_roll_former(void) { answer = gf_read_roll_former(bytes, sizeof bytes, count, 0, slots, 6); }
static void append_roll(void) { answer = gf_append_roll(bytes, sizeof bytes, count, 1, 1001, 0, bytes, 0, one_slot, 1); }
static void stands_now(void) { answer = gf_stands_now(bytes, sizeof bytes, count, 1, one_slot, 1); }
static void retire_all(void) { answer = gf_retire_all(bytes, sizeof bytes, count, 1, one_slot, 1); }
static void nint(void) { answer = gf_nint(number) != 2; }
static void round_(void) { answer = gf_round(number) != 2.0; }
static void sqrt_(void) { answer = gf_sqrt(number) > 1.5; }
static void words(void) { answer = gf_words(7)[0] == 0; }
static void version(void) { answer = gf_version()[0] == 0; }

static const struct {
    const char *name;
    void (*f)(void);
} others[] = {
    {"is_roll", is_roll}, {"is_roll_former", is_roll_former}, {"read_roll", read_roll}, {"read_roll_former", read_roll_former},
    {"append_roll", append_roll}, {"stands_now", stands_now}, {"retire_all", retire_all}, {"nint", nint}, {"round", round_},
    {"sqrt", sqrt_}, {"words", words}, {"version", version},
};

/* a chain of 499 sets, so that their retirements fit */
static void fill_roll(void)
{
    memset(bytes, 0, sizeof bytes);
    count = 8;
    for (uint32_t set = 1; set < 500; set++)
        if (gf_append_roll(bytes, sizeof bytes, count, set == 1 ? 1 : 2, set, set - 1, bytes, 0, &count, 1) != GF_DONE)
            puts("the roll is not made"), exit(1);
}

/* ---- measured, and as the table says ---- */

static struct measured {
    const char *name;
    size_t bytes, said;
} measured[NAMES];
static size_t number_of;

/* once more for the same name keeps the larger number */
static void measure(const char *name, void (*f)(void), size_t base)
{
    struct measured *m = &measured[number_of > 0 && measured[number_of - 1].name == name ? number_of - 1 : number_of++];
    fill_roll();
    f(); /* so that what is bound at the first call is bound */
    fill_roll();
    const size_t depth = depth_of(f) - base;
    if (GF_REFUSED(answer))
        printf("%s is refused: %s\n", name, gf_words(answer)), exit(1);
    m->name = name;
    m->bytes = depth > m->bytes ? depth : m->bytes;
}

/* the largest input that is quickly done; of matching 1,024 positions, since the chains go as deep as there are positions */
static const struct size sizes[] = {{0, 0, 0, false}, {0, 0, 0, false}, {64, 48, 1024, true}, {16, 12, 4, false}, {6, 6, 4, false}};

static void measure_all(void)
{
    const size_t base = depth_of(nothing);
    for (size_t k = 0; k < CALLS; k++) {
        struct input r = input_of(&calls[k], sizes[calls[k].order]);
        call = &calls[k], input = &r;
        measure(call->name, plain, base);
        memset(r.set, 0, r.set_len * sizeof *r.set), memset(r.full, 0, r.full_len * sizeof *r.full); /* alike: an audit goes to the end */
        measure(call->name, plain, base);
        give_back(&r);
    }
    for (size_t k = 0; k < sizeof others / sizeof *others; k++)
        measure(others[k].name, others[k].f, base);
}

/* lines "| `a`, `b` | 12 |": every name in quotes is said to take so many kB of 1,000 bytes */
static void read_table(FILE *guide)
{
    static char line[100000];
    bool inside = false;
    while (fgets(line, sizeof line, guide) != NULL) {
        if (strncmp(line, "## ", 3) == 0)
            inside = strcmp(line, "## Threads and stack\n") == 0;
        if (!inside || line[0] != '|')
            continue;
        const char *last = line + strlen(line) - 1;
        while (last > line && *last != '|')
            last--;
        while (last > line && *--last != '|')
            ;
        for (size_t k = 0; k < number_of; k++) {
            char quoted[80];
            snprintf(quoted, sizeof quoted, "`%s`", measured[k].name);
            if (strstr(line, quoted) != NULL)
                measured[k].said = strtoul(last + 1, NULL, 10) * 1000;
        }
    }
}

static int held_against(const char *name)
{
    int failures = 0;
    FILE *guide = fopen(name, "r");
    if (guide == NULL)
        return printf("%s cannot be read\n", name), 1;
    read_table(guide);
    fclose(guide);
    for (size_t k = 0; k < number_of; k++) {
        const struct measured *m = &measured[k];
        if (m->bytes > m->said || m->said > m->bytes + m->bytes / 10 + 1000)
            failures++, printf("%s: %zu bytes of stack, %s says %zu\n", m->name, m->bytes, name, m->said);
    }
    printf("stack: %zu calls, %d not as the table says\n", number_of, failures);
    return failures != 0;
}

/* the file says of all calls but gf_find_permutation "at most .. kB", and of that one ".. kB at 1,024 positions" */
static int says_most(const char *name)
{
    static char text[200000];
    char most[40], deepest[60];
    size_t largest = 0, found = 0, length;
    for (size_t k = 0; k < number_of; k++) {
        const bool search = strcmp(measured[k].name, "find_permutation") == 0;
        found = search ? measured[k].said : found;
        largest = !search && measured[k].said > largest ? measured[k].said : largest;
    }
    snprintf(most, sizeof most, "at most %zu kB", largest / 1000);
    snprintf(deepest, sizeof deepest, "%zu kB at 1,024 positions", found / 1000);
    FILE *file = fopen(name, "r");
    if (file == NULL)
        return printf("%s cannot be read\n", name), 1;
    length = fread(text, 1, sizeof text - 1, file);
    text[length] = 0;
    fclose(file);
    if (strstr(text, most) == NULL || strstr(text, deepest) == NULL)
        return printf("%s does not say \"%s\" and \"%s\"\n", name, most, deepest), 1;
    return 0;
}

int main(int argc, char **argv)
{
    int failures = 0;
    measure_all();
    if (argc > 1)
        failures = held_against(argv[1]);
    for (int k = 2; k < argc; k++)
        failures += says_most(argv[k]);
    if (argc > 1)
        return failures != 0;
    for (size_t k = 0; k < number_of; k++)
        printf("%7zu %s\n", measured[k].bytes, measured[k].name);
    return 0;
}
