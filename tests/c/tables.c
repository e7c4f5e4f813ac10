/*
 * gullyfork_tables.h beside the plain names: on good input and on refused input both give the same answer and leave the same memory, and
 * the text names the argument that is wrong. Each slice is tried one element short and one too long, each count above its limit, each index
 * table with an entry below and one above its range. Exits with 0 only if all holds.
 */
#include "calls.h"

#include <stdio.h>

static int checks, failures;

static void check_at(int line, const char *call, const char *what, bool holds, const char *text)
{
    checks++;
    if (!holds) {
        failures++;
        printf("tables.c:%d: %s: does not hold: %s [%s]\n", line, call, what, text);
    }
}

#define CHECK(call, condition, text) check_at(__LINE__, call, #condition, (condition), text)

static const struct size small = {4, 3, 5, false};

/* What is changed before the call: in the input at s->where; by how much, or to what. */
struct change {
    const struct stated *s;
    int64_t to; /* a length: one more or less; an entry: -1, or the count at the table's end */
};

static size_t *number(struct input *r, size_t where)
{
    return (size_t *)((char *)r + where);
}

static void changed(struct input *r, const struct change *c, char *expected, size_t size)
{
    const struct stated *s = c->s;
    if (s->refusal == 2) {
        size_t *length = number(r, s->where), stated = *length;
        *length += (size_t)c->to;
        snprintf(expected, size, "(%s: length %zu, stated ", s->name, *length);
        snprintf(expected + strlen(expected) + 1, size - strlen(expected) - 1, " = %zu)", stated); /* after the first text's end */
    } else if (s->refusal == 1) {
        *number(r, s->where) = s->limit + 1;
        snprintf(expected, size, "(%s: %zu, limit %zu)", s->name, s->limit + 1, s->limit);
    } else if (s->count == 0) {
        *number(r, s->where) = s->limit;
        snprintf(expected, size, "(%s: %zu, count %zu)", s->name, s->limit, s->limit);
    } else {
        int64_t *entries;
        memcpy(&entries, (char *)r + s->where, sizeof entries);
        const size_t count = *number(r, s->count), length = *number(r, s->where + sizeof entries);
        const size_t at = c->to < 0 ? 0 : length - 1;
        entries[at] = c->to < 0 ? -1 : (int64_t)count;
        snprintf(expected, size, "(%s: entry %zu is %" PRId64 ", count %zu)", s->name, at, entries[at], count);
    }
}

/* the call by both names, on input that is changed alike */
static void try(const struct call *call, const struct change *c, uint8_t refusal)
{
    struct input plain = input_of(call, small), layer = input_of(call, small), silent = input_of(call, small), before = input_of(call, small);
    struct gf_why why = {"left over"};
    char expected[400] = "";
    if (c != NULL)
        changed(&plain, c, expected, sizeof expected), changed(&layer, c, expected, sizeof expected),
            changed(&silent, c, expected, sizeof expected), changed(&before, c, expected, sizeof expected);
    const uint8_t answer = call->plain(&plain);
    CHECK(call->name, call->layer(&layer, &why) == answer, why.text);
    CHECK(call->name, call->layer(&silent, NULL) == answer, why.text);
    CHECK(call->name, same_memory(&plain, &layer) && same_memory(&plain, &silent), why.text);
    if (c == NULL) {
        CHECK(call->name, !GF_REFUSED(answer) && why.text[0] == 0, why.text);
    } else {
        const size_t length = strlen(call->name);
        CHECK(call->name, answer == refusal && same_memory(&plain, &before), why.text);
        CHECK(call->name, strncmp(why.text, call->name, length) == 0 && strncmp(why.text + length, ": refusal ", 10) == 0, why.text);
        CHECK(call->name, strstr(why.text, gf_words(answer)) != NULL && strstr(why.text, expected) != NULL, why.text);
        CHECK(call->name, refusal != 2 || strstr(why.text, expected + strlen(expected) + 1) != NULL, why.text);
    }
    give_back(&plain), give_back(&layer), give_back(&silent), give_back(&before);
}

static void every_argument(const struct call *call)
{
    try(call, NULL, 0);
    for (const struct stated *s = call->stated; s->name != NULL; s++) {
        const struct change less = {s, -1}, more = {s, 1};
        try(call, &less, s->refusal);
        try(call, &more, s->refusal);
    }
}

/* a row that does not send its atom to the representative is named; the other refusals have their words alone: a representative that is not
 * listed */
static void other_refusals(void)
{
    const char *words = "transpose_compact_fc3: refusal 6, the shift tables break a rule (nsym_list: entry 1 is 0, which sends atom 1 to 1, not to 0)";
    struct gf_why why;
    for (size_t k = 0; k < CALLS; k++) {
        const struct call *call = &calls[k];
        struct input r = input_of(call, small), before = input_of(call, small);
        r.nsym_list[1] = before.nsym_list[1] = 0, r.map_atoms[0] = before.map_atoms[0] = 4;
        r.block[0] = before.block[0] = 0.1;
        const bool none = strcmp(call->name, "same_set") == 0 || strcmp(call->name, "set_difference") == 0 || strcmp(call->name, "explain_shift_tables") == 0;
        const uint8_t answer = call->layer(&r, &why), tables = !none && call->compact;
        const uint8_t refusal = tables                                         ? GF_BAD_SHIFT_TABLES
                              : strcmp(call->name, "distribute_fc2") == 0    ? GF_BAD_REPRESENTATIVE
                              : strcmp(call->name, "replace_block_fc2") == 0 ? GF_OFF_GRID
                                                                             : 0;
        CHECK(call->name, refusal == 0 ? !GF_REFUSED(answer) : answer == refusal && same_memory(&r, &before), why.text);
        CHECK(call->name, refusal == 0 || (strstr(why.text, " (nsym_list: entry 1 is 0, ") != NULL) == (refusal == GF_BAD_SHIFT_TABLES), why.text);
        CHECK(call->name, strcmp(call->name, "transpose_compact_fc3") != 0 || strcmp(why.text, words) == 0, why.text);
        give_back(&r), give_back(&before);
    }
}

/* one text in full; an atom_list that is too long; the counts that lengths tell; the same slab twice */
static void texts(void)
{
    const int64_t p2s[] = {0}, s2pp[] = {0, 0}, nsym_list[] = {0, 1}, perms[] = {0, 1, 1, 0}, zeros[1025] = {0}, mapping[] = {0};
    const struct gf_indices p = GF_ARRAY(p2s), s = GF_ARRAY(s2pp), n = GF_ARRAY(nsym_list), all = GF_ARRAY(perms), none = {perms, 0};
    const struct gf_tables tables = gf_tables_of(p, s, n, all), empty = gf_tables_of(none, none, none, none);
    double numbers[108] = {0}, rotation[9] = {0};
    uint8_t done[4] = {0};
    int64_t work[1];
    struct gf_set fc3 = GF_ARRAY(numbers), less = {numbers, 107}, slabs = {numbers, 54};
    const struct gf_bytes d = GF_ARRAY(done);
    const struct gf_indices map = GF_ARRAY(mapping);
    const struct gf_numbers rot = GF_ARRAY(rotation);
    struct gf_why why;
    CHECK("tables", tables.n_satom == 2 && tables.n_patom == 1 && tables.num_trans == 2 && gft_check_shift_tables(&tables, &why) == GF_DONE, why.text);
    CHECK("tables", empty.num_trans == 0 && gft_check_shift_tables(&empty, &why) == GF_BAD_SHIFT_TABLES, why.text);
    CHECK("fc3", gft_set_permutation_symmetry_compact_fc3(fc3, &tables, d, &why) == GF_DONE && why.text[0] == 0, why.text);
    CHECK("fc3", GF_REFUSED(gft_set_permutation_symmetry_compact_fc3(less, &tables, d, &why)), why.text);
    CHECK("fc3", strcmp(why.text, "set_permutation_symmetry_compact_fc3: refusal 2, a slice is not as long as stated "
                                  "(fc3: length 107, stated n_patom * n_satom * n_satom * 27 = 108)") == 0, why.text);
    const struct gf_listed listed = {GF_ARRAY(zeros), {zeros, 1025}, {rotation, 9}, {zeros, 1}, {zeros, 1}, {zeros, 1}, 1, 1, 1};
    const struct gf_slots reverse = {work, 1};
    CHECK("list", gft_distribute_fc2(less, &listed, reverse, &why) == 1 && strstr(why.text, "(atom_list.length: 1025, limit 1024)") != NULL, why.text);
    CHECK("slab", gft_distribute_fc3(slabs, 1, 1, map, 1, rot, 2, &why) == GF_BAD_SLAB && strstr(why.text, "(") == NULL, why.text);
    CHECK("read", gf_numbers_of(fc3).at == numbers && gf_numbers_of(fc3).length == 108, "");
    CHECK("answers", !GF_REFUSED(0) && GF_REFUSED(1) && GF_REFUSED(63) && !GF_REFUSED(64) && !GF_REFUSED(255), "");
}

/* the words of each rule */
static void rules(void)
{
    const int64_t zeros[] = {0, 0, 0, 0}, in_order[] = {0, 1, 2}, to_zero[] = {0, 2, 1}, two_rows[] = {0, 1, 1}, reps[] = {0, 2}, rows[] = {0, 1, 0, 1};
    const int64_t circle[] = {0, 1, 2, 1, 2, 0, 2, 0, 1}, twice[] = {0, 1, 2, 1, 1, 0, 2, 0, 1}, no_null[] = {1, 2, 0, 2, 0, 1, 1, 2, 0};
    const int64_t swaps[] = {0, 1, 2, 1, 0, 2, 2, 1, 0}, pairs[] = {0, 1, 2, 3, 1, 0, 3, 2}, other_way[] = {1, 1, 0, 0}, moved[] = {0, 1, 1, 1};
    const struct {
        struct gf_indices p2s, s2pp, nsym_list, perms;
        const char *text;
    } broken[] = {
        {{zeros, 1}, {zeros, 3}, {two_rows, 3}, {circle, 6}, "(perms: 2 rows: n_satom 3 is not n_patom 1 x num_trans 2)"},
        {{zeros, 1}, {zeros, 3}, {to_zero, 3}, {twice, 9}, "(perms: row 1 sends atoms 0 and 1 to the same place)"},
        {{zeros, 1}, {zeros, 3}, {in_order, 3}, {no_null, 9}, "(perms: no row sends each atom to itself (the null shift))"},
        {{zeros, 1}, {zeros, 3}, {in_order, 3}, {swaps, 9}, "(perms: row 1 and then row 2 is no row: a shift is missing)"},
        {{zeros, 1}, {zeros, 2}, {rows, 2}, {rows, 4}, "(perms: rows 0 and 1 both send atom 0 to atom 0)"},
        {{reps, 2}, {other_way, 4}, {rows, 4}, {pairs, 8}, "(s2pp: entry 0 is 1, and p2s[0] is 0)"},
        {{reps, 2}, {moved, 4}, {rows, 4}, {pairs, 8}, "(s2pp: it is 0 for atom 0 and 1 for atom 1, where row 1 sends it)"},
        {{zeros, 1}, {zeros, 3}, {in_order, 3}, {circle, 9}, "(nsym_list: entry 1 is 1, which sends atom 1 to 2, not to 0)"},
    };
    for (size_t k = 0; k < sizeof broken / sizeof *broken; k++) {
        const struct gf_tables tables = gf_tables_of(broken[k].p2s, broken[k].s2pp, broken[k].nsym_list, broken[k].perms);
        struct gf_why why;
        size_t place[5];
        CHECK("rules", gft_check_shift_tables(&tables, &why) == GF_BAD_SHIFT_TABLES && strstr(why.text, broken[k].text) != NULL, why.text);
        CHECK("rules", gft_explain_shift_tables(&tables, place, &why) == GF_DONE && place[0] == GF_BAD_SHIFT_TABLES && place[1] == k && why.text[0] == 0, why.text);
    }
}

/* the roll: both names side by side, each on bytes of its own */
static void rolls(void)
{
    uint8_t bytes[64] = {0}, plain[64] = {0};
    struct gf_roll roll = {bytes, sizeof bytes, 8}, cut = {bytes, sizeof bytes, 7}, full;
    struct gf_record record = {{9, 9, 9, 9, 9, 9}};
    struct gf_why why;
    size_t count[] = {8}, slots[6], use_set[] = {9}, use_plain[] = {9};
    const uint8_t label[] = {'A'};
    CHECK("is_roll", gft_is_roll(&roll) && gf_is_roll(plain, sizeof plain, 8) && gft_is_roll_former(&roll) && !gft_is_roll(&cut) && !gft_is_roll_former(&cut), "");
    CHECK("append_roll", gft_append_roll(&roll, 1, 7, 0, label, 1, &why) == gf_append_roll(plain, sizeof plain, 8, 1, 7, 0, label, 1, count, 1), why.text);
    CHECK("append_roll", roll.count == 23 && count[0] == 23 && memcmp(bytes, plain, sizeof bytes) == 0 && why.text[0] == 0, why.text);
    CHECK("append_roll", gft_append_roll(&roll, 2, 8, 7, label, 0, &why) == 0 && gf_append_roll(plain, sizeof plain, 23, 2, 8, 7, label, 0, count, 1) == 0, why.text);
    CHECK("append_roll", gft_append_roll(&cut, 1, 9, 0, label, 0, &why) == GF_NOT_A_ROLL && cut.count == 7 && strncmp(why.text, "append_roll: refusal 7, the bytes", 32) == 0, why.text);
    CHECK("read_roll", gft_read_roll(&roll, 11, &record, &why) == gf_read_roll(plain, sizeof plain, count[0], 11, slots, 6), why.text);
    CHECK("read_roll", memcmp(record.slots, slots, sizeof slots) == 0 && record.slots[1] == 8 && record.slots[2] == 7, why.text);
    CHECK("read_roll", gft_read_roll(&roll, 21, &record, &why) == GF_ROLL_END && why.text[0] == 0 && gft_read_roll(&roll, 5, &record, &why) == GF_NOT_A_ROLL, why.text);
    CHECK("read_roll_former", gft_read_roll_former(&roll, 11, &record, NULL) == GF_DONE && gft_read_roll_former(&cut, 0, &record, &why) == GF_NOT_A_ROLL, why.text);
    CHECK("read_roll_former", record.slots[1] == 8 && strncmp(why.text, "read_roll_former: refusal 7", 27) == 0, why.text);
    CHECK("stands_now", gft_stands_now(&roll, 7, use_set, &why) == gf_stands_now(plain, sizeof plain, count[0], 7, use_plain, 1) && use_set[0] == 8 && use_plain[0] == 8, why.text);
    CHECK("stands_now", gft_stands_now(&roll, 5, use_set, &why) == GF_SET_UNKNOWN && why.text[0] == 0 && gft_stands_now(&cut, 7, use_set, &why) == GF_NOT_A_ROLL, why.text);
    CHECK("retire_all", gft_retire_all(&roll, 6, &why) == GF_UNKNOWN_SET && strncmp(why.text, "retire_all: refusal 11", 22) == 0, why.text);
    full = roll, full.length = roll.count;
    CHECK("retire_all", gft_retire_all(&full, 7, &why) == GF_NO_ROOM && full.count == count[0], why.text);
    roll.length = 80;
    uint8_t more[80] = {0}, more_plain[80] = {0};
    memcpy(more, bytes, sizeof bytes), memcpy(more_plain, plain, sizeof plain);
    roll.bytes = more;
    CHECK("retire_all", gft_retire_all(&roll, 7, &why) == GF_DONE && gf_retire_all(more_plain, 80, count[0], 7, count, 1) == GF_DONE, why.text);
    CHECK("retire_all", roll.count == count[0] && memcmp(more, more_plain, sizeof more) == 0, why.text);
}

int main(void)
{
    for (size_t k = 0; k < CALLS; k++)
        every_argument(&calls[k]);
    other_refusals();
    texts();
    rules();
    rolls();
    printf("%d of %d hold\n", checks - failures, checks);
    return failures != 0;
}
