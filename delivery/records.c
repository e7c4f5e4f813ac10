#include "records.h"
#include "gullyfork.h"
#include "sha256.h"

#include <errno.h>
#include <fcntl.h>
#include <stdlib.h>
#include <string.h>
#include <unistd.h>

size_t read_bytes(int fd, const char *path, uint8_t *bytes)
{
    size_t n = 0;
    while (n < MOST + 1) {
        ssize_t k = read(fd, bytes + n, MOST + 1 - n);
        if (k < 0 && errno != EINTR)
            fail(path, strerror(errno));
        if (k == 0)
            break;
        n += k > 0 ? (size_t)k : 0;
    }
    return n;
}

size_t read_file(const char *path, uint8_t *bytes)
{
    int fd = open(path, O_RDONLY);
    if (fd < 0)
        fail(path, strerror(errno));
    size_t n = read_bytes(fd, path, bytes);
    close(fd);
    return n;
}

uint8_t read_records(const uint8_t *bytes, size_t n, struct record records[RECORDS], size_t *count)
{
    size_t at = 0, s[6];
    uint8_t answer;
    *count = 0;
    while ((answer = gf_read_roll(bytes, MOST + 1, n, at, s, 6)) == GF_DONE) {
        records[(*count)++] = (struct record){s[0], s[1], s[2], s[3], s[4]};
        at = s[5];
    }
    return answer;
}

/* ---- certificates */

void label_of(const char *path, char label[LABEL], char set[16])
{
    static char text[1u << 19u];
    static const char first[] = "gullyfork certificate ";
    long long bytes = 0;
    FILE *f = NULL;
    struct sha s;
    char sum[65];
    const char *why = open_to_read(path, &f, &bytes);
    if (why)
        fail(path, why);
    size_t n = fread(text, 1, sizeof text - 1, f);
    fclose(f);
    text[n] = '\0';
    const char *line = strstr(text, "\nset: ");
    if (n == sizeof text - 1 || strncmp(text, first, strlen(first)) != 0 || !line || strcspn(line + 6, "\n") >= 16)
        fail(path, "it is no certificate of a delivery");
    snprintf(set, 16, "%.*s", (int)strcspn(line + 6, "\n"), line + 6);
    sha_begin(&s);
    sha_add(&s, text, n);
    sha_end(&s, sum);
    snprintf(label, LABEL, "sha256 %s", sum);
}

/* the last record that delivers a set with this label, NULL if there is none */
static const struct record *delivered_with(const char *label, const uint8_t *bytes, const struct record *records, size_t count)
{
    for (size_t k = count; k-- > 0;)
        if (records[k].kind != 3 && records[k].length == strlen(label) && memcmp(bytes + records[k].label, label, records[k].length) == 0)
            return &records[k];
    return NULL;
}

int standing(const char *roll, const char *label, const char *set, char *words, size_t size)
{
    static uint8_t bytes[MOST + 1];
    static struct record records[RECORDS];
    size_t n = read_file(roll, bytes), count, use[1] = {0};
    if (read_records(bytes, n, records, &count) != GF_ROLL_END)
        return snprintf(words, size, "%s is not a roll", roll), 0;
    const struct record *r = delivered_with(label, bytes, records, count);
    if (!r)
        return snprintf(words, size, "no record of %s delivers this certificate", roll), 0;
    uint8_t answer = gf_stands_now(bytes, sizeof bytes, n, (uint32_t)r->set, use, 1);
    size_t at = (size_t)snprintf(words, size, "set %zu of %s, ", r->set, roll);
    if (answer == GF_NOT_LAWFUL)
        snprintf(words + at, size - at, "and no standing can be told: its records do not allow each other");
    else if (answer == GF_SET_RETIRED)
        snprintf(words + at, size - at, "which is retired");
    else if (answer != GF_DONE || use[0] != r->set)
        snprintf(words + at, size - at, "which was replaced: use %zu", use[0]);
    else if (strcmp(set, "not stated") != 0 && strtoull(set, NULL, 10) != r->set)
        snprintf(words + at, size - at, "and the certificate states set %s", set);
    else
        return snprintf(words + at, size - at, "which stands now"), 1;
    return 0;
}
