/* The records of a roll, and the certificates that their labels name. */
#ifndef RECORDS_H
#define RECORDS_H

#include "delivery.h"

#define MOST 65536 /* bytes of a roll */
#define RECORDS 1000

struct record {
    size_t kind, set, earlier, label, length;
};

/* all bytes of an open file, at most one more than a roll has */
size_t read_bytes(int fd, const char *path, uint8_t *bytes);
size_t read_file(const char *path, uint8_t *bytes);

/* all records of the first n bytes; GF_ROLL_END, or GF_NOT_A_ROLL */
uint8_t read_records(const uint8_t *bytes, size_t n, struct record records[RECORDS], size_t *count);

/* the label of the record that delivers a certificate, "sha256 " and 64 digits; `set` takes the set number that it states, or "not stated" */
#define LABEL 80
void label_of(const char *path, char label[LABEL], char set[16]);

/* which set of the roll was delivered with this label, in words, and whether it stands now and has the number that is stated */
int standing(const char *roll, const char *label, const char *set, char *words, size_t size);

#endif
