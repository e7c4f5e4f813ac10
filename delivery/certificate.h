/* The certificate of a delivery: a text that says line by line what was delivered, for a client to hold the files against. */
#ifndef CERTIFICATE_H
#define CERTIFICATE_H

#include "bounds.h"
#include "delivery.h"
#include "verdicts.h"

#define CERTIFICATE "certificate.txt"
#define MOST_LINES 64

struct line {
    char name[32];
    struct verdict is;
};

struct certificate {
    size_t count;
    struct line lines[MOST_LINES];
};

/* the lines of a certificate of such a delivery, without words */
void lay_out(struct certificate *c, int operations, int fourth);

/* the line of a name, with the name of a set in it, as "drift %s after" "fc3"; NULL where there is none */
struct line *line_of(struct certificate *c, const char *form, const char *set);

/* bytes and checksum of a file; of one that has not as many bytes as stated (NULL: nothing is) the checksum is not worked out */
void say_file(const char *folder, const char *name, const char *stated, char *words);

/* the lines of the cell and the tables; of a set that a job was given; of a set that is delivered */
void say_cell(const struct delivery *d, struct certificate *c);
void say_before(const struct delivery *d, const struct set *s, const struct bounds *b, struct certificate *c);
void say_set(const struct delivery *d, const struct set *s, const struct bounds *b, struct certificate *c);

/*
 * Writes the delivery to `folder`, with its texts as they stand in the folder `from`, and the certificate, of which the lines of the files are
 * filled in: all files or none, each replaced as a whole.
 */
void write_delivery(const char *from, const char *folder, const struct delivery *d, struct certificate *c);

/* what is found of a certificate, as it goes: how many lines do not hold, and whether its bounds are wider than the defaults */
struct held {
    size_t wrong;
    int wide;
};

/* prints for each line of FOLDER/certificate.txt whether it holds of the files beside it. With a roll: also which set of the roll this delivery
   is, and whether it stands now. */
void verify_certificate(const char *folder, const char *roll, struct held *held);

#endif
