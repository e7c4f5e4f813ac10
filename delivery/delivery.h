/* A delivery on disk, read and written. What cannot be done ends the program with a message, unless it says otherwise. */
#ifndef DELIVERY_H
#define DELIVERY_H

#include <stddef.h>
#include <stdint.h>
#include <stdio.h>

#define ELEMENT 16 /* bytes of an element's name, its zero among them */

struct set {
    size_t order;    /* 2, 3 or 4 */
    int full;        /* whether its first atom is every atom; else one of the primitive cell */
    double *numbers; /* NULL: the delivery has no such set */
    size_t count;
};

struct delivery {
    size_t n_satom, n_patom, num_trans;
    double lattice[9];                       /* the vectors in the columns, as matching takes them */
    char (*elements)[ELEMENT];               /* n_satom */
    double *pos;                             /* n_satom * 3 */
    int64_t *p2s, *s2pp, *nsym_list, *perms; /* n_patom, n_satom, n_satom, num_trans * n_satom */
    size_t num_rot;                          /* 0: the delivery has no operations.txt */
    double *r_carts;                         /* num_rot * 9 */
    int64_t *operations;                     /* num_rot * n_satom */
    struct set sets[3];                      /* of order 2, full or compact, and of 3 and 4, compact */
};

/* the names of its files; operations.txt and fc4.f64 need not be there */
#define DELIVERED 6
extern const char *const delivered[DELIVERED];
int optional(const char *name);

/* the name of a set's file */
const char *set_name(const struct set *s);

/* whether a folder has such a file */
int there(const char *folder, const char *name);

/* who speaks in a message */
extern const char *program;

/* a message, and the end, with status 1 */
void fail(const char *name, const char *what);

/* Where standard input, output or error is closed, a file that is opened would take its number, and what is said would be written into that
   file. /dev/null takes the place instead, so that reading or writing there fails. The first call of a program. */
void fill_standard_streams(void);

/* count elements of the size, zeros */
void *room(size_t count, size_t size);

#define PATH_ROOM 4096
void path_in(const char *folder, const char *name, char path[PATH_ROOM]);

/* opens a file and says how many bytes it has; NULL, or why it cannot be read */
const char *open_to_read(const char *path, FILE **f, long long *bytes);

/* the same of a file in a folder, or the end */
FILE *open_in(const char *folder, const char *name, char path[PATH_ROOM], long long *bytes);

void read_delivery(const char *folder, struct delivery *d);

/* whether both are names of one folder */
int same_folder(const char *folder, const char *out);

/* new files in a folder: the sets, and the texts as they stand in the folder `from`; 0, or the error of the first that failed */
int write_files(const char *from, const char *folder, const struct delivery *d);

void free_delivery(struct delivery *d);

#endif
