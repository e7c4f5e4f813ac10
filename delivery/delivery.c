/* A delivery on disk: text for cell and tables, raw numbers of 8 bytes (the lowest byte first) for the sets. */
#include "delivery.h"
#include "progress.h"
#include "text.h"

#include <errno.h>
#include <fcntl.h>
#include <stdio.h>
#include <stdlib.h>
#include <string.h>
#include <sys/stat.h>

#define MOST_ATOMS 256         /* the limit of third order */
#define MOST_FOURTH 64         /* the limit of fourth order */
#define MOST_OPERATIONS 48     /* of a crystal, apart from the shifts */
#define PART (1u << 17u)       /* numbers that are read or written between two looks at the clock */

const char *program = "delivery";
const char *const delivered[DELIVERED] = {"tables.txt", "cell.txt", "operations.txt", "fc2.f64", "fc3.f64", "fc4.f64"};

int optional(const char *name)
{
    return strcmp(name, "operations.txt") == 0 || strcmp(name, "fc4.f64") == 0;
}

const char *set_name(const struct set *s)
{
    return delivered[s->order + 1];
}

int there(const char *folder, const char *name)
{
    char path[PATH_ROOM];
    struct stat is;
    path_in(folder, name, path);
    return lstat(path, &is) == 0;
}

void fail(const char *name, const char *what)
{
    end_step();
    fflush(stdout);
    fprintf(stderr, "%s: %s: %s\n", program, name, what);
    exit(1);
}

void fill_standard_streams(void)
{
    for (int fd = 0; fd <= 2; fd++)
        if (fcntl(fd, F_GETFD) < 0 && open("/dev/null", fd == 0 ? O_WRONLY : O_RDONLY) != fd)
            exit(1);
}

void *room(size_t count, size_t size)
{
    void *p = calloc(count ? count : 1, size);
    if (!p)
        fail("memory", "not enough of it");
    return p;
}

void path_in(const char *folder, const char *name, char path[PATH_ROOM])
{
    if (snprintf(path, PATH_ROOM, "%s/%s", folder, name) >= PATH_ROOM)
        fail(folder, "the name is too long");
}

const char *open_to_read(const char *path, FILE **f, long long *bytes)
{
    struct stat is;
    if (stat(path, &is) != 0)
        return strerror(errno);
    if (!S_ISREG(is.st_mode))
        return S_ISDIR(is.st_mode) ? strerror(EISDIR) : "it is no file, but a pipe or a device";
    *bytes = (long long)is.st_size;
    *f = fopen(path, "rb");
    return *f ? NULL : strerror(errno);
}

FILE *open_in(const char *folder, const char *name, char path[PATH_ROOM], long long *bytes)
{
    FILE *f = NULL;
    path_in(folder, name, path);
    const char *why = open_to_read(path, &f, bytes);
    if (why)
        fail(path, why);
    return f;
}

/* ---- texts */

static size_t read_count(struct text *t, const char *name)
{
    int64_t n;
    expect(t, name);
    read_words(t, name, "a count", 1, &n, NULL);
    if (n < 0 || n > MOST_ATOMS)
        bad_line(t, "%s is %lld: a count is from 0 to %d, the limit of third order", name, (long long)n, MOST_ATOMS);
    return (size_t)n;
}

static void read_tables(const char *folder, struct delivery *d)
{
    struct text t;
    open_text(&t, folder, "tables.txt");
    d->n_satom = read_count(&t, "n_satom");
    d->n_patom = read_count(&t, "n_patom");
    d->num_trans = read_count(&t, "num_trans");
    d->p2s = room(d->n_patom, sizeof *d->p2s);
    d->s2pp = room(d->n_satom, sizeof *d->s2pp);
    d->nsym_list = room(d->n_satom, sizeof *d->nsym_list);
    d->perms = room(d->num_trans * d->n_satom, sizeof *d->perms);
    read_integers(&t, "p2s", "n_patom", d->p2s, d->n_patom);
    read_integers(&t, "s2pp", "n_satom", d->s2pp, d->n_satom);
    read_integers(&t, "nsym_list", "n_satom", d->nsym_list, d->n_satom);
    for (size_t s = 0; s < d->num_trans; s++)
        read_integers(&t, "perms", "n_satom", d->perms + s * d->n_satom, d->n_satom);
    close_text(&t, "the perms of the last shift");
}

static void read_cell(const char *folder, struct delivery *d)
{
    struct text t;
    open_text(&t, folder, "cell.txt");
    for (int i = 0; i < 3; i++) {
        double vector[3];
        expect(&t, "lattice");
        read_words(&t, "lattice", "a vector", 3, NULL, vector);
        for (int x = 0; x < 3; x++)
            d->lattice[x * 3 + i] = vector[x];
    }
    d->pos = room(d->n_satom * 3, sizeof *d->pos);
    d->elements = room(d->n_satom, sizeof *d->elements);
    for (size_t a = 0; a < d->n_satom; a++) {
        const char *element = next_line(&t);
        if (!element)
            bad_line(&t, "the file ends after %zu atoms, n_satom of tables.txt asks for %zu", a, d->n_satom);
        if (strlen(element) >= ELEMENT)
            bad_line(&t, "an element's name has at most %d letters", ELEMENT - 1);
        strcpy(d->elements[a], element);
        read_words(&t, "the atom", "a position", 3, NULL, d->pos + a * 3);
    }
    close_text(&t, "the last of n_satom atoms");
}

static void read_operations(const char *folder, struct delivery *d)
{
    struct text t;
    d->num_rot = 0;
    d->r_carts = NULL;
    d->operations = NULL;
    if (!there(folder, "operations.txt"))
        return;
    open_text(&t, folder, "operations.txt");
    int64_t count;
    read_integers(&t, "num_rot", "a count", &count, 1);
    if (count < 1 || count > MOST_OPERATIONS)
        bad_line(&t, "num_rot is %lld: a crystal has from 1 to %d operations, apart from the shifts", (long long)count, MOST_OPERATIONS);
    d->num_rot = (size_t)count;
    d->r_carts = room(d->num_rot * 9, sizeof *d->r_carts);
    d->operations = room(d->num_rot * d->n_satom, sizeof *d->operations);
    for (size_t r = 0; r < d->num_rot; r++) {
        expect(&t, "matrix");
        read_words(&t, "matrix", "a matrix", 9, NULL, d->r_carts + r * 9);
        read_integers(&t, "atoms", "n_satom", d->operations + r * d->n_satom, d->n_satom);
    }
    close_text(&t, "the atoms of the last operation");
}

/* ---- sets */

static double *read_numbers(FILE *f, const char *path, const char *name, size_t n)
{
    double *set = room(n, sizeof *set);
    size_t got = 0, part = 1;
    begin_step("reading of", name);
    for (; got < n && part > 0; got += part) {
        part = fread(set + got, sizeof *set, n - got < PART ? n - got : PART, f);
        how_far(got, n);
    }
    end_step();
    if (got < n)
        fail(path, ferror(f) ? strerror(errno) : "it became shorter while it was read");
    return set;
}

/* how many numbers the set has, full or compact */
static size_t numbers_of(const struct delivery *d, size_t order, int full)
{
    size_t n = (full ? d->n_satom : d->n_patom) * 3;
    for (size_t k = 1; k < order; k++)
        n *= d->n_satom * 3;
    return n;
}

/* a set of second order is full or compact, as its length says */
static void read_set(const char *folder, const struct delivery *d, size_t order, struct set *s)
{
    char path[PATH_ROOM];
    long long bytes = 0;
    *s = (struct set){order, order == 2, NULL, numbers_of(d, order, order == 2)};
    if (optional(set_name(s)) && !there(folder, set_name(s)))
        return;
    FILE *f = open_in(folder, set_name(s), path, &bytes);
    if (order == 4 && d->n_satom > MOST_FOURTH)
        fail(path, "the cell has more than 64 atoms, the limit of fourth order");
    if (order == 2 && bytes == (long long)(numbers_of(d, 2, 0) * 8) && d->n_patom < d->n_satom) {
        s->full = 0;
        s->count = numbers_of(d, 2, 0);
    }
    if (bytes != (long long)(s->count * 8)) {
        fprintf(stderr, "%s: %s: it has %lld bytes, the counts ask for %zu numbers of 8 bytes, %zu\n", program, path, bytes, s->count, s->count * 8);
        exit(1);
    }
    s->numbers = read_numbers(f, path, set_name(s), s->count);
    fclose(f);
}

/* a new file of the set; 0, or the error */
static int write_set(const char *path, const char *name, const double *set, size_t n)
{
    FILE *f = fopen(path, "wb");
    if (!f)
        return errno;
    size_t put = 0, part = 1;
    begin_step("writing of", name);
    for (; put < n && part > 0; put += part) {
        part = fwrite(set + put, sizeof *set, n - put < PART ? n - put : PART, f);
        how_far(put, n);
    }
    end_step();
    int why = put == n ? 0 : errno;
    return fclose(f) != 0 ? errno : why;
}

/* ---- a delivery */

void read_delivery(const char *folder, struct delivery *d)
{
    read_tables(folder, d);
    read_cell(folder, d);
    read_operations(folder, d);
    for (size_t order = 2; order <= 4; order++)
        read_set(folder, d, order, &d->sets[order - 2]);
}

int same_folder(const char *folder, const char *out)
{
    struct stat a, b;
    return stat(folder, &a) == 0 && stat(out, &b) == 0 && a.st_dev == b.st_dev && a.st_ino == b.st_ino;
}

/* a new file with the bytes of another; 0, or the error */
static int copy_file(const char *from, const char *path)
{
    char bytes[4096];
    int why = 0;
    FILE *in = fopen(from, "rb"), *out = in ? fopen(path, "wb") : NULL;
    if (!out)
        why = errno;
    for (size_t n; why == 0 && (n = fread(bytes, 1, sizeof bytes, in)) > 0;)
        if (fwrite(bytes, 1, n, out) != n)
            why = errno;
    if (in && ferror(in))
        why = EIO;
    if (out && fclose(out) != 0)
        why = errno;
    if (in)
        fclose(in);
    return why;
}

int write_files(const char *from, const char *folder, const struct delivery *d)
{
    char path[PATH_ROOM], text[PATH_ROOM];
    int why = 0;
    for (size_t k = 0; k < DELIVERED && why == 0; k++) {
        const struct set *s = k < 3 ? NULL : &d->sets[k - 3];
        if (s ? !s->numbers : k == 2 && d->num_rot == 0)
            continue;
        path_in(from, delivered[k], text);
        path_in(folder, delivered[k], path);
        why = s ? write_set(path, delivered[k], s->numbers, s->count) : copy_file(text, path);
    }
    return why;
}

void free_delivery(struct delivery *d)
{
    free(d->elements);
    free(d->pos);
    free(d->p2s);
    free(d->s2pp);
    free(d->nsym_list);
    free(d->perms);
    free(d->r_carts);
    free(d->operations);
    for (size_t k = 0; k < 3; k++)
        free(d->sets[k].numbers);
}
