/*
 * A file that one program at a time replaces as a whole: whoever reads it finds the former bytes or the new ones, never a part of them. What
 * cannot be done ends the program with a message, and the file is as it was.
 */
#ifndef ALONE_H
#define ALONE_H

#include "delivery.h"

#include <sys/stat.h>

struct alone {
    const char *named;    /* as the user named it */
    char path[PATH_ROOM]; /* where links lead to, so that a link stays a link */
    int fd;               /* open for writing, and locked */
    struct stat is;
};

/* opens the file and waits until no other program holds it */
void hold(struct alone *file, const char *named);

/* the new bytes take the place of the file, with its owner, its group and its mode; what runs that were ended left beside it is removed */
void replace(const struct alone *file, const uint8_t *bytes, size_t n);

void release(const struct alone *file);

/* a new file with these bytes; none where there is such a file already */
void begin(const char *path, const uint8_t *bytes, size_t n);

#endif
