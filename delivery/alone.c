/*
 * A file that one program at a time replaces as a whole. The new bytes are written to a file beside it, NAME.unfinished-XXXXXX, which then
 * takes its name. The Python package does the same (bindings/python/src/gullyfork/_alone.py): each respects the lock and the names of the other.
 */
#include "alone.h"

#include <dirent.h>
#include <errno.h>
#include <fcntl.h>
#include <stdlib.h>
#include <string.h>
#include <sys/file.h>
#include <sys/xattr.h>
#include <unistd.h>

#define UNFINISHED ".unfinished-" /* and six letters or digits */

/* ---- the folder and the unfinished files in it */

static void folder_of(const char *path, char folder[PATH_ROOM])
{
    const char *last = strrchr(path, '/');
    size_t n = !last ? 0 : last == path ? 1 : (size_t)(last - path);
    if (n >= PATH_ROOM)
        fail(path, strerror(ENAMETOOLONG));
    memcpy(folder, n ? path : ".", n ? n : 1);
    folder[n ? n : 1] = '\0';
}

static const char *base_of(const char *path)
{
    const char *last = strrchr(path, '/');
    return last ? last + 1 : path;
}

/* opened before anything is written, so that what was written can be made to last */
static DIR *open_folder(const char *path)
{
    char name[PATH_ROOM];
    folder_of(path, name);
    DIR *folder = opendir(name);
    if (!folder)
        fail(name, strerror(errno));
    return folder;
}

/* the new name lasts only if the folder is on the disk too; some file systems know no such call for a folder, and say EINVAL */
static void sync_folder(DIR *folder, const char *named)
{
    if (fsync(dirfd(folder)) != 0 && errno != EINVAL) {
        fprintf(stderr, "%s: %s: written, but its folder could not be synced (%s): a loss of power may undo it\n", program, named, strerror(errno));
        exit(1);
    }
    closedir(folder);
}

static int is_unfinished(const char *entry, const char *base)
{
    size_t n = strlen(base), m = strlen(UNFINISHED);
    return strncmp(entry, base, n) == 0 && strncmp(entry + n, UNFINISHED, m) == 0 && strlen(entry + n + m) == 6
        && strspn(entry + n + m, "abcdefghijklmnopqrstuvwxyzABCDEFGHIJKLMNOPQRSTUVWXYZ0123456789") == 6;
}

/* whoever holds the file writes beside it alone: every unfinished file is of a run that was ended */
static void sweep(DIR *folder, const char *path)
{
    struct dirent *entry;
    struct stat is;
    int fd = dirfd(folder);
    while ((entry = readdir(folder)))
        if (is_unfinished(entry->d_name, base_of(path)) && fstatat(fd, entry->d_name, &is, AT_SYMLINK_NOFOLLOW) == 0 && S_ISREG(is.st_mode)
            && unlinkat(fd, entry->d_name, 0) == 0)
            fprintf(stderr, "%s: removed %s, which a run that was ended had left\n", program, entry->d_name);
}

/* ---- a new file beside */

struct draft {
    char name[PATH_ROOM];
    int fd;
};

static void drop(const struct draft *new, const char *named, const char *why)
{
    unlink(new->name);
    fail(named, why);
}

static void open_draft(struct draft *new, const char *path, const char *named)
{
    if (snprintf(new->name, sizeof new->name, "%s" UNFINISHED "XXXXXX", path) >= (int)sizeof new->name)
        fail(named, strerror(ENAMETOOLONG));
    new->fd = mkstemp(new->name);
    if (new->fd < 0)
        fail(named, strerror(errno));
}

/* the bytes, on the disk */
static void fill(const struct draft *new, const char *named, const uint8_t *bytes, size_t n)
{
    size_t done = 0;
    while (done < n) {
        ssize_t k = write(new->fd, bytes + done, n - done);
        if (k < 0 && errno != EINTR)
            drop(new, named, strerror(errno));
        done += k > 0 ? (size_t)k : 0;
    }
    if (fsync(new->fd) != 0 || close(new->fd) != 0)
        drop(new, named, strerror(errno));
}

/* in a folder that its group shares (chmod g+s) a file belongs to whoever wrote it last, and the group goes on with it */
static int shared(const struct alone *file)
{
    char folder[PATH_ROOM];
    struct stat is;
    folder_of(file->path, folder);
    return stat(folder, &is) == 0 && (is.st_mode & S_ISGID) && (file->is.st_mode & S_IWGRP);
}

/* tried on the new file while it is empty */
static void keep_owner(const struct alone *file, const struct draft *new)
{
    char why[256];
    struct stat is;
    if (fstat(new->fd, &is) != 0)
        drop(new, file->named, strerror(errno));
    if (is.st_uid == file->is.st_uid && is.st_gid == file->is.st_gid)
        return;
    if (fchown(new->fd, file->is.st_uid, file->is.st_gid) == 0)
        return;
    if (is.st_gid == file->is.st_gid && shared(file))
        return;
    snprintf(why, sizeof why, "it belongs to user %lu and group %lu, which a file written by user %lu cannot: let its owner write, or share its"
             " folder in its group (chmod g+s); left as it is", (unsigned long)file->is.st_uid, (unsigned long)file->is.st_gid,
             (unsigned long)is.st_uid);
    drop(new, file->named, why);
}

/* the mode, and the access list beyond it where there is one (setfacl) */
static void keep_mode(const struct alone *file, const struct draft *new)
{
    static const char name[] = "system.posix_acl_access";
    char list[4096];
    ssize_t n = fgetxattr(file->fd, name, list, sizeof list);
    if (fchmod(new->fd, file->is.st_mode & 07777) != 0 || (n > 0 && fsetxattr(new->fd, name, list, (size_t)n, 0) != 0))
        drop(new, file->named, strerror(errno));
}

/* under another name the former file would stay */
static void one_name(const struct alone *file)
{
    struct stat is;
    if (fstat(file->fd, &is) != 0)
        fail(file->named, strerror(errno));
    if (is.st_nlink > 1)
        fail(file->named, "it has another name (a hard link), under which the former file would stay; left as it is");
}

void replace(const struct alone *file, const uint8_t *bytes, size_t n)
{
    struct draft new;
    DIR *folder = open_folder(file->path);
    sweep(folder, file->path);
    one_name(file); /* an unfinished file may have been a second name */
    open_draft(&new, file->path, file->named);
    keep_owner(file, &new);
    keep_mode(file, &new);
    fill(&new, file->named, bytes, n);
    if (rename(new.name, file->path) != 0)
        drop(&new, file->named, strerror(errno));
    sync_folder(folder, file->named);
}

void begin(const char *path, const uint8_t *bytes, size_t n)
{
    struct draft new;
    struct stat is;
    if (lstat(path, &is) == 0)
        fail(path, strerror(EEXIST));
    mode_t mask = umask(0);
    umask(mask);
    DIR *folder = open_folder(path);
    open_draft(&new, path, path);
    if (fchmod(new.fd, 0666 & ~mask) != 0)
        drop(&new, path, strerror(errno));
    fill(&new, path, bytes, n);
    if (link(new.name, path) != 0) /* not rename: it fails where there is such a file by now */
        drop(&new, path, strerror(errno));
    unlink(new.name);
    sync_folder(folder, path);
}

/* ---- one program at a time */

/* a network share locks a file exclusively only where it is open for writing */
static void lock(const struct alone *file)
{
    static int said;
    if (flock(file->fd, LOCK_EX | LOCK_NB) == 0)
        return;
    if (errno != EWOULDBLOCK)
        fail(file->named, strerror(errno));
    if (!said++)
        fprintf(stderr, "%s: %s: another desk has it; waiting\n", program, file->named);
    while (flock(file->fd, LOCK_EX) != 0)
        if (errno != EINTR)
            fail(file->named, strerror(errno));
}

/* what could not be replaced and stay what it is */
static void judge(const struct alone *file)
{
    if (!S_ISREG(file->is.st_mode))
        fail(file->named, "it is no file, but a pipe or a device");
    if ((file->is.st_mode & 0222) == 0) /* root may write to such a file, but whoever took the right away meant root too */
        fail(file->named, "it is read-only; left as it is");
}

void hold(struct alone *file, const char *named)
{
    struct stat now;
    file->named = named;
    if (!realpath(named, file->path))
        fail(named, strerror(errno));
    for (;;) {
        file->fd = open(file->path, O_RDWR | O_NONBLOCK);
        if (file->fd < 0)
            fail(named, strerror(errno));
        lock(file);
        if (fstat(file->fd, &file->is) != 0 || stat(file->path, &now) != 0)
            fail(named, strerror(errno));
        if (now.st_ino == file->is.st_ino && now.st_dev == file->is.st_dev)
            break;
        close(file->fd); /* another program has put another file in its place */
    }
    judge(file);
}

void release(const struct alone *file)
{
    close(file->fd);
}
