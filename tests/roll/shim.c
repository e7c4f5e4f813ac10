/*
 * Put before a program by LD_PRELOAD: it counts the calls that touch files of one folder, writes their names to a log, and before the call with
 * a given number ends the program by SIGKILL (of a write half of the bytes are written first), or lets that call fail.
 *   ROLL_FOLDER  the folder, its real path
 *   ROLL_LOG     a file for the names, or nothing
 *   ROLL_KILL    the number of the call before which the program ends, from 1; 0 or nothing: none
 *   ROLL_FAIL    the number of the call that fails, with EIO
 */
#define _GNU_SOURCE
#include <dlfcn.h>
#include <errno.h>
#include <fcntl.h>
#include <limits.h>
#include <signal.h>
#include <stdarg.h>
#include <stdio.h>
#include <stdlib.h>
#include <string.h>
#include <sys/file.h>
#include <sys/stat.h>
#include <unistd.h>

static int inside(const char *path)
{
    const char *folder = getenv("ROLL_FOLDER");
    return folder && strncmp(path, folder, strlen(folder)) == 0 && path[strlen(folder)] == '/';
}

static void note(const char *call, const char *path)
{
    const char *log = getenv("ROLL_LOG"), *last = strrchr(path, '/');
    FILE *f = log ? fopen(log, "a") : NULL;
    if (f) {
        fprintf(f, "%s %s\n", call, last ? last + 1 : path);
        fclose(f);
    }
}

static long number(const char *name)
{
    const char *word = getenv(name);
    return word ? atol(word) : 0;
}

static void end(void)
{
    kill(getpid(), SIGKILL);
    for (;;)
        pause();
}

/* counts the call: 1 if the program ends here, -1 with its error if the call fails, 0 if it is made */
static int counted(const char *call, const char *path)
{
    static long count;
    note(call, path);
    count++;
    if (count == number("ROLL_FAIL")) {
        errno = EIO;
        return -1;
    }
    return count == number("ROLL_KILL");
}

/* 0 if the call is made, -1 if it fails */
static int at_path(const char *call, const char *path)
{
    int so = inside(path) ? counted(call, path) : 0;
    if (so == 1)
        end();
    return so;
}

/* the name of an open file of the folder, or the folder itself; 0 for any other */
static int of_fd(int fd, char path[PATH_MAX])
{
    char link[64];
    const char *folder = getenv("ROLL_FOLDER");
    snprintf(link, sizeof link, "/proc/self/fd/%d", fd);
    ssize_t n = readlink(link, path, PATH_MAX - 1);
    path[n > 0 ? n : 0] = '\0';
    return folder && (inside(path) || strcmp(path, folder) == 0);
}

static int at_fd(const char *call, int fd)
{
    char path[PATH_MAX];
    int so = of_fd(fd, path) ? counted(call, path) : 0;
    if (so == 1)
        end();
    return so;
}

#define NEXT(name) ((__typeof__(&name))dlsym(RTLD_NEXT, #name))

#define OPEN(name) \
    int name(const char *path, int flags, ...) \
    { \
        va_list more; \
        va_start(more, flags); \
        mode_t mode = flags & O_CREAT ? va_arg(more, mode_t) : 0; \
        va_end(more); \
        return at_path(flags & O_CREAT ? "create" : "open", path) ? -1 : NEXT(name)(path, flags, mode); \
    }
OPEN(open)
OPEN(open64)

#define MKSTEMP(name) \
    int name(char *path) \
    { \
        return at_path("create", path) ? -1 : NEXT(name)(path); \
    }
MKSTEMP(mkstemp)
MKSTEMP(mkstemp64)

ssize_t write(int fd, const void *bytes, size_t n)
{
    char path[PATH_MAX];
    int so = of_fd(fd, path) ? counted("write", path) : 0;
    if (so == 1) {
        NEXT(write)(fd, bytes, n / 2);
        end();
    }
    return so ? -1 : NEXT(write)(fd, bytes, n);
}

int flock(int fd, int how)
{
    return at_fd("flock", fd) ? -1 : NEXT(flock)(fd, how);
}

int fchown(int fd, uid_t user, gid_t group)
{
    return at_fd("fchown", fd) ? -1 : NEXT(fchown)(fd, user, group);
}

int fchmod(int fd, mode_t mode)
{
    return at_fd("fchmod", fd) ? -1 : NEXT(fchmod)(fd, mode);
}

int fsync(int fd)
{
    return at_fd("fsync", fd) ? -1 : NEXT(fsync)(fd);
}

int rename(const char *from, const char *to)
{
    return at_path("rename", to) ? -1 : NEXT(rename)(from, to);
}

int link(const char *from, const char *to)
{
    return at_path("link", to) ? -1 : NEXT(link)(from, to);
}

int unlink(const char *path)
{
    return at_path("unlink", path) ? -1 : NEXT(unlink)(path);
}
