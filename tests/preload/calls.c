/* For the end-to-end tests: loaded before the C library, it logs each call that a program makes on the
   files of one directory and on standard input and output, and makes chosen calls go wrong.

   CALLS_FOLDER  the directory, as realpath gives it
   CALLS_LOG     the file that gets a line for each call, once the call is done
   CALLS_FAULTS  what goes wrong: KIND:N:WHAT, with commas between. The Nth call of the kind, from 1 on, or
                 each one where N is 0. The kinds are those of the log: open (and openat), write, pwrite,
                 read, pread, fsync, fdatasync, getdents, ftruncate, rename, unlink.

   WHAT is EIO, ENOSPC or EINTR: the call isn't made and answers that error; or `short`: it is made with half
   of the bytes (of a directory, with room for few entries); or `stop`: the program ends right before it, with
   status 125. The others pretend that the program is wrong:
   `skip` answers 0 and neither makes nor logs the call; `overwrite` opens without O_APPEND; `restart` is
   `short`, and where the next write is for the rest, all bytes are written again from their start. */

#define _GNU_SOURCE
#include <errno.h>
#include <fcntl.h>
#include <limits.h>
#include <stdarg.h>
#include <stdio.h>
#include <stdlib.h>
#include <string.h>
#include <sys/stat.h>
#include <sys/syscall.h>
#include <unistd.h>

enum kind { OPEN, WRITE, PWRITE, READ, PREAD, FSYNC, FDATASYNC, GETDENTS, FTRUNCATE, RENAME, UNLINK, KINDS };
static const char *const kind_names[KINDS] = {
    "open", "write", "pwrite", "read", "pread", "fsync", "fdatasync", "getdents", "ftruncate", "rename", "unlink",
};

enum what { NOTHING, FAIL_EIO, FAIL_ENOSPC, FAIL_EINTR, SHORT, STOP, SKIP, OVERWRITE, RESTART, WHATS };
static const char *const what_names[WHATS] = {
    "", "EIO", "ENOSPC", "EINTR", "short", "stop", "skip", "overwrite", "restart",
};

#define FEW_ENTRIES 320 /* bytes: the largest entry fits */

static char folder[PATH_MAX];
static size_t folder_length;
static int log_fd = -1;
static int counts[KINDS];

static struct fault { enum kind kind; int nth; enum what what; } faults[16];
static int fault_count;

static int place_of(const char *word, size_t length, const char *const *words, int count)
{
    for (int i = 0; i < count; i++)
        if (strlen(words[i]) == length && !memcmp(words[i], word, length))
            return i;
    fprintf(stderr, "calls.c: unknown word in CALLS_FAULTS: %.*s\n", (int)length, word);
    _exit(126);
}

static void read_faults(const char *text)
{
    while (*text && fault_count < (int)(sizeof faults / sizeof *faults)) {
        struct fault *fault = &faults[fault_count++];
        size_t length = strcspn(text, ":");
        fault->kind = place_of(text, length, kind_names, KINDS);
        char *end;
        fault->nth = strtol(text + length + 1, &end, 10);
        text = end + 1;
        length = strcspn(text, ",");
        fault->what = place_of(text, length, what_names, WHATS);
        text += length;
        text += *text == ',';
    }
}

static int logged(const char *line, size_t length)
{
    return syscall(SYS_write, log_fd, line, length) == (ssize_t)length;
}

__attribute__((constructor)) static void start(void)
{
    const char *named = getenv("CALLS_FOLDER"), *log = getenv("CALLS_LOG"), *wanted = getenv("CALLS_FAULTS");
    if (!named || !log)
        return;
    snprintf(folder, sizeof folder, "%s", named);
    folder_length = strlen(folder);
    int fd = syscall(SYS_openat, AT_FDCWD, log, O_WRONLY | O_APPEND | O_CREAT | O_CLOEXEC, 0600);
    /* High up, so that the program's descriptors are those that it would have. */
    log_fd = fcntl(fd, F_DUPFD_CLOEXEC, 500);
    syscall(SYS_close, fd);
    read_faults(wanted ? wanted : "");
    if (log_fd < 0 || !logged("start\n", 6)) {
        fprintf(stderr, "calls.c: no log at %s\n", log);
        _exit(126);
    }
}

/* The name below the directory, `.` for the directory itself, or nothing. */
static const char *below(const char *path)
{
    if (!folder_length || strncmp(path, folder, folder_length))
        return NULL;
    path += folder_length;
    return !*path ? "." : *path == '/' ? path + 1 : NULL;
}

static const char *name_of_fd(int fd, char *space)
{
    if (fd == 0 || fd == 1)
        return folder_length ? (fd ? "stdout" : "stdin") : NULL;
    char link[40];
    snprintf(link, sizeof link, "/proc/self/fd/%d", fd);
    ssize_t length = readlink(link, space, PATH_MAX - 1);
    if (length < 0)
        return NULL;
    space[length] = 0;
    return below(space);
}

static const char *name_of_path(const char *path, char *space)
{
    char parent[PATH_MAX], real[PATH_MAX];
    if (realpath(path, space))
        return below(space);
    /* It isn't there: the real path of its directory tells where it would be. */
    const char *last = strrchr(path, '/');
    last = last ? last + 1 : path;
    snprintf(parent, sizeof parent, "%.*s.", (int)(last - path), path);
    if (strlen(last) > NAME_MAX || !realpath(parent, real) || strlen(real) + strlen(last) + 2 > PATH_MAX)
        return NULL;
    strcpy(space, real);
    strcat(strcat(space, "/"), last);
    return below(space);
}

static enum what choose(enum kind kind)
{
    int nth = __atomic_add_fetch(&counts[kind], 1, __ATOMIC_SEQ_CST);
    for (int i = 0; i < fault_count; i++)
        if (faults[i].kind == kind && (faults[i].nth == nth || !faults[i].nth)) {
            if (faults[i].what == STOP)
                _exit(125);
            return faults[i].what;
        }
    return NOTHING;
}

static int error_of(enum what what)
{
    return what == FAIL_EIO ? EIO : what == FAIL_ENOSPC ? ENOSPC : what == FAIL_EINTR ? EINTR : 0;
}

struct call {
    enum kind kind;
    const char *name;
    long at, length; /* of open: the flags, and whether it made the file */
    const char *to;  /* of rename */
};

/* Logs a call and gives what it answered. */
static long done(struct call call, enum what what, long result)
{
    int error = errno;
    char line[3 * PATH_MAX];
    int length = snprintf(line, sizeof line, "%s\t%s\t%ld\t%ld\t%ld\t%s\t%s\n", kind_names[call.kind], call.name,
                          call.at, call.length, result < 0 ? -error : result, what_names[what],
                          call.to ? call.to : "");
    logged(line, length);
    errno = error;
    return result;
}

/* Logs a call that isn't made, and answers its error. */
static long refused(struct call call, enum what what)
{
    errno = error_of(what);
    return done(call, what, -1);
}

static size_t half(enum what what, size_t length)
{
    return (what == SHORT || what == RESTART) && length > 1 ? length / 2 : length;
}

static int opened(int dir, const char *path, int flags, mode_t mode)
{
    char space[PATH_MAX];
    const char *name = dir == AT_FDCWD || *path == '/' ? name_of_path(path, space) : NULL;
    if (!name)
        return syscall(SYS_openat, dir, path, flags, mode);
    enum what what = choose(OPEN);
    if (what == OVERWRITE)
        flags &= ~O_APPEND;
    struct call call = { OPEN, name, flags, 0, NULL };
    if (error_of(what))
        return refused(call, what);
    int absent = access(path, F_OK) != 0;
    int fd = syscall(SYS_openat, dir, path, flags, mode);
    call.length = absent && fd >= 0;
    return done(call, what, fd);
}

#define MODE_OF(flags)                                                                                            \
    mode_t mode = 0;                                                                                              \
    if (((flags) & O_CREAT) || ((flags) & O_TMPFILE) == O_TMPFILE) {                                              \
        va_list rest;                                                                                             \
        va_start(rest, flags);                                                                                    \
        mode = va_arg(rest, mode_t);                                                                              \
        va_end(rest);                                                                                             \
    }

int open(const char *path, int flags, ...) { MODE_OF(flags) return opened(AT_FDCWD, path, flags, mode); }
int open64(const char *path, int flags, ...) { MODE_OF(flags) return opened(AT_FDCWD, path, flags, mode); }
int openat(int dir, const char *path, int flags, ...) { MODE_OF(flags) return opened(dir, path, flags, mode); }
int openat64(int dir, const char *path, int flags, ...) { MODE_OF(flags) return opened(dir, path, flags, mode); }

static long size_of(int fd)
{
    struct stat status;
    return !fstat(fd, &status) && S_ISREG(status.st_mode) ? (long)status.st_size : 0;
}

static ssize_t written(int fd, const void *bytes, size_t length)
{
    static const char *cut_bytes, *rest;
    static int cut_fd;
    char space[PATH_MAX];
    const char *name = name_of_fd(fd, space);
    if (!name)
        return syscall(SYS_write, fd, bytes, length);
    enum what what = choose(WRITE);
    struct call call = { WRITE, name, size_of(fd), length, NULL };
    if (error_of(what))
        return refused(call, what);
    if (rest && rest == bytes && cut_fd == fd) {
        size_t before = rest - cut_bytes;
        rest = NULL;
        ssize_t count = syscall(SYS_write, fd, cut_bytes, before + length);
        return done(call, RESTART, count < (ssize_t)before ? -1 : count - (ssize_t)before);
    }
    ssize_t count = done(call, what, syscall(SYS_write, fd, bytes, half(what, length)));
    if (what == RESTART && count > 0) {
        cut_fd = fd;
        cut_bytes = bytes;
        rest = cut_bytes + count;
    }
    return count;
}

ssize_t write(int fd, const void *bytes, size_t length) { return written(fd, bytes, length); }
ssize_t __write(int fd, const void *bytes, size_t length) { return written(fd, bytes, length); }

/* A call on a descriptor: NUMBER is the system's, LENGTH what is asked for, FEW that with half of it. */
#define ON_FD(KIND, NUMBER, AT, LENGTH, ...)                                                                      \
    char space[PATH_MAX];                                                                                         \
    const char *name = name_of_fd(fd, space);                                                                     \
    enum what what = name ? choose(KIND) : NOTHING;                                                               \
    if (what == SKIP)                                                                                             \
        return 0;                                                                                                 \
    struct call call = { KIND, name, AT, LENGTH, NULL };                                                          \
    if (error_of(what))                                                                                           \
        return refused(call, what);                                                                               \
    long result = syscall(NUMBER, fd, ##__VA_ARGS__);                                                             \
    return name ? done(call, what, result) : result;

ssize_t pwrite(int fd, const void *bytes, size_t length, off_t at)
{
    ON_FD(PWRITE, SYS_pwrite64, at, length, bytes, half(what, length), at)
}

ssize_t pwrite64(int fd, const void *bytes, size_t length, off_t at) { return pwrite(fd, bytes, length, at); }

ssize_t read(int fd, void *bytes, size_t length) { ON_FD(READ, SYS_read, 0, length, bytes, half(what, length)) }

ssize_t pread(int fd, void *bytes, size_t length, off_t at)
{
    ON_FD(PREAD, SYS_pread64, at, length, bytes, half(what, length), at)
}

ssize_t pread64(int fd, void *bytes, size_t length, off_t at) { return pread(fd, bytes, length, at); }

ssize_t getdents64(int fd, void *bytes, size_t length)
{
    ON_FD(GETDENTS, SYS_getdents64, 0, length, bytes, what == SHORT && length > FEW_ENTRIES ? FEW_ENTRIES : length)
}

int fsync(int fd) { ON_FD(FSYNC, SYS_fsync, 0, 0) }
int fdatasync(int fd) { ON_FD(FDATASYNC, SYS_fdatasync, 0, 0) }
int ftruncate(int fd, off_t length) { ON_FD(FTRUNCATE, SYS_ftruncate, 0, length, length) }
int ftruncate64(int fd, off_t length) { return ftruncate(fd, length); }

int rename(const char *from, const char *to)
{
    char space[PATH_MAX], other[PATH_MAX];
    const char *name = name_of_path(from, space);
    if (!name)
        return syscall(SYS_renameat2, AT_FDCWD, from, AT_FDCWD, to, 0);
    enum what what = choose(RENAME);
    struct call call = { RENAME, name, 0, 0, name_of_path(to, other) };
    return error_of(what) ? refused(call, what) : done(call, what, syscall(SYS_renameat2, AT_FDCWD, from, AT_FDCWD, to, 0));
}

int unlink(const char *path)
{
    char space[PATH_MAX];
    const char *name = name_of_path(path, space);
    if (!name)
        return syscall(SYS_unlinkat, AT_FDCWD, path, 0);
    enum what what = choose(UNLINK);
    struct call call = { UNLINK, name, 0, 0, NULL };
    return error_of(what) ? refused(call, what) : done(call, what, syscall(SYS_unlinkat, AT_FDCWD, path, 0));
}
