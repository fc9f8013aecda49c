// Stops the files of a program that is started with LD_PRELOAD: those whose path begins with FILES. From the call with the
// number STOP on, counted from 1 over what writes them, cuts them or syncs them, each such call fails; of a write with that
// number the first half is written where TORN is 1. At each sync a file is copied beside it, to its path and `.synced`. What
// the calls were is written to the file CALLS, a letter for each: w, c or s.
#define _GNU_SOURCE
#include <dlfcn.h>
#include <errno.h>
#include <fcntl.h>
#include <stdarg.h>
#include <stdio.h>
#include <stdlib.h>
#include <string.h>
#include <unistd.h>

#define MOST_FILES 1024
#define MOST_CALLS 100000

static char *paths[MOST_FILES], calls[MOST_CALLS];
static long count;

#define REAL(result, name, ...) ((result(*)(__VA_ARGS__))dlsym(RTLD_NEXT, name))

static int opened(int file, const char *path) {
    const char *files = getenv("FILES");
    if (file >= 0 && file < MOST_FILES && files && strncmp(path, files, strlen(files)) == 0) paths[file] = strdup(path);
    return file;
}

static mode_t mode_of(int flags, va_list more) { return flags & (O_CREAT | O_TMPFILE) ? va_arg(more, mode_t) : 0; }

#define OPENS(name)                                                     \
    int name(const char *path, int flags, ...) {                       \
        va_list more;                                                   \
        va_start(more, flags);                                          \
        mode_t mode = mode_of(flags, more);                             \
        va_end(more);                                                   \
        return opened(REAL(int, #name, const char *, int, mode_t)(path, flags, mode), path); \
    }
OPENS(open)
OPENS(open64)

#define OPENS_AT(name)                                                  \
    int name(int folder, const char *path, int flags, ...) {           \
        va_list more;                                                   \
        va_start(more, flags);                                          \
        mode_t mode = mode_of(flags, more);                             \
        va_end(more);                                                   \
        return opened(REAL(int, #name, int, const char *, int, mode_t)(folder, path, flags, mode), path); \
    }
OPENS_AT(openat)
OPENS_AT(openat64)

int close(int file) {
    if (file >= 0 && file < MOST_FILES) {
        free(paths[file]);
        paths[file] = NULL;
    }
    return REAL(int, "close", int)(file);
}

// Counts a call. Whether it goes on: 1, or stops: 0, or stops in its middle: -1.
static int goes_on(int file, char kind) {
    if (file < 0 || file >= MOST_FILES || !paths[file]) return 1;
    const char *stop = getenv("STOP"), *torn = getenv("TORN");
    if (count < MOST_CALLS) calls[count] = kind;
    count++;
    if (!stop || atol(stop) == 0 || count < atol(stop)) return 1;
    errno = EIO;
    return kind == 'w' && count == atol(stop) && torn && atoi(torn) ? -1 : 0;
}

ssize_t write(int file, const void *bytes, size_t length) {
    int goes = goes_on(file, 'w');
    if (goes < 0) REAL(ssize_t, "write", int, const void *, size_t)(file, bytes, length / 2);
    if (goes <= 0) return errno = EIO, -1;
    return REAL(ssize_t, "write", int, const void *, size_t)(file, bytes, length);
}

#define WRITES_AT(name)                                                 \
    ssize_t name(int file, const void *bytes, size_t length, off_t at) { \
        int goes = goes_on(file, 'w');                                  \
        if (goes < 0) REAL(ssize_t, #name, int, const void *, size_t, off_t)(file, bytes, length / 2, at); \
        if (goes <= 0) return errno = EIO, -1;                          \
        return REAL(ssize_t, #name, int, const void *, size_t, off_t)(file, bytes, length, at); \
    }
WRITES_AT(pwrite)
WRITES_AT(pwrite64)

#define CUTS(name)                                                      \
    int name(int file, off_t length) {                                  \
        if (goes_on(file, 'c') <= 0) return errno = EIO, -1;            \
        return REAL(int, #name, int, off_t)(file, length);              \
    }
CUTS(ftruncate)
CUTS(ftruncate64)

// Copies a file that was synced.
static void keep(int file) {
    char from[64], to[4096], bytes[65536];
    snprintf(from, sizeof from, "/proc/self/fd/%d", file);
    snprintf(to, sizeof to, "%s.synced", paths[file]);
    int old = REAL(int, "open", const char *, int, mode_t)(from, O_RDONLY, 0);
    int new = REAL(int, "open", const char *, int, mode_t)(to, O_WRONLY | O_CREAT | O_TRUNC, 0600);
    ssize_t length = 0;
    while (old >= 0 && new >= 0 && (length = read(old, bytes, sizeof bytes)) > 0)
        if (REAL(ssize_t, "write", int, const void *, size_t)(new, bytes, length) != length) _exit(70);
    if (old < 0 || new < 0 || length < 0) _exit(70);
    REAL(int, "close", int)(old);
    REAL(int, "close", int)(new);
}

#define SYNCS(name)                                                     \
    int name(int file) {                                                \
        if (goes_on(file, 's') <= 0) return errno = EIO, -1;            \
        if (file >= 0 && file < MOST_FILES && paths[file]) keep(file);  \
        return REAL(int, #name, int)(file);                             \
    }
SYNCS(fsync)
SYNCS(fdatasync)

__attribute__((destructor)) static void tell(void) {
    const char *path = getenv("CALLS");
    FILE *file = path ? fopen(path, "w") : NULL;
    if (!file) return;
    fwrite(calls, 1, count < MOST_CALLS ? count : MOST_CALLS, file);
    fclose(file);
}
