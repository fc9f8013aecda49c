// Refuses one growth of memory in a program that is started with LD_PRELOAD: that with the number REFUSED, counted from
// 1. How many there were is written to the file COUNTED, if it is named.
#include <fcntl.h>
#include <stdio.h>
#include <stdlib.h>
#include <unistd.h>

extern void *__libc_malloc(size_t size);
extern void *__libc_calloc(size_t count, size_t size);
extern void *__libc_realloc(void *old, size_t size);

static long count, refused = -1;

static int is_refused(void) {
    if (refused < 0) {
        const char *number = getenv("REFUSED");
        refused = number ? atol(number) : 0;
    }
    return ++count == refused;
}

void *malloc(size_t size) { return is_refused() ? NULL : __libc_malloc(size); }

void *calloc(size_t items, size_t size) { return is_refused() ? NULL : __libc_calloc(items, size); }

void *realloc(void *old, size_t size) { return is_refused() ? NULL : __libc_realloc(old, size); }

__attribute__((destructor)) static void tell(void) {
    const char *path = getenv("COUNTED");
    char text[32];
    int file = path ? open(path, O_WRONLY | O_CREAT | O_TRUNC, 0600) : -1;
    if (file < 0) return;
    int length = snprintf(text, sizeof text, "%ld\n", count);
    if (write(file, text, length) != length) _exit(1);
    close(file);
}
