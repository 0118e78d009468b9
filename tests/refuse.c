/* Preloaded before a program: refuses one growth of its heap, or all from one on, and tells how many there were.
 *
 * REFUSE=N refuses the Nth growth, counted from 1, and no other; REFUSE=N+ refuses it and each later one; 0 refuses
 * none. With REFUSE_ARMED set, counting begins where the program writes the line "armed" to standard output, and ends,
 * refusals too, where it writes "disarmed". At the end of the run the file REFUSE_COUNT gets the number of growths that
 * were counted and the number of those that were refused.
 */
#define _GNU_SOURCE
#include <dlfcn.h>
#include <errno.h>
#include <fcntl.h>
#include <stdio.h>
#include <stdlib.h>
#include <string.h>
#include <unistd.h>

static long counted, refused, first;
static int later, armed, is_read;

static void read_wish(void) {
    const char *wish = getenv("REFUSE");
    is_read = 1;
    first = wish ? strtol(wish, NULL, 10) : 0;
    later = wish && strchr(wish, '+') != NULL;
    armed = getenv("REFUSE_ARMED") == NULL;
}

static int is_refused(void) {
    if (!is_read)
        read_wish();
    if (!armed)
        return 0;
    counted++;
    if (first == 0 || counted < first || (counted > first && !later))
        return 0;
    refused++;
    errno = ENOMEM;
    return 1;
}

/* glibc's own, which need no look-up: dlsym may itself grow the heap. */
extern void *__libc_malloc(size_t);
extern void *__libc_calloc(size_t, size_t);
extern void *__libc_realloc(void *, size_t);
extern void *__libc_memalign(size_t, size_t);

void *malloc(size_t size) { return is_refused() ? NULL : __libc_malloc(size); }

void *calloc(size_t count, size_t size) { return is_refused() ? NULL : __libc_calloc(count, size); }

void *realloc(void *block, size_t size) { return is_refused() ? NULL : __libc_realloc(block, size); }

void *aligned_alloc(size_t align, size_t size) { return is_refused() ? NULL : __libc_memalign(align, size); }

int posix_memalign(void **block, size_t align, size_t size) {
    if (is_refused())
        return ENOMEM;
    *block = __libc_memalign(align, size);
    return *block ? 0 : ENOMEM;
}

static int is_line(const void *bytes, size_t length, const char *line) {
    return length == strlen(line) && memcmp(bytes, line, length) == 0;
}

ssize_t write(int file, const void *bytes, size_t length) {
    static ssize_t (*next)(int, const void *, size_t);
    if (!next) {
        /* this look-up isn't the program's growth */
        int was = armed;
        if (!is_read)
            read_wish(), was = armed;
        armed = 0;
        next = (ssize_t (*)(int, const void *, size_t))dlsym(RTLD_NEXT, "write");
        armed = was;
    }
    if (getenv("REFUSE_ARMED") && file == 1) {
        if (is_line(bytes, length, "armed\n"))
            armed = 1;
        if (is_line(bytes, length, "disarmed\n"))
            armed = 0;
    }
    return next(file, bytes, length);
}

__attribute__((destructor)) static void tell(void) {
    const char *path = getenv("REFUSE_COUNT");
    char line[64];
    int length, file;
    if (!path)
        return;
    length = snprintf(line, sizeof line, "%ld %ld\n", counted, refused);
    file = open(path, O_WRONLY | O_CREAT | O_TRUNC, 0644);
    if (file >= 0) {
        if (write(file, line, (size_t)length) != length)
            abort();
        close(file);
    }
}
