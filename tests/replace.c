/* Preloaded before a program: replaces a file just before the program first writes to standard error.
 *
 * The file REPLACE_BY is renamed to REPLACE; REPLACE is removed where REPLACE_BY is empty.
 */
#define _GNU_SOURCE
#include <dlfcn.h>
#include <stdio.h>
#include <stdlib.h>
#include <unistd.h>

static void replace(void) {
    const char *path = getenv("REPLACE"), *by = getenv("REPLACE_BY");
    if (path == NULL || by == NULL)
        return;
    if (*by == '\0')
        unlink(path);
    else
        rename(by, path);
}

ssize_t write(int file, const void *bytes, size_t count) {
    static ssize_t (*real)(int, const void *, size_t);
    static int done;
    if (real == NULL)
        real = (ssize_t (*)(int, const void *, size_t))dlsym(RTLD_NEXT, "write");
    if (file == STDERR_FILENO && !done) {
        done = 1;
        replace();
    }
    return real(file, bytes, count);
}
