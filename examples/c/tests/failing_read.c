/* A `fread` whose third call reads nothing, for examples/c/send.c: -Wl,--wrap=fread. */
#include <errno.h>
#include <stdio.h>

size_t __real_fread(void *out, size_t size, size_t count, FILE *file);

size_t __wrap_fread(void *out, size_t size, size_t count, FILE *file) {
    static int calls;
    if (++calls != 3) return __real_fread(out, size, count, file);
    errno = EIO;
    return 0;
}
