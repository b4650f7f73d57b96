/* Has the nth call of malloc or realloc refused, and counts the blocks that are held. A program
 * that includes it is linked with -Wl,--wrap=malloc,--wrap=realloc,--wrap=free. */
#include <stdio.h>
#include <stdlib.h>

void *__real_malloc(size_t len);
void *__real_realloc(void *at, size_t len);
void __real_free(void *at);

static long counted, refused, held, refusals;

static int is_refused(void) {
    int is = ++counted == refused;
    refusals += is;
    return is;
}

void *__wrap_malloc(size_t len) {
    if (is_refused()) return NULL;
    void *at = __real_malloc(len);
    held += at != NULL;
    return at;
}

void *__wrap_realloc(void *at, size_t len) {
    if (is_refused()) return NULL;
    void *now = __real_realloc(at, len);
    held += at == NULL && now != NULL;
    return now;
}

void __wrap_free(void *at) {
    held -= at != NULL;
    __real_free(at);
}

#define WANT(test)                                                                                 \
    do {                                                                                           \
        if (!(test)) {                                                                             \
            printf("refusal %ld: line %d: %s\n", refused, __LINE__, #test);                        \
            exit(1);                                                                               \
        }                                                                                          \
    } while (0)

/* Makes a call, and makes it again where it was refused. */
#define AGAIN(call)                                                                                \
    do {                                                                                           \
        uint32_t status = (call);                                                                  \
        if (status == ZIMGASOL_NO_MEMORY) {                                                        \
            WANT(refusals == 1);                                                                   \
            status = (call);                                                                       \
        }                                                                                          \
        WANT(status == ZIMGASOL_DONE);                                                             \
    } while (0)
