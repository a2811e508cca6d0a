// Counts how often a program asks the C library for memory, and refuses some of it. It is loaded before the C library
// (LD_PRELOAD), and is told by the environment what to do:
//   REFUSE_FROM=N    the N-th request is refused, and all later ones too
//   REFUSE_ALONE=1   the N-th alone
//   REFUSE_TELL=FILE as the program ends, the count of its requests is written there
#include <errno.h>
#include <fcntl.h>
#include <stdio.h>
#include <stdlib.h>
#include <unistd.h>

extern void *__libc_malloc(size_t size);
extern void *__libc_calloc(size_t count, size_t size);
extern void *__libc_realloc(void *old, size_t size);
extern void *__libc_memalign(size_t alignment, size_t size);

static unsigned long requests, from, alone;

static int refused(void) {
    requests++;
    if (from == 0 || requests < from || (alone && requests > from)) {
        return 0;
    }
    errno = ENOMEM;
    return 1;
}

__attribute__((constructor)) static void begin(void) {
    const char *number = getenv("REFUSE_FROM");
    from = number ? strtoul(number, NULL, 10) : 0;
    alone = getenv("REFUSE_ALONE") != NULL;
    requests = 0;
}

__attribute__((destructor)) static void end(void) {
    const char *file = getenv("REFUSE_TELL");
    if (file != NULL) {
        char text[32];
        int length = snprintf(text, sizeof text, "%lu\n", requests);
        int out = open(file, O_WRONLY | O_CREAT | O_TRUNC, 0600);
        if (out < 0 || write(out, text, (size_t)length) != length) {
            _exit(125);
        }
    }
}

void *malloc(size_t size) {
    return refused() ? NULL : __libc_malloc(size);
}

void *calloc(size_t count, size_t size) {
    return refused() ? NULL : __libc_calloc(count, size);
}

void *realloc(void *old, size_t size) {
    return refused() ? NULL : __libc_realloc(old, size);
}

void *memalign(size_t alignment, size_t size) {
    return refused() ? NULL : __libc_memalign(alignment, size);
}

void *aligned_alloc(size_t alignment, size_t size) {
    return memalign(alignment, size);
}

int posix_memalign(void **place, size_t alignment, size_t size) {
    *place = memalign(alignment, size);
    return *place == NULL ? ENOMEM : 0;
}
