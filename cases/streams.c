// Makes calls for reading, writing and memory go otherwise than they would. It is loaded before the C library
// (LD_PRELOAD), counts the reads and the writes of the program, the first being 1, and is told by the environment what
// to do:
//   READ_AT=N, RUN=COMMAND    just before the N-th read, this command of the shell is done
//   READ_AT=N, READ_ERROR=E   the N-th read fails with the error of that number, and so do the later ones;
//                             where ONCE is set too, the N-th alone
//   READ_MOST=K               each read gives K bytes at most
//   WRITE_AT=N, WRITE_ERROR=E, ONCE, WRITE_MOST=K    likewise
//   MEMORY_AT=N               the N-th request for memory is refused, and so are the later ones
#include <errno.h>
#include <stdlib.h>
#include <sys/syscall.h>
#include <unistd.h>

static long number(const char *name) {
    const char *text = getenv(name);
    return text ? atol(text) : 0;
}

static long reads, writes, requests;

extern void *__libc_malloc(size_t size);
extern void *__libc_realloc(void *old, size_t size);

// Whether this call fails, with its error.
static int fails(const char *at, const char *error, long count) {
    if (number(error) == 0 || count < number(at) || (number("ONCE") && count > number(at))) {
        return 0;
    }
    errno = (int)number(error);
    return 1;
}

static size_t at_most(const char *name, size_t count) {
    size_t most = (size_t)number(name);
    return most && most < count ? most : count;
}

ssize_t read(int file, void *bytes, size_t count) {
    const char *command = getenv("RUN");
    reads++;
    if (fails("READ_AT", "READ_ERROR", reads)) {
        return -1;
    }
    if (command && reads == number("READ_AT")) {
        char *own = getenv("LD_PRELOAD");
        unsetenv("LD_PRELOAD");
        if (system(command) != 0) {
            _exit(125);
        }
        setenv("LD_PRELOAD", own, 1);
    }
    return syscall(SYS_read, file, bytes, at_most("READ_MOST", count));
}

ssize_t write(int file, const void *bytes, size_t count) {
    writes++;
    if (fails("WRITE_AT", "WRITE_ERROR", writes)) {
        return -1;
    }
    return syscall(SYS_write, file, bytes, at_most("WRITE_MOST", count));
}

static int is_refused(void) {
    long at = number("MEMORY_AT");
    return at != 0 && ++requests >= at;
}

void *malloc(size_t size) {
    return is_refused() ? NULL : __libc_malloc(size);
}

void *realloc(void *old, size_t size) {
    return is_refused() ? NULL : __libc_realloc(old, size);
}
