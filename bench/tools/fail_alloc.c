/* Loaded in front of the C library (LD_PRELOAD): the allocation of number FAIL_AT finds no memory, all others go on as ever. At the
   end the count of allocations goes to the file named by COUNT_FILE. Another process says by the file named by FAIL_FILE, a `long`, how
   many allocations from now on it is until one fails, while it is above 0; each counts it down. */
#include <errno.h>
#include <fcntl.h>
#include <stdio.h>
#include <stdlib.h>
#include <sys/mman.h>
#include <unistd.h>

static long count, fail_at = -1;
static volatile long *left;

/* The number that the file has, as whoever writes it changes it. */
static volatile long *shared(const char *file) {
    int at = file ? open(file, O_RDWR) : -1;
    void *it = at >= 0 ? mmap(NULL, sizeof *left, PROT_READ | PROT_WRITE, MAP_SHARED, at, 0) : MAP_FAILED;
    if (at >= 0) close(at);
    return it == MAP_FAILED ? NULL : it;
}

/* Whether the allocation that is asked for now is to fail. */
static int fails(void) {
    if (fail_at < 0) {
        const char *number = getenv("FAIL_AT");
        fail_at = number ? atol(number) : 0;
        left = shared(getenv("FAIL_FILE"));
    }
    int now = left && *left > 0 && --*left == 0;
    if (++count != fail_at && !now) return 0;
    errno = ENOMEM;
    return 1;
}

extern void *__libc_malloc(size_t size);
extern void *__libc_calloc(size_t many, size_t size);
extern void *__libc_realloc(void *old, size_t size);

void *malloc(size_t size) { return fails() ? NULL : __libc_malloc(size); }
void *calloc(size_t many, size_t size) { return fails() ? NULL : __libc_calloc(many, size); }
void *realloc(void *old, size_t size) { return fails() ? NULL : __libc_realloc(old, size); }

__attribute__((destructor)) static void tell(void) {
    const char *file = getenv("COUNT_FILE");
    int to = file ? open(file, O_WRONLY | O_CREAT | O_TRUNC, 0600) : -1;
    if (to >= 0) dprintf(to, "%ld", count);
}
