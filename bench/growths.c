/* Refuses one growth of memory of the program that loads it, the one whose number GROWTH_REFUSED has, and no other; and
   makes the file that GROWTH_TOLD names where it did. A growth is a call of malloc, calloc, realloc, aligned_alloc or
   posix_memalign, the first of the process having the number 1.

       gcc -O2 -shared -fPIC -o growths.so bench/growths.c
*/
#include <errno.h>
#include <fcntl.h>
#include <stdlib.h>
#include <unistd.h>

extern void *__libc_malloc(size_t);
extern void *__libc_calloc(size_t, size_t);
extern void *__libc_realloc(void *, size_t);
extern void *__libc_memalign(size_t, size_t);

static long made, refused;

__attribute__((constructor)) static void begin(void) {
    const char *number = getenv("GROWTH_REFUSED");
    refused = number ? atol(number) : 0;
}

static int is_refused(void) {
    if (++made != refused)
        return 0;
    const char *path = getenv("GROWTH_TOLD");
    int file = path ? open(path, O_CREAT | O_WRONLY, 0600) : -1;
    if (file >= 0)
        close(file);
    errno = ENOMEM;
    return 1;
}

void *malloc(size_t size) { return is_refused() ? 0 : __libc_malloc(size); }
void *calloc(size_t count, size_t size) { return is_refused() ? 0 : __libc_calloc(count, size); }
void *realloc(void *block, size_t size) { return is_refused() ? 0 : __libc_realloc(block, size); }
void *aligned_alloc(size_t unit, size_t size) { return is_refused() ? 0 : __libc_memalign(unit, size); }

int posix_memalign(void **block, size_t unit, size_t size) {
    if (is_refused())
        return ENOMEM;
    *block = __libc_memalign(unit, size);
    return *block ? 0 : ENOMEM;
}
