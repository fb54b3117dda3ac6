/* Refuses one allocation of the program that it is loaded into: the one whose number the environment's REFUSE gives, counted from 1. It
 * then makes the file that REFUSED names, so that who started the program knows that it came so far. If the environment has REFUSE_ON, the
 * memory is used up from then on: all later ones are refused too, but what fits into the block that was freed last. */
#include <errno.h>
#include <fcntl.h>
#include <malloc.h>
#include <stdatomic.h>
#include <stdlib.h>
#include <unistd.h>

extern void *__libc_malloc(size_t);
extern void *__libc_calloc(size_t, size_t);
extern void *__libc_realloc(void *, size_t);
extern void *__libc_memalign(size_t, size_t);
extern void __libc_free(void *);

static void tell(void) {
    const char *name = getenv("REFUSED");
    int file = name ? open(name, O_CREAT | O_WRONLY, 0600) : -1;
    if (file >= 0) close(file);
}

/* How much was freed since the last allocation. */
static atomic_size_t freed;

static int is_refused(size_t size) {
    static atomic_long count;
    const char *number = getenv("REFUSE");
    if (!number || !atol(number)) return 0;
    long later = atomic_fetch_add(&count, 1) + 1 - atol(number);
    if (getenv("REFUSE_ON")) {
        size_t fits = atomic_exchange(&freed, 0);
        if (later < 0 || size <= fits) return 0;
    } else if (later != 0) {
        return 0;
    }
    tell();
    errno = ENOMEM;
    return 1;
}

void *malloc(size_t size) { return is_refused(size) ? NULL : __libc_malloc(size); }
void *calloc(size_t number, size_t size) { return is_refused(number * size) ? NULL : __libc_calloc(number, size); }
void *realloc(void *old, size_t size) { return is_refused(size) ? NULL : __libc_realloc(old, size); }
void *aligned_alloc(size_t alignment, size_t size) { return is_refused(size) ? NULL : __libc_memalign(alignment, size); }

void free(void *block) {
    if (block) atomic_store(&freed, malloc_usable_size(block));
    __libc_free(block);
}

int posix_memalign(void **made, size_t alignment, size_t size) {
    void *found = is_refused(size) ? NULL : __libc_memalign(alignment, size);
    if (!found) return ENOMEM;
    *made = found;
    return 0;
}
