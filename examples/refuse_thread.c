/* Refuses threads of the program that it is loaded into: the one whose number the environment's REFUSE gives, counted from 1, or each if
 * that is `all`. It then makes the file that REFUSED names, so that who started the program knows that it came so far. */
#define _GNU_SOURCE
#include <dlfcn.h>
#include <errno.h>
#include <fcntl.h>
#include <pthread.h>
#include <stdatomic.h>
#include <stdlib.h>
#include <string.h>
#include <unistd.h>

typedef int create(pthread_t *, const pthread_attr_t *, void *(*)(void *), void *);

static void tell(void) {
    const char *name = getenv("REFUSED");
    int file = name ? open(name, O_CREAT | O_WRONLY, 0600) : -1;
    if (file >= 0) close(file);
}

int pthread_create(pthread_t *thread, const pthread_attr_t *how, void *(*work)(void *), void *with) {
    static atomic_long count;
    const char *number = getenv("REFUSE");
    long now = atomic_fetch_add(&count, 1) + 1;
    if (number && (!strcmp(number, "all") || now == atol(number))) {
        tell();
        return EAGAIN;
    }
    create *next = (create *)dlsym(RTLD_NEXT, "pthread_create");
    return next ? next(thread, how, work, with) : EAGAIN;
}
