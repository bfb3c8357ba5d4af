/* A malloc that refuses one allocation: the one whose number the variable REFUSED says. And a pthread_create that refuses
   threads: those from the number on that THREADS says, or that one alone if ONLY is set. */
#define _GNU_SOURCE
#include <dlfcn.h>
#include <errno.h>
#include <pthread.h>
#include <stddef.h>
#include <stdlib.h>
#include <unistd.h>

void *__libc_malloc(size_t);
void *__libc_realloc(void *, size_t);

/* how many allocations come before the one that is refused; descriptor 9 hears of it */
static long left = -1;

__attribute__((constructor)) static void begin(void)
{
    const char *text = getenv("REFUSED");
    if (text)
        left = atol(text) - 1;
}

static int is_refused(void)
{
    if (__atomic_fetch_sub(&left, 1, __ATOMIC_SEQ_CST) != 0)
        return 0;
    return write(9, "!", 1) == 1;
}

void *malloc(size_t size)
{
    return is_refused() ? NULL : __libc_malloc(size);
}

void *realloc(void *old, size_t size)
{
    return is_refused() ? NULL : __libc_realloc(old, size);
}

int pthread_create(pthread_t *thread, const pthread_attr_t *attr, void *(*run)(void *), void *with)
{
    static long threads;
    static int (*create)(pthread_t *, const pthread_attr_t *, void *(*)(void *), void *);
    const char *from = getenv("THREADS");
    long number = __atomic_add_fetch(&threads, 1, __ATOMIC_SEQ_CST);
    if (from && (getenv("ONLY") ? number == atol(from) : number >= atol(from)))
        return EAGAIN;
    if (!create)
        create = (int (*)(pthread_t *, const pthread_attr_t *, void *(*)(void *), void *))dlsym(RTLD_NEXT, "pthread_create");
    return create(thread, attr, run, with);
}
