/* Preloaded into a program, refuses one of its requests for memory: cc -shared -fPIC -O2 refuse_memory.c
 *
 * REFUSE_AT   the number of the request that is refused, counted from 1; none is where it is missing
 * REFUSE_ALL  where it is there, all requests behind that one are refused too
 * REFUSE_TELL a descriptor: a byte is written to it when the first request is refused
 *
 * Requests are the calls of malloc, calloc, realloc and the aligned ones, of the program and of the C
 * library, and the starts of threads, each of which needs a stack. Those before the program's own start
 * are the loader's and aren't counted.
 */
#define _GNU_SOURCE
#include <dlfcn.h>
#include <errno.h>
#include <pthread.h>
#include <stdatomic.h>
#include <stddef.h>
#include <stdlib.h>
#include <unistd.h>

/* The C library's own, which it exports beside the names that are replaced here. */
void *__libc_malloc(size_t);
void *__libc_calloc(size_t, size_t);
void *__libc_realloc(void *, size_t);
void *__libc_memalign(size_t, size_t);

static atomic_ulong requests;
static unsigned long refused_at;
static int refuses_all, tells = -1;

static unsigned long number(const char *name) {
    const char *text = getenv(name);
    return text ? strtoul(text, NULL, 10) : 0;
}

__attribute__((constructor)) static void begin(void) {
    refuses_all = getenv("REFUSE_ALL") != NULL;
    if (getenv("REFUSE_TELL"))
        tells = (int)number("REFUSE_TELL");
    atomic_store(&requests, 0);
    refused_at = number("REFUSE_AT");
}

static int is_refused(void) {
    unsigned long at = refused_at, now = atomic_fetch_add(&requests, 1) + 1;
    if (!at || now < at || (now > at && !refuses_all))
        return 0;
    if (now == at && tells >= 0 && write(tells, "r", 1) != 1)
        abort();
    errno = ENOMEM;
    return 1;
}

void *malloc(size_t size) { return is_refused() ? NULL : __libc_malloc(size); }

void *calloc(size_t count, size_t size) { return is_refused() ? NULL : __libc_calloc(count, size); }

void *realloc(void *old, size_t size) { return is_refused() ? NULL : __libc_realloc(old, size); }

void *memalign(size_t align, size_t size) { return is_refused() ? NULL : __libc_memalign(align, size); }

void *aligned_alloc(size_t align, size_t size) { return memalign(align, size); }

int posix_memalign(void **made, size_t align, size_t size) {
    void *it = memalign(align, size);
    if (!it)
        return ENOMEM;
    *made = it;
    return 0;
}

int pthread_create(pthread_t *made, const pthread_attr_t *with, void *(*run)(void *), void *given) {
    static int (*create)(pthread_t *, const pthread_attr_t *, void *(*)(void *), void *);
    if (!create)
        create = (int (*)(pthread_t *, const pthread_attr_t *, void *(*)(void *), void *))dlsym(RTLD_NEXT, "pthread_create");
    return is_refused() ? EAGAIN : create(made, with, run, given);
}
