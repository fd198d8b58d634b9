// Loaded before a program: it refuses the program's request for memory of the number REFUSE, and the
// start of a thread of the number REFUSE_THREAD, or of each if that is `all`. At each refusal an r
// is written to file 9.
#define _GNU_SOURCE
#include <dlfcn.h>
#include <errno.h>
#include <pthread.h>
#include <stdlib.h>
#include <string.h>
#include <unistd.h>

extern void *__libc_calloc(size_t n, size_t size);

// The number in a variable of the environment; 0 if it is absent, and -1 if it is `all`.
static long wanted(const char *name) {
    const char *text = getenv(name);
    if (!text) return 0;
    return strcmp(text, "all") == 0 ? -1 : atol(text);
}

static int refused(const char *name, long *met) {
    long number = __atomic_add_fetch(met, 1, __ATOMIC_SEQ_CST);
    long which = wanted(name);
    if (which != -1 && which != number) return 0;
    (void)!write(9, "r", 1);
    return 1;
}

static int memory(void) {
    static long requests;
    if (!refused("REFUSE", &requests)) return 0;
    errno = ENOMEM;
    return 1;
}

void *malloc(size_t n) {
    static void *(*real)(size_t);
    if (!real) real = dlsym(RTLD_NEXT, "malloc");
    return memory() ? 0 : real(n);
}

// Not by dlsym, which asks for memory itself.
void *calloc(size_t n, size_t size) {
    return memory() ? 0 : __libc_calloc(n, size);
}

void *realloc(void *p, size_t n) {
    static void *(*real)(void *, size_t);
    if (!real) real = dlsym(RTLD_NEXT, "realloc");
    return memory() ? 0 : real(p, n);
}

void *aligned_alloc(size_t a, size_t n) {
    static void *(*real)(size_t, size_t);
    if (!real) real = dlsym(RTLD_NEXT, "aligned_alloc");
    return memory() ? 0 : real(a, n);
}

int posix_memalign(void **p, size_t a, size_t n) {
    static int (*real)(void **, size_t, size_t);
    if (!real) real = dlsym(RTLD_NEXT, "posix_memalign");
    return memory() ? ENOMEM : real(p, a, n);
}

int pthread_create(pthread_t *thread, const pthread_attr_t *attr, void *(*start)(void *), void *arg) {
    static int (*real)(pthread_t *, const pthread_attr_t *, void *(*)(void *), void *);
    static long starts;
    if (!real) real = dlsym(RTLD_NEXT, "pthread_create");
    return refused("REFUSE_THREAD", &starts) ? EAGAIN : real(thread, attr, start, arg);
}
