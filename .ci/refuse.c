// Loaded before the program (LD_PRELOAD), refuses it the memory that it asks for the REFUSE-th time, counted from 1, and
// where REFUSE_ON is set all that it asks for after that too; and the thread that it starts the REFUSE_THREAD-th time.
// At the end it writes to the file REFUSE_SAYS how often memory was asked for, how often a file was opened to be written
// before memory was first refused, how often after, and how often a thread was started or refused.
#define _GNU_SOURCE
#include <dlfcn.h>
#include <errno.h>
#include <fcntl.h>
#include <pthread.h>
#include <stdarg.h>
#include <stdio.h>
#include <stdlib.h>
#include <sys/syscall.h>
#include <unistd.h>

extern void *__libc_malloc(size_t);
extern void *__libc_realloc(void *, size_t);

static long at, asked, before, after, thread_at, threads;
static int goes_on, is_counting;

// How often something is to be refused, by the name of a variable.
static long number_of(const char *name) {
    const char *text = getenv(name);
    return text ? atol(text) : 0;
}

__attribute__((constructor)) static void begin(void) {
    at = number_of("REFUSE");
    thread_at = number_of("REFUSE_THREAD");
    goes_on = getenv("REFUSE_ON") != NULL;
    is_counting = 1;
}

// Whether this is the time.
static int refuses(void) {
    if (!is_counting) return 0;
    long number = __atomic_add_fetch(&asked, 1, __ATOMIC_SEQ_CST);
    return at != 0 && (number == at || (goes_on && number > at));
}

void *malloc(size_t size) { return refuses() ? NULL : __libc_malloc(size); }

void *realloc(void *old, size_t size) { return refuses() ? NULL : __libc_realloc(old, size); }

int pthread_create(pthread_t *thread, const pthread_attr_t *how, void *(*run)(void *), void *given) {
    if (__atomic_add_fetch(&threads, 1, __ATOMIC_SEQ_CST) == thread_at) return EAGAIN;
    int (*create)(pthread_t *, const pthread_attr_t *, void *(*)(void *), void *) = dlsym(RTLD_NEXT, "pthread_create");
    return create(thread, how, run, given);
}

// The program opens files by this call.
int open(const char *path, int flags, ...) {
    if ((flags & O_ACCMODE) != O_RDONLY) {
        int is_late = at != 0 && __atomic_load_n(&asked, __ATOMIC_SEQ_CST) >= at;
        __atomic_add_fetch(is_late ? &after : &before, 1, __ATOMIC_SEQ_CST);
    }
    va_list rest;
    va_start(rest, flags);
    mode_t mode = flags & O_CREAT ? va_arg(rest, mode_t) : 0;
    va_end(rest);
    return openat(AT_FDCWD, path, flags, mode);
}

// The program ends by this call.
void _exit(int status) {
    const char *path = getenv("REFUSE_SAYS");
    is_counting = 0;
    FILE *says = path ? fopen(path, "w") : NULL;
    if (says) {
        fprintf(says, "%ld %ld %ld %ld\n", asked, before, after, threads);
        fclose(says);
    }
    syscall(SYS_exit_group, status);
    __builtin_unreachable();
}
