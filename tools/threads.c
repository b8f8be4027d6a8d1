/* Stands before the C library (LD_PRELOAD), and writes a line on standard error for each thread that the program asks for.
 * REFUSE_THREADS=N refuses the Nth and each behind it. */
#define _GNU_SOURCE
#include <dlfcn.h>
#include <errno.h>
#include <pthread.h>
#include <stdatomic.h>
#include <stdio.h>
#include <stdlib.h>

typedef int start(pthread_t *thread, const pthread_attr_t *traits, void *(*work)(void *), void *given);

static atomic_long asked;

int pthread_create(pthread_t *thread, const pthread_attr_t *traits, void *(*work)(void *), void *given) {
    const char *from = getenv("REFUSE_THREADS");
    long number = ++asked;
    fprintf(stderr, "threads: one is asked for\n");
    if (from && number >= atol(from))
        return EAGAIN;
    start *of_library = (start *)dlsym(RTLD_NEXT, "pthread_create");
    return of_library(thread, traits, work, given);
}
