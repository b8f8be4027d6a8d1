/* Stands before the C library (LD_PRELOAD), and refuses requests for memory between two lines that the program writes on its standard
 * error: "faults: the call begins" and "faults: the call ends". REFUSE_NTH=N refuses the Nth request, and REFUSE_FROM=N each from
 * the Nth on; with neither all are granted. At the end of a call it writes how many requests there were and how many were refused. */
#define _GNU_SOURCE
#include <stdatomic.h>
#include <stdio.h>
#include <stdlib.h>
#include <string.h>
#include <unistd.h>

extern void *__libc_malloc(size_t size);
extern void *__libc_realloc(void *old, size_t size);
extern ssize_t __write(int file, const void *bytes, size_t size);

static atomic_int is_call;
static atomic_long requests, refused;
static long nth, from;

static long number_of(const char *name) {
    const char *text = getenv(name);
    return text ? atol(text) : 0;
}

static int is_refused(void) {
    if (!is_call)
        return 0;
    long request = ++requests;
    return (request == nth || (from && request >= from)) && ++refused;
}

void *malloc(size_t size) {
    return is_refused() ? NULL : __libc_malloc(size);
}

void *realloc(void *old, size_t size) {
    return is_refused() ? NULL : __libc_realloc(old, size);
}

static int begins(const void *bytes, size_t size, const char *text) {
    return size >= strlen(text) && !memcmp(bytes, text, strlen(text));
}

ssize_t write(int file, const void *bytes, size_t size) {
    ssize_t written = __write(file, bytes, size);
    char line[80];
    if (file == STDERR_FILENO && begins(bytes, size, "faults: the call begins")) {
        nth = number_of("REFUSE_NTH");
        from = number_of("REFUSE_FROM");
        requests = refused = 0;
        is_call = 1;
    } else if (file == STDERR_FILENO && begins(bytes, size, "faults: the call ends")) {
        is_call = 0;
        int length = snprintf(line, sizeof line, "faults: requests %ld refused %ld\n", requests, refused);
        __write(STDERR_FILENO, line, (size_t)length);
    }
    return written;
}
