/* Stands before the C library (LD_PRELOAD), and counts the blocks of memory that a program takes and gives back. As the program
 * ends, by _exit, it writes on its standard error how many it took, and how many of these it still has. */
#define _GNU_SOURCE
#include <stdatomic.h>
#include <stdio.h>
#include <stdlib.h>
#include <sys/syscall.h>
#include <unistd.h>

extern void *__libc_malloc(size_t size);
extern void *__libc_calloc(size_t count, size_t size);
extern void *__libc_realloc(void *old, size_t size);
extern void *__libc_memalign(size_t alignment, size_t size);
extern void __libc_free(void *block);

static atomic_long taken, given_back;

static void *counted(void *block) {
    taken += block != NULL;
    return block;
}

void *malloc(size_t size) {
    return counted(__libc_malloc(size));
}

void *calloc(size_t count, size_t size) {
    return counted(__libc_calloc(count, size));
}

void *aligned_alloc(size_t alignment, size_t size) {
    return counted(__libc_memalign(alignment, size));
}

void *realloc(void *old, size_t size) {
    return old ? __libc_realloc(old, size) : counted(__libc_malloc(size));
}

void free(void *block) {
    given_back += block != NULL;
    __libc_free(block);
}

void _exit(int status) {
    char line[80];
    int length = snprintf(line, sizeof line, "memory: %ld blocks taken, %ld left\n", taken, taken - given_back);
    if (write(STDERR_FILENO, line, (size_t)length) != length)
        status = 1;
    syscall(SYS_exit_group, status);
    __builtin_unreachable();
}
