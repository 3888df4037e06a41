/* A library to be loaded before a program (LD_PRELOAD). It refuses one of the program's calls of
 * malloc and realloc, counted from 1 over all threads, or all from that one on:
 *
 *     REFUSED=N        the number of the call, 0 for none
 *     REFUSED_ON=1     all later calls too
 *     REFUSED_COUNT=F  how many calls there were is written into the file F at the end
 */
#define _GNU_SOURCE
#include <dlfcn.h>
#include <fcntl.h>
#include <stdatomic.h>
#include <stdio.h>
#include <stdlib.h>
#include <sys/syscall.h>
#include <unistd.h>

static atomic_ulong calls;
static unsigned long refused;
static int all_later;
static void *(*real_malloc)(size_t);
static void *(*real_realloc)(void *, size_t);

__attribute__((constructor)) static void begin(void) {
    const char *number = getenv("REFUSED");
    real_malloc = dlsym(RTLD_NEXT, "malloc");
    real_realloc = dlsym(RTLD_NEXT, "realloc");
    all_later = getenv("REFUSED_ON") != NULL;
    refused = number ? strtoul(number, NULL, 10) : 0;
    atomic_store(&calls, 0);
}

/* How a program ends that doesn't return from `main` through the C library. */
void _exit(int status) {
    const char *name = getenv("REFUSED_COUNT");
    char text[32];
    int length = snprintf(text, sizeof text, "%lu\n", atomic_load(&calls));
    int file = name ? open(name, O_WRONLY | O_CREAT | O_TRUNC, 0666) : -1;
    if (file >= 0) {
        if (write(file, text, (size_t)length) != length)
            status = 99;
        close(file);
    }
    syscall(SYS_exit_group, status);
    __builtin_unreachable();
}

/* Whether this call is refused. Calls before the program begins aren't counted. */
static int is_refused(void) {
    unsigned long number;
    if (!real_malloc || !real_realloc)
        return 0;
    number = atomic_fetch_add(&calls, 1) + 1;
    return refused && (all_later ? number >= refused : number == refused);
}

void *malloc(size_t size) {
    if (is_refused())
        return NULL;
    if (!real_malloc)
        real_malloc = dlsym(RTLD_NEXT, "malloc");
    return real_malloc(size);
}

void *realloc(void *old, size_t size) {
    if (is_refused())
        return NULL;
    if (!real_realloc)
        real_realloc = dlsym(RTLD_NEXT, "realloc");
    return real_realloc(old, size);
}
