/* Refuses one request for memory: with FAIL_AT=N in the environment the Nth call of malloc or realloc, from 1, gives nothing, and a byte goes into
   the file that TELL names. Preloaded by outside/no_memory.py. */
#define _GNU_SOURCE
#include <dlfcn.h>
#include <errno.h>
#include <fcntl.h>
#include <stdlib.h>
#include <unistd.h>

static long calls;

static int is_refused(void) {
    const char *at = getenv("FAIL_AT");
    if (at == NULL || ++calls != atol(at))
        return 0;
    int told = open(getenv("TELL"), O_WRONLY);
    if (told >= 0 && write(told, "1", 1) == 1)
        close(told);
    errno = ENOMEM;
    return 1;
}

void *malloc(size_t size) {
    static void *(*real)(size_t);
    if (real == NULL)
        real = (void *(*)(size_t))dlsym(RTLD_NEXT, "malloc");
    return is_refused() ? NULL : real(size);
}

void *realloc(void *old, size_t size) {
    static void *(*real)(void *, size_t);
    if (real == NULL)
        real = (void *(*)(void *, size_t))dlsym(RTLD_NEXT, "realloc");
    return is_refused() ? NULL : real(old, size);
}
