/* Has writes to one file fail: with FAIL_FROM=M and FAIL_TO=N in the environment the writes to the file that FAIL_FILE names, from 1, of the numbers M to
   N do not happen and are answered EIO; with FAIL_HALF=1 the first half of such a write happens. A byte for each write goes into the file that TELL
   names, where it names one. Preloaded by outside/spares.py. */
#define _GNU_SOURCE
#include <dlfcn.h>
#include <errno.h>
#include <fcntl.h>
#include <stdlib.h>
#include <sys/stat.h>
#include <unistd.h>

static ssize_t (*real_write)(int, const void *, size_t);
static long writes;

static int is_file(int descriptor) {
    struct stat wanted, found;
    return stat(getenv("FAIL_FILE"), &wanted) == 0 && fstat(descriptor, &found) == 0 && wanted.st_dev == found.st_dev && wanted.st_ino == found.st_ino;
}

static long number(const char *name) {
    const char *text = getenv(name);
    return text == NULL ? 0 : atol(text);
}

static void tell(void) {
    const char *name = getenv("TELL");
    int told = name == NULL ? -1 : open(name, O_WRONLY | O_APPEND);
    if (told >= 0) {
        if (real_write(told, "1", 1) != 1)
            abort();
        close(told);
    }
}

ssize_t write(int descriptor, const void *bytes, size_t length) {
    if (real_write == NULL)
        real_write = (ssize_t (*)(int, const void *, size_t))dlsym(RTLD_NEXT, "write");
    if (!is_file(descriptor))
        return real_write(descriptor, bytes, length);
    writes++;
    tell();
    if (writes < number("FAIL_FROM") || number("FAIL_TO") < writes)
        return real_write(descriptor, bytes, length);
    if (number("FAIL_HALF") && real_write(descriptor, bytes, length / 2) < 0)
        abort();
    errno = EIO;
    return -1;
}
