/* A disk that does not take some signs in names, as that of a memory stick: put before the C library with LD_PRELOAD. */
#define _GNU_SOURCE
#include <dlfcn.h>
#include <errno.h>
#include <fcntl.h>
#include <stdarg.h>
#include <string.h>
#include <sys/types.h>

int open64(const char *path, int flags, ...)
{
    static int (*real)(const char *, int, ...);
    const char *name = strrchr(path, '/');
    va_list rest;
    mode_t mode;

    va_start(rest, flags);
    mode = flags & O_CREAT ? va_arg(rest, mode_t) : 0;
    va_end(rest);
    name = name == NULL ? path : name + 1;
    if (flags & O_CREAT && (strpbrk(name, "\"*:<>?\\|") != NULL || strchr(". ", name[strlen(name) - 1]) != NULL)) {
        errno = EINVAL;
        return -1;
    }
    if (real == NULL)
        *(void **)&real = dlsym(RTLD_NEXT, "open64");
    return real(path, flags, mode);
}
