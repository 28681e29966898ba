/* Loaded before the C library: makes syncs of files fail or slow.
   SYNC_FAILS=N     the sync with the number N, counted from 1, fails with EIO, and each one after it
   SYNC_MICROS=N    each sync takes so many microseconds more
   SYNC_BELOW=PATH  only syncs of files whose path begins with this are counted, fail or are slow */
#define _GNU_SOURCE
#include <dlfcn.h>
#include <errno.h>
#include <limits.h>
#include <stdio.h>
#include <stdlib.h>
#include <string.h>
#include <unistd.h>

static long calls;

static long number(const char *name) {
    const char *text = getenv(name);
    return text ? atol(text) : 0;
}

static int is_below(int file) {
    const char *path = getenv("SYNC_BELOW");
    char link[64], found[PATH_MAX];
    if (!path)
        return 1;
    snprintf(link, sizeof link, "/proc/self/fd/%d", file);
    ssize_t length = readlink(link, found, sizeof found - 1);
    return length >= (ssize_t)strlen(path) && !strncmp(found, path, strlen(path));
}

static int synced(const char *name, int file) {
    int (*real)(int) = (int (*)(int))dlsym(RTLD_NEXT, name);
    if (!is_below(file))
        return real(file);
    long fails = number("SYNC_FAILS"), micros = number("SYNC_MICROS");
    long call = __atomic_add_fetch(&calls, 1, __ATOMIC_RELAXED);
    if (micros)
        usleep((useconds_t)micros);
    if (fails && fails <= call) {
        errno = EIO;
        return -1;
    }
    return real(file);
}

int fsync(int file) { return synced("fsync", file); }

int fdatasync(int file) { return synced("fdatasync", file); }
