/* Loaded before the C library: the process is killed at one of its calls that change files, and what it wrote and did not
   sync is lost in part, as when the power goes.
   CRASH_BELOW=PATH  only calls for files whose path begins with this are counted
   CRASH_AT=N        at the call with the number N, counted from 1: pwrite, write, ftruncate, fsync, fdatasync. 0: never
   CRASH_SEED=S      which of the unsynced pieces of 512 bytes are lost. 0: none is, as when only the process ends
   CRASH_COUNT=FILE  the number of each call is written there, so that a run without a crash tells how many there are */
#define _GNU_SOURCE
#include <dlfcn.h>
#include <fcntl.h>
#include <limits.h>
#include <pthread.h>
#include <signal.h>
#include <stdio.h>
#include <stdlib.h>
#include <string.h>
#include <sys/stat.h>
#include <unistd.h>

enum { PIECE = 512 };

/* What a write that is not synced has replaced. */
struct written {
    struct written *before;
    int file;
    ino_t inode;
    off_t at, size; /* where, and the size of the file before it */
    size_t length;
    char *old;
};

static pthread_mutex_t lock = PTHREAD_MUTEX_INITIALIZER;
static struct written *last;
static long calls;
static unsigned long state;

static long number(const char *name) {
    const char *text = getenv(name);
    return text ? atol(text) : 0;
}

static int is_below(int file) {
    const char *path = getenv("CRASH_BELOW");
    char link[64], found[PATH_MAX];
    if (!path)
        return 0;
    snprintf(link, sizeof link, "/proc/self/fd/%d", file);
    ssize_t length = readlink(link, found, sizeof found - 1);
    return length >= (ssize_t)strlen(path) && !strncmp(found, path, strlen(path));
}

static unsigned long some(void) {
    state ^= state << 13;
    state ^= state >> 7;
    state ^= state << 17;
    return state;
}

static ssize_t put(int file, const void *bytes, size_t length, off_t at) {
    static ssize_t (*real)(int, const void *, size_t, off_t);
    if (!real)
        real = (ssize_t (*)(int, const void *, size_t, off_t))dlsym(RTLD_NEXT, "pwrite64");
    return real(file, bytes, length, at);
}

/* Some pieces of each write that is not synced are again what was there before, the last write first. */
static void lose(void) {
    for (struct written *it = last; it; it = it->before) {
        for (size_t from = 0; from < it->length; from += PIECE) {
            size_t length = it->length - from < PIECE ? it->length - from : PIECE;
            if (some() % 2)
                put(it->file, it->old + from, length, it->at + (off_t)from);
        }
        struct stat now;
        if (some() % 4 == 0 && !fstat(it->file, &now) && it->size < now.st_size && ftruncate(it->file, it->size))
            continue;
    }
}

static void die(void) {
    kill(getpid(), SIGKILL);
    for (;;)
        pause();
}

/* Notes a write before it is made. */
static void note(int file, off_t at, size_t length) {
    struct stat now;
    struct written *it = calloc(1, sizeof *it);
    if (!it || fstat(file, &now) || !(it->old = calloc(1, length + 1)))
        die();
    it->file = file;
    it->inode = now.st_ino;
    it->at = at;
    it->size = now.st_size;
    it->length = length;
    if (pread(file, it->old, length, at) < 0)
        die();
    it->before = last;
    last = it;
}

/* What was written to this file is synced. */
static void settle(int file) {
    struct stat now;
    if (fstat(file, &now))
        return;
    for (struct written **at = &last; *at;) {
        struct written *it = *at;
        if (it->inode != now.st_ino) {
            at = &it->before;
            continue;
        }
        *at = it->before;
        free(it->old);
        free(it);
    }
}

/* One more call. The process may end here: a write is then made in part, or not at all. */
static void count(int file, const void *bytes, size_t length, off_t at) {
    long mine = ++calls;
    const char *told = getenv("CRASH_COUNT");
    if (told) {
        FILE *out = fopen(told, "w");
        if (out) {
            fprintf(out, "%ld\n", mine);
            fclose(out);
        }
    }
    if (mine != number("CRASH_AT"))
        return;
    state = (unsigned long)number("CRASH_SEED");
    if (state) {
        state = state * 0x9E3779B97F4A7C15ul + (unsigned long)mine;
        if (bytes) {
            note(file, at, length);
            put(file, bytes, length, at);
        }
        lose();
    }
    die();
}

static ssize_t write_at(int file, const void *bytes, size_t length, off_t at) {
    if (!is_below(file))
        return put(file, bytes, length, at);
    pthread_mutex_lock(&lock);
    count(file, bytes, length, at);
    note(file, at, length);
    ssize_t done = put(file, bytes, length, at);
    pthread_mutex_unlock(&lock);
    return done;
}

ssize_t pwrite(int file, const void *bytes, size_t length, off_t at) { return write_at(file, bytes, length, at); }

ssize_t pwrite64(int file, const void *bytes, size_t length, off_t at) { return write_at(file, bytes, length, at); }

ssize_t write(int file, const void *bytes, size_t length) {
    ssize_t (*real)(int, const void *, size_t) = (ssize_t (*)(int, const void *, size_t))dlsym(RTLD_NEXT, "write");
    if (!is_below(file))
        return real(file, bytes, length);
    pthread_mutex_lock(&lock);
    off_t at = lseek(file, 0, SEEK_CUR);
    count(file, bytes, length, at);
    note(file, at, length);
    ssize_t done = real(file, bytes, length);
    pthread_mutex_unlock(&lock);
    return done;
}

static int resized(const char *name, int file, off_t size) {
    int (*real)(int, off_t) = (int (*)(int, off_t))dlsym(RTLD_NEXT, name);
    if (is_below(file)) {
        pthread_mutex_lock(&lock);
        count(file, NULL, 0, 0);
        pthread_mutex_unlock(&lock);
    }
    return real(file, size);
}

int ftruncate64(int file, off_t size) { return resized("ftruncate64", file, size); }

static int synced(const char *name, int file) {
    int (*real)(int) = (int (*)(int))dlsym(RTLD_NEXT, name);
    if (!is_below(file))
        return real(file);
    pthread_mutex_lock(&lock);
    count(file, NULL, 0, 0);
    int done = real(file);
    if (!done)
        settle(file);
    pthread_mutex_unlock(&lock);
    return done;
}

int fsync(int file) { return synced("fsync", file); }

int fdatasync(int file) { return synced("fdatasync", file); }
