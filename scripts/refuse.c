/* Loaded before the C library: lets allocations fail, and says so on standard error. A growth is a call for memory.
   REFUSE=N         the growth with the number N, counted from 1, fails
   REFUSE_EVERY=N   each N-th one after that one too
   REFUSE_PERIOD=S  in place of these two: one growth in each period of S seconds but the first, at a random
                    moment, in whichever thread asks for memory then */
#define _GNU_SOURCE
#include <dlfcn.h>
#include <stdlib.h>
#include <time.h>
#include <unistd.h>

enum { LOOK = 1000 }; /* growths of a thread from one look at the clock to the next */

static long calls;
static long long start, period, next; /* nanoseconds; no period: growths are refused by number */
static int due;                       /* growths up to the one that is refused, below 1 if none is due */
/* A thread may end soon, so it looks at its first growth too. */
static __thread unsigned unlooked __attribute__((tls_model("initial-exec")));

static long long now(void) {
    struct timespec t;
    clock_gettime(CLOCK_MONOTONIC, &t);
    return t.tv_sec * 1000000000ll + t.tv_nsec;
}

static unsigned long long mixed(unsigned long long z) { /* splitmix64 */
    z += 0x9e3779b97f4a7c15u;
    z = (z ^ (z >> 30)) * 0xbf58476d1ce4e5b9u;
    z = (z ^ (z >> 27)) * 0x94d049bb133111ebu;
    return z ^ (z >> 31);
}

/* A moment at random in the period after the one of this moment. */
static long long moment_after(long long at) {
    long long begin = at - (at - start) % period + period;
    return begin + (long long)(mixed((unsigned long long)at) % (unsigned long long)period);
}

static void look(void) {
    long long at = now(), wanted = __atomic_load_n(&next, __ATOMIC_RELAXED);
    if (at < wanted)
        return;
    /* One thread sets what is due. It comes some growths later, in any thread. */
    if (__atomic_compare_exchange_n(&next, &wanted, moment_after(at), 0, __ATOMIC_RELAXED, __ATOMIC_RELAXED))
        __atomic_store_n(&due, 1 + (int)(mixed((unsigned long long)~at) % LOOK), __ATOMIC_RELAXED);
}

static int refused_in_period(void) {
    if (unlooked++ % LOOK == 0)
        look();
    if (__atomic_load_n(&due, __ATOMIC_RELAXED) < 1 || __atomic_sub_fetch(&due, 1, __ATOMIC_RELAXED) != 0)
        return 0;
    return write(2, "refused\n", 8) == 8;
}

static int refused(void) {
    static long wanted, every;
    if (wanted == 0) {
        const char *text = getenv("REFUSE_EVERY");
        every = text ? atol(text) : 0;
        text = getenv("REFUSE");
        wanted = text ? atol(text) : -1;
        text = getenv("REFUSE_PERIOD");
        if (text && atof(text) > 0) {
            start = now();
            period = (long long)(atof(text) * 1e9);
            next = moment_after(start);
            wanted = -1;
        }
    }
    if (period > 0)
        return refused_in_period();
    /* Several threads may grow at once. */
    long call = __atomic_add_fetch(&calls, 1, __ATOMIC_SEQ_CST);
    if (call != wanted && !(every > 0 && call > wanted && (call - wanted) % every == 0))
        return 0;
    return write(2, "refused\n", 8) == 8;
}

void *malloc(size_t size) {
    static void *(*real)(size_t);
    if (!real)
        real = (void *(*)(size_t))dlsym(RTLD_NEXT, "malloc");
    return refused() ? NULL : real(size);
}

void *realloc(void *old, size_t size) {
    static void *(*real)(void *, size_t);
    if (!real)
        real = (void *(*)(void *, size_t))dlsym(RTLD_NEXT, "realloc");
    return refused() ? NULL : real(old, size);
}
