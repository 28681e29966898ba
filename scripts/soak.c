/* A closed loop of connections with sessions that expire, for servers of memcached's text protocol. It checks every
   byte of every reply. scripts/soak compiles and runs it.

   Each connection has sessions of its own, so it knows what is stored under their keys. A value's size is drawn from
   SMALLEST to LARGEST, each doubling as often as the next one. Its bytes are made of the key and of a version, which
   is also the item's flags. Of 100 commands 50 are `get`, 30 `gat`, 12 `set`, 6 `touch` and 2 `delete`. Some
   sessions are left alone: from then on they are only read, until they are gone. A session that is gone is asked
   for, too, until a set makes a new one in its place, with a new key.

   An item may be gone, and may be there, from MARGIN seconds before its time to MARGIN seconds after it.

   If a connection is closed, or memory for the reply is refused, the command under way may have been executed, or
   may be executed within LATE seconds, or never. All of these are right until a reply shows which it was.

   Each second it prints a line of JSON: operations, latencies in microseconds, what was wrong, closed, refused
   (`errors`) and stalled (over a second). The last line is a summary. What was wrong is told on standard error.
   Status: 0, 1 if a reply was wrong, 2 for other words or if it cannot go on. */
#define _GNU_SOURCE
#include <errno.h>
#include <fcntl.h>
#include <math.h>
#include <netdb.h>
#include <netinet/in.h>
#include <netinet/tcp.h>
#include <signal.h>
#include <stdarg.h>
#include <stdint.h>
#include <stdio.h>
#include <stdlib.h>
#include <string.h>
#include <sys/epoll.h>
#include <sys/resource.h>
#include <sys/socket.h>
#include <time.h>
#include <unistd.h>

enum { GET, GAT, SET, TOUCH, DELETE, KINDS, NONE };
static const char *const NAMES[] = {"get", "gat", "set", "touch", "delete"};
static const unsigned SHARES[KINDS] = {50, 30, 12, 6, 2};
enum {
    LEFT = 5,        /* of 100 sets leave their session alone from then on */
    LATE = 30,       /* seconds for which a command without a reply may still be executed */
    MOST_STATES = 8, /* that a session may be in */
    MOST_TOLD = 50,  /* faults and stalls on standard error */
    PIECE = 1 << 18, /* bytes of one read */
    OPENED = 2000,   /* connections opened in a second: more at once may find the listener's queue full */
    STEPS = 64,      /* of a histogram in each doubling, so within 1.6 percent */
    RANGES = 40,
};
#define SECOND 1000000000ull /* nanoseconds, as all times here */
#define PAUSE (SECOND / 10)  /* before a connection is opened again */

static const char *host = "127.0.0.1", *port = "11211";
static int connections = 64;
static double seconds = 60, live_bytes = 200e6, smallest = 100, largest = 102400, exptime = 60, margin = 2;
static double rate, grace = 10; /* operations a second, 0: as many as the server answers; seconds for the last replies */
static uint64_t seed;

typedef struct {
    uint8_t is_there, has_lost; /* whether the command without a reply was executed before */
    uint32_t version, size;
    uint64_t low, high; /* not gone before, not there after */
} State;

typedef struct {
    uint64_t id; /* makes the key */
    uint32_t version;
    uint8_t is_left, count;
    uint8_t lost; /* the kind of a command without a reply, or NONE */
    State stored; /* by it */
    uint64_t lost_until;
    State states[MOST_STATES]; /* it is in one of them */
} Session;

enum { LINE, BLOCK, TAIL }; /* what is read next */
static const char OUT_OF_MEMORY[] = "SERVER_ERROR out of memory", TOO_MANY[] = "SERVER_ERROR too many";

typedef struct {
    int fd, is_connecting, is_asking, is_waiting_to_write, is_queued;
    Session *sessions;
    /* The command under way. */
    Session *session;
    uint8_t kind;
    uint32_t version, size;
    uint64_t sent;
    /* What was read of its reply. */
    int stage;
    char line[128];
    size_t line_len, at;
    uint32_t shown_version, shown_size;
    /* What is not written. */
    char *out;
    size_t out_at, out_len;
    uint64_t open_at; /* it is opened again then */
} Conn;

typedef struct {
    uint64_t buckets[RANGES * STEPS], all, largest;
} Histogram;

static Conn *conns;
static int sessions_each, epoll, open_count;
static struct addrinfo *address;
static uint64_t start, stop, next_id, pace;
static volatile sig_atomic_t is_ended;
static Histogram of_second, of_ten, of_all;
static struct {
    uint64_t ops, wrong, closed, errors, stalled, kinds[KINDS], found, missed, expired, unknown;
} total, before;
static int told;
static Conn **idle; /* a queue, for a rate */
static int idle_first, idle_count;
static char in[PIECE], expected[PIECE];
static char *out_text;

static uint64_t now(void) {
    struct timespec t;
    clock_gettime(CLOCK_MONOTONIC, &t);
    return (uint64_t)t.tv_sec * SECOND + (uint64_t)t.tv_nsec;
}

static double since_start(uint64_t at) { return at < start ? 0 : (double)(at - start) / 1e9; }

static void give_up(const char *why) {
    fprintf(stderr, "soak: %s\n", why);
    exit(2);
}

static void *need(void *block) {
    if (!block) give_up("no memory");
    return block;
}

/* ---- numbers at random, keys and values */

static uint64_t mixed(uint64_t z) { /* splitmix64; each number comes from one */
    z += 0x9e3779b97f4a7c15u;
    z = (z ^ (z >> 30)) * 0xbf58476d1ce4e5b9u;
    z = (z ^ (z >> 27)) * 0x94d049bb133111ebu;
    return z ^ (z >> 31);
}

static uint64_t draw(void) {
    static uint64_t drawn;
    return mixed(mixed(seed) + drawn++);
}

static unsigned below(unsigned n) { return (unsigned)((draw() >> 32) * n >> 32); }

enum { KEY_LEN = 37 };

static void key_of(char *to, uint64_t id) {
    sprintf(to, "sess:%016llx%016llx", (unsigned long long)mixed(id ^ mixed(seed)),
            (unsigned long long)mixed(id + mixed(~seed)));
}

/* Bytes of the value of this key and version, from an offset on. */
static void fill(char *to, uint64_t id, uint32_t version, size_t offset, size_t count) {
    uint64_t base = mixed(mixed(id ^ seed) + version), at = offset / 8;
    size_t skip = offset % 8;
    while (count > 0) {
        uint64_t word = (base ^ at) * 0x9e3779b97f4a7c15u;
        word = (word ^ (word >> 32)) * 0xbf58476d1ce4e5b9u;
        size_t some = count < 8 - skip ? count : 8 - skip;
        memcpy(to, (char *)&word + skip, some);
        to += some, count -= some, at++, skip = 0;
    }
}

/* ---- what a session may be */

static uint64_t span(double some) { return (uint64_t)(some * 1e9); }

/* An item that was given its time at some moment from `from` to `to`. */
static State item(uint32_t version, uint32_t size, uint64_t from, uint64_t to) {
    return (State){1, 0, version, size, from + span(exptime - margin), to + span(exptime + margin)};
}

static void add(Session *s, State it) {
    for (int i = 0; i < s->count; i++) {
        State *old = &s->states[i];
        if (old->is_there == it.is_there && old->version == it.version && old->has_lost == it.has_lost) {
            if (it.low < old->low) old->low = it.low;
            if (it.high > old->high) old->high = it.high;
            return;
        }
    }
    if (s->count == MOST_STATES) give_up("a session may be in too many states");
    s->states[s->count++] = it;
}

static void renew(Session *s) {
    *s = (Session){.id = next_id++, .lost = NONE};
    add(s, (State){0});
}

/* The state after the command without a reply. */
static State with_lost(const Session *s, State it) {
    if (s->lost == SET) it = s->stored;
    if (s->lost == DELETE) it = (State){0};
    if ((s->lost == TOUCH || s->lost == GAT) && it.is_there) {
        if (s->stored.low < it.low) it.low = s->stored.low;
        if (s->stored.high > it.high) it.high = s->stored.high;
    }
    it.has_lost = 1;
    return it;
}

/* The command without a reply may be executed before the next one. */
static void let_lost(Session *s) {
    if (s->lost == NONE) return;
    int count = s->count;
    for (int i = 0; i < count; i++)
        if (!s->states[i].has_lost) add(s, with_lost(s, s->states[i]));
}

/* Nothing more comes of it. */
static void forget_lost(Session *s) {
    State states[MOST_STATES];
    int count = s->count;
    memcpy(states, s->states, sizeof states);
    s->lost = NONE, s->count = 0;
    for (int i = 0; i < count; i++) {
        states[i].has_lost = 0;
        add(s, states[i]);
    }
}

/* The command of the connection has no reply. */
static void lose(Conn *c, uint64_t at) {
    Session *s = c->session;
    total.unknown++;
    if (c->kind == GET) return;
    if (s->lost != NONE) { /* two at once are not followed */
        renew(s);
        return;
    }
    s->lost = c->kind;
    s->lost_until = at + LATE * SECOND;
    s->stored = item(c->version, c->size, c->sent, s->lost_until);
}

static int can_be_there(State it, uint64_t sent) { return it.is_there && sent <= it.high; }

static int can_be_gone(State it, uint64_t replied) { return !it.is_there || replied >= it.low; }

/* Leaves the states in which this reply is right. Whether there is one. */
static int settle(Conn *c, int is_found, uint64_t at) {
    Session *s = c->session;
    State states[MOST_STATES];
    int count = s->count, was_there = 0, are_all_lost = 1;
    memcpy(states, s->states, sizeof states);
    s->count = 0;
    for (int i = 0; i < count; i++) {
        State it = states[i], after = {0};
        was_there |= it.is_there;
        if (c->kind == SET || (c->kind == GAT && is_found) || (c->kind == TOUCH && is_found))
            after = item(c->kind == SET ? c->version : it.version, c->kind == SET ? c->size : it.size, c->sent, at);
        if (c->kind == GET && is_found) after = it;
        after.has_lost = it.has_lost;
        int is_right = is_found ? can_be_there(it, c->sent) : can_be_gone(it, at);
        if (is_found && (c->kind == GET || c->kind == GAT)) is_right = is_right && it.version == c->shown_version;
        if (c->kind == SET || is_right) add(s, after);
    }
    if (s->count == 0) {
        memcpy(s->states, states, sizeof states);
        s->count = (uint8_t)count;
        return 0;
    }
    for (int i = 0; i < s->count; i++) are_all_lost &= s->states[i].has_lost;
    if (s->lost != NONE && (are_all_lost || c->sent > s->lost_until)) forget_lost(s);
    if (c->kind != SET) {
        total.found += (uint64_t)is_found;
        total.missed += (uint64_t)!is_found;
        total.expired += (uint64_t)(!is_found && was_there);
        if (!is_found) s->is_left = 0;
    }
    return 1;
}

/* ---- latencies */

static void note(Histogram *h, uint64_t ns) {
    int at = (int)ns;
    if (ns >= STEPS) {
        int top = 63 - __builtin_clzll(ns); /* at least 6 */
        at = (top - 5) * STEPS + (int)((ns >> (top - 6)) - STEPS);
    }
    h->buckets[at < RANGES * STEPS ? at : RANGES * STEPS - 1]++;
    h->all++;
    if (ns > h->largest) h->largest = ns;
}

static double quantile(const Histogram *h, double q) { /* in microseconds */
    uint64_t wanted = (uint64_t)(q * (double)h->all), seen = 0;
    for (int i = 0; i < RANGES * STEPS; i++) {
        seen += h->buckets[i];
        int range = i / STEPS, step = i % STEPS;
        if (seen > wanted) return (range == 0 ? step : (double)(STEPS + step) * (double)(1ull << (range - 1))) / 1000;
    }
    return 0;
}

/* ---- connections */

static void watch(Conn *c, int operation, int is_for_write) {
    struct epoll_event e = {.events = EPOLLIN | (is_for_write ? EPOLLOUT : 0), .data.ptr = c};
    if (epoll_ctl(epoll, operation, c->fd, &e)) give_up(strerror(errno));
    c->is_waiting_to_write = is_for_write;
}

static void shut(Conn *c, uint64_t at) {
    close(c->fd);
    if (!c->is_connecting) open_count--;
    free(c->out);
    c->fd = -1, c->is_connecting = c->is_asking = 0, c->out = NULL, c->out_at = c->out_len = 0;
    c->open_at = at + PAUSE;
}

static void stalls(Conn *c, uint64_t at) {
    if (at - c->sent <= SECOND) return;
    total.stalled++;
    char key[KEY_LEN + 1];
    key_of(key, c->session->id);
    if (told++ < MOST_TOLD)
        fprintf(stderr, "soak: second %.3f: %s %s stalled for %.3f s\n", since_start(at), NAMES[c->kind], key,
                (double)(at - c->sent) / 1e9);
}

/* The server closed it. */
static void closed(Conn *c) {
    uint64_t at = now();
    if (c->is_asking) {
        stalls(c, at);
        lose(c, at);
    }
    total.closed++;
    shut(c, at);
}

/* A wrong reply. What follows it on the connection cannot be read, and nothing more is known of its session. */
static void wrong(Conn *c, const char *form, ...) {
    uint64_t at = now();
    total.wrong++;
    if (told++ < MOST_TOLD) {
        char what[256], key[KEY_LEN + 1];
        va_list more;
        va_start(more, form);
        vsnprintf(what, sizeof what, form, more);
        va_end(more);
        fprintf(stderr, "soak: second %.3f: WRONG: %s", since_start(at), what);
        if (c->is_asking) {
            key_of(key, c->session->id);
            fprintf(stderr, " to %s %s, sent at %.3f; right:", NAMES[c->kind], key, since_start(c->sent));
            for (int i = 0; i < c->session->count; i++) {
                State *it = &c->session->states[i];
                if (it->is_there)
                    fprintf(stderr, " version %u of %u bytes, until some moment from %.3f to %.3f;", it->version, it->size,
                            since_start(it->low), since_start(it->high));
                else
                    fprintf(stderr, " no item;");
            }
        }
        fprintf(stderr, "\n");
    }
    if (c->is_asking) renew(c->session);
    shut(c, at);
}

static void finish(Conn *c, int is_found) {
    uint64_t at = now(), took = at - c->sent;
    if (!settle(c, is_found, at)) {
        wrong(c, "%.*s", (int)c->line_len - 2, c->line);
        return;
    }
    stalls(c, at);
    c->is_asking = 0;
    total.ops++;
    total.kinds[c->kind]++;
    note(&of_second, took), note(&of_ten, took), note(&of_all, took);
}

static int is_line(const Conn *c, const char *text) {
    return c->line_len == strlen(text) && !memcmp(c->line, text, c->line_len);
}

/* The first line of a value, which has to be that of a version that may be stored. */
static int is_value(Conn *c) {
    char key[KEY_LEN + 1], whole[160];
    if (c->line_len < 6 + KEY_LEN || sscanf(c->line + 6 + KEY_LEN, "%u %u", &c->shown_version, &c->shown_size) != 2) return 0;
    key_of(key, c->session->id);
    sprintf(whole, "VALUE %s %u %u\r\n", key, c->shown_version, c->shown_size);
    if (!is_line(c, whole)) return 0;
    for (int i = 0; i < c->session->count; i++) {
        State it = c->session->states[i];
        if (can_be_there(it, c->sent) && it.version == c->shown_version && it.size == c->shown_size) return 1;
    }
    return 0;
}

static void take_line(Conn *c) {
    int is_read = c->kind == GET || c->kind == GAT;
    c->line[c->line_len] = 0;
    let_lost(c->session);
    if (is_read && !memcmp(c->line, "VALUE ", 6) && is_value(c)) {
        c->stage = BLOCK;
        c->at = 0;
    } else if (is_read && is_line(c, "END\r\n")) {
        finish(c, 0);
    } else if (c->kind == SET && is_line(c, "STORED\r\n")) {
        finish(c, 1);
    } else if (c->kind == TOUCH && (is_line(c, "TOUCHED\r\n") || is_line(c, "NOT_FOUND\r\n"))) {
        finish(c, c->line[0] == 'T');
    } else if (c->kind == DELETE && (is_line(c, "DELETED\r\n") || is_line(c, "NOT_FOUND\r\n"))) {
        finish(c, c->line[0] == 'D');
    } else if (!strncmp(c->line, OUT_OF_MEMORY, strlen(OUT_OF_MEMORY))) {
        total.errors++;
        lose(c, now());
        /* memcached removes the item that was there. */
        if (c->kind == SET && c->session->lost == SET) add(c->session, (State){0});
        c->is_asking = 0;
    } else if (!strncmp(c->line, TOO_MANY, strlen(TOO_MANY))) {
        total.errors++;
        closed(c);
    } else {
        wrong(c, "%.*s", (int)c->line_len - 2, c->line);
    }
}

/* Bytes of a reply, in the order in which they come. */
static void feed(Conn *c, const char *bytes, size_t count) {
    static const char tail[] = "\r\nEND\r\n";
    while (count > 0 && c->fd >= 0) {
        size_t used = count;
        if (!c->is_asking) {
            if (count >= strlen(TOO_MANY) && !memcmp(bytes, TOO_MANY, strlen(TOO_MANY)))
                closed(c);
            else
                wrong(c, "%zu bytes that nothing asked for", count);
            return;
        }
        if (c->stage == LINE) {
            const char *end = memchr(bytes, '\n', count);
            if (end) used = (size_t)(end - bytes) + 1;
            if (c->line_len + used >= sizeof c->line) {
                wrong(c, "a line of more than %zu bytes", sizeof c->line - 2);
                return;
            }
            memcpy(c->line + c->line_len, bytes, used);
            c->line_len += used;
            if (end) take_line(c);
        } else if (c->stage == BLOCK) {
            if (used > c->shown_size - c->at) used = c->shown_size - c->at;
            fill(expected, c->session->id, c->shown_version, c->at, used);
            if (memcmp(expected, bytes, used)) {
                size_t i = 0;
                while (bytes[i] == expected[i]) i++;
                wrong(c, "byte %zu of version %u, of %u bytes, is %u and not %u", c->at + i, c->shown_version,
                      c->shown_size, (unsigned char)bytes[i], (unsigned char)expected[i]);
                return;
            }
            c->at += used;
            if (c->at == c->shown_size) c->stage = TAIL, c->at = 0;
        } else {
            if (used > sizeof tail - 1 - c->at) used = sizeof tail - 1 - c->at;
            if (memcmp(tail + c->at, bytes, used)) {
                wrong(c, "a block of version %u without its end", c->shown_version);
                return;
            }
            c->at += used;
            if (c->at == sizeof tail - 1) finish(c, 1);
        }
        bytes += used, count -= used;
    }
}

/* Writes what is not written. */
static void push(Conn *c) {
    while (c->out_at < c->out_len) {
        ssize_t n = send(c->fd, c->out + c->out_at, c->out_len - c->out_at, MSG_NOSIGNAL);
        if (n < 0 && errno == EINTR) continue;
        if (n < 0 && errno == EAGAIN) return;
        if (n < 0) {
            closed(c);
            return;
        }
        c->out_at += (size_t)n;
    }
    free(c->out);
    c->out = NULL, c->out_at = c->out_len = 0;
    if (c->is_waiting_to_write) watch(c, EPOLL_CTL_MOD, 0);
}

static void say(Conn *c, const char *text, size_t count) {
    ssize_t n;
    do n = send(c->fd, text, count, MSG_NOSIGNAL);
    while (n < 0 && errno == EINTR);
    if (n < 0 && errno != EAGAIN) {
        closed(c);
        return;
    }
    size_t written = n < 0 ? 0 : (size_t)n;
    if (written == count) return;
    c->out = need(malloc(count - written));
    memcpy(c->out, text + written, count - written);
    c->out_at = 0, c->out_len = count - written;
    watch(c, EPOLL_CTL_MOD, 1);
}

static int is_gone(const Session *s, uint64_t at) {
    for (int i = 0; i < s->count; i++)
        if (can_be_there(s->states[i], at)) return 0;
    return s->lost == NONE;
}

/* A command at random. */
static void choose(Conn *c) {
    unsigned some = below(100);
    c->kind = 0;
    while (some >= SHARES[c->kind]) some -= SHARES[c->kind++];
    c->session = &c->sessions[below((unsigned)sessions_each)];
    for (int i = 0; c->kind != GET && c->session->is_left && i < 8; i++)
        c->session = &c->sessions[below((unsigned)sessions_each)];
    if (c->session->is_left) c->kind = GET;
}

static void ask(Conn *c) {
    choose(c);
    Session *s = c->session;
    uint64_t at = now();
    char key[KEY_LEN + 1], *to = out_text;
    if (c->kind == SET) {
        if (is_gone(s, at)) renew(s);
        s->is_left = below(100) < LEFT;
        c->version = ++s->version;
        c->size = (uint32_t)(smallest * exp((double)(draw() >> 11) / 9007199254740992.0 * log((largest + 1) / smallest)));
        if (c->size > largest) c->size = (uint32_t)largest;
    }
    key_of(key, s->id);
    if (c->kind == GET || c->kind == DELETE)
        to += sprintf(to, "%s %s\r\n", NAMES[c->kind], key);
    else if (c->kind == GAT)
        to += sprintf(to, "gat %.0f %s\r\n", exptime, key);
    else if (c->kind == TOUCH)
        to += sprintf(to, "touch %s %.0f\r\n", key, exptime);
    else {
        to += sprintf(to, "set %s %u %.0f %u\r\n", key, c->version, exptime, c->size);
        fill(to, s->id, c->version, 0, c->size);
        to += c->size;
        *to++ = '\r', *to++ = '\n';
    }
    c->is_asking = 1, c->stage = LINE, c->line_len = 0, c->sent = now();
    say(c, out_text, (size_t)(to - out_text));
}

static int is_over(void) { return is_ended || now() >= stop; }

/* The connection has nothing under way. */
static void go_on(Conn *c) {
    if (is_over()) return;
    if (rate == 0) {
        ask(c);
    } else if (!c->is_queued) {
        c->is_queued = 1;
        idle[(idle_first + idle_count++) % connections] = c;
    }
}

static void go_on_at_rate(void) {
    uint64_t at = now();
    if (pace + SECOND / 10 < at) pace = at - SECOND / 10; /* what the server did not keep up with is not made up for */
    while (idle_count > 0 && pace <= at && !is_over()) {
        Conn *c = idle[idle_first];
        idle_first = (idle_first + 1) % connections, idle_count--;
        c->is_queued = 0;
        pace += (uint64_t)(1e9 / rate);
        if (c->fd >= 0 && !c->is_connecting && !c->is_asking) ask(c);
    }
}

static void connected(Conn *c) {
    int fault = 0, one = 1;
    socklen_t len = sizeof fault;
    getsockopt(c->fd, SOL_SOCKET, SO_ERROR, &fault, &len);
    if (fault) {
        shut(c, now());
        return;
    }
    setsockopt(c->fd, IPPROTO_TCP, TCP_NODELAY, &one, sizeof one);
    c->is_connecting = 0;
    open_count++;
    watch(c, EPOLL_CTL_MOD, 0);
    go_on(c);
}

static void open_conn(Conn *c) {
    c->fd = socket(address->ai_family, SOCK_STREAM | SOCK_NONBLOCK, 0);
    if (c->fd < 0) give_up(strerror(errno));
    c->is_connecting = 1;
    if (connect(c->fd, address->ai_addr, address->ai_addrlen) && errno != EINPROGRESS) {
        shut(c, now());
        return;
    }
    watch(c, EPOLL_CTL_ADD, 1);
}

static void pull(Conn *c) {
    ssize_t n = recv(c->fd, in, sizeof in, 0);
    if (n < 0 && (errno == EAGAIN || errno == EINTR)) return;
    if (n <= 0) {
        closed(c);
        return;
    }
    feed(c, in, (size_t)n);
    if (c->fd >= 0 && !c->is_asking) go_on(c);
}

static int outstanding(void) {
    int count = 0;
    for (int i = 0; i < connections; i++) count += conns[i].is_asking;
    return count;
}

/* ---- what it prints */

static double live(uint64_t at) { /* bytes of values, of sessions that may be there */
    double bytes = 0;
    for (int i = 0; i < connections; i++)
        for (int k = 0; k < sessions_each; k++) {
            State it = conns[i].sessions[k].states[0];
            if (can_be_there(it, at)) bytes += it.size;
        }
    return bytes;
}

static void print_latencies(const char *after, const Histogram *h) {
    printf(", \"p50%s\": %.0f, \"p99%s\": %.0f, \"p999%s\": %.0f, \"max%s\": %.0f", after, quantile(h, 0.5), after,
           quantile(h, 0.99), after, quantile(h, 0.999), after, (double)h->largest / 1000);
}

static void tell_second(int second) {
    printf("{\"second\": %d, \"ops\": %llu", second, (unsigned long long)(total.ops - before.ops));
    print_latencies("", &of_second);
    printf(", \"wrong\": %llu, \"closed\": %llu, \"errors\": %llu, \"stalled\": %llu, \"open\": %d, \"live\": %.0f",
           (unsigned long long)(total.wrong - before.wrong), (unsigned long long)(total.closed - before.closed),
           (unsigned long long)(total.errors - before.errors), (unsigned long long)(total.stalled - before.stalled), open_count,
           live(now()));
    if (second % 10 == 0) {
        print_latencies("_10", &of_ten);
        memset(&of_ten, 0, sizeof of_ten);
    }
    printf("}\n");
    fflush(stdout);
    memset(&of_second, 0, sizeof of_second);
    before = total;
}

static double clock_difference(void) { /* seconds from this clock to the one of the calendar */
    struct timespec t;
    clock_gettime(CLOCK_REALTIME, &t);
    return (double)t.tv_sec + (double)t.tv_nsec / 1e9 - (double)now() / 1e9;
}

static void tell_all(double clock_moved) {
    printf("{\"summary\": true, \"connections\": %d, \"sessions\": %d, \"seconds\": %.1f, \"seed\": %llu, \"ops\": %llu",
           connections, connections * sessions_each, since_start(now()), (unsigned long long)seed, (unsigned long long)total.ops);
    for (int i = 0; i < KINDS; i++) printf(", \"%s\": %llu", NAMES[i], (unsigned long long)total.kinds[i]);
    printf(", \"found\": %llu, \"missed\": %llu, \"expired\": %llu", (unsigned long long)total.found,
           (unsigned long long)total.missed, (unsigned long long)total.expired);
    print_latencies("", &of_all);
    printf(", \"wrong\": %llu, \"closed\": %llu, \"errors\": %llu, \"unknown\": %llu, \"stalled\": %llu, \"unanswered\": %d, "
           "\"clock_moved\": %.3f}\n",
           (unsigned long long)total.wrong, (unsigned long long)total.closed, (unsigned long long)total.errors,
           (unsigned long long)total.unknown, (unsigned long long)total.stalled, outstanding(), clock_moved);
}

/* ---- the loop */

static int wait_ms(uint64_t second_ends) {
    uint64_t at = now(), until = second_ends;
    if (idle_count > 0 && pace < until) until = pace;
    if (open_count < connections && at + PAUSE < until) until = at + PAUSE;
    return until <= at ? 0 : (int)((until - at + 999999) / 1000000);
}

static void drive(void) {
    static struct epoll_event ready[256];
    uint64_t second_ends = start + SECOND;
    int second = 0;
    for (;;) {
        uint64_t at = now();
        for (; at >= second_ends && second_ends <= stop; second_ends += SECOND) tell_second(++second);
        if (is_ended && stop > at) stop = at;
        if (at >= stop) {
            if (outstanding() == 0 || at >= stop + span(grace)) return;
            second_ends = at + SECOND / 50;
        } else if (open_count < connections)
            for (int i = 0; i < connections; i++)
                if (conns[i].fd < 0 && conns[i].open_at <= at) open_conn(&conns[i]);
        if (rate > 0) go_on_at_rate();
        int n = epoll_wait(epoll, ready, 256, wait_ms(second_ends));
        for (int i = 0; i < n; i++) {
            Conn *c = ready[i].data.ptr;
            if (c->is_connecting) {
                connected(c);
                continue;
            }
            if (ready[i].events & (EPOLLIN | EPOLLHUP | EPOLLERR)) pull(c);
            if (c->fd >= 0 && c->out) push(c);
        }
    }
}

static void end(int number) {
    (void)number;
    is_ended = 1;
}

static double number(const char *text, double low, double high) {
    char *after;
    double x = strtod(text, &after);
    if (after == text || *after || !(x >= low && x <= high)) {
        fprintf(stderr, "soak: %s is not a number from %g to %g\n", text, low, high);
        exit(2);
    }
    return x;
}

static const char USAGE[] =
    "usage: soak [-h host] [-p port] [-c connections] [-t seconds] [-l bytes of values at most, in all]\n"
    "            [-s smallest value] [-S largest value] [-e exptime] [-m margin in seconds] [-r operations a second]\n"
    "            [-w seconds to wait for the last replies] [-x seed]\n";

int main(int argc, char **argv) {
    int option;
    while ((option = getopt(argc, argv, "h:p:c:t:l:s:S:e:m:r:w:x:")) != -1) switch (option) {
        case 'h': host = optarg; break;
        case 'p': port = optarg; break;
        case 'c': connections = (int)number(optarg, 1, 30000); break;
        case 't': seconds = number(optarg, 0.1, 1e6); break;
        case 'l': live_bytes = number(optarg, 1, 1e12); break;
        case 's': smallest = number(optarg, 1, 1048576); break;
        case 'S': largest = number(optarg, 1, 1048576); break;
        case 'e': exptime = floor(number(optarg, 1, 2592000)); break;
        case 'm': margin = number(optarg, 0, 1e6); break;
        case 'r': rate = number(optarg, 0, 1e9); break;
        case 'w': grace = number(optarg, 0, 3600); break;
        case 'x': seed = (uint64_t)number(optarg, 0, 9e15); break;
        default: fputs(USAGE, stderr); return 2;
        }
    if (optind < argc || smallest > largest || margin > exptime) {
        fputs(USAGE, stderr);
        return 2;
    }
    if (seed == 0) seed = mixed((uint64_t)time(NULL) ^ ((uint64_t)getpid() << 40)) >> 12;
    signal(SIGPIPE, SIG_IGN);
    signal(SIGTERM, end);
    signal(SIGINT, end);
    struct rlimit limit;
    if (!getrlimit(RLIMIT_NOFILE, &limit)) {
        limit.rlim_cur = limit.rlim_max;
        setrlimit(RLIMIT_NOFILE, &limit);
    }
    struct addrinfo hints = {.ai_socktype = SOCK_STREAM};
    if (getaddrinfo(host, port, &hints, &address)) give_up("no such address");
    double mean = largest > smallest ? (largest - smallest) / log(largest / smallest) : smallest;
    sessions_each = (int)fmax(1, floor(live_bytes / mean / connections));
    conns = need(calloc((size_t)connections, sizeof *conns));
    idle = need(calloc((size_t)connections, sizeof *idle));
    out_text = need(malloc((size_t)largest + 256));
    for (int i = 0; i < connections; i++) {
        conns[i].fd = -1;
        conns[i].sessions = need(calloc((size_t)sessions_each, sizeof(Session)));
        for (int k = 0; k < sessions_each; k++) renew(&conns[i].sessions[k]);
    }
    epoll = epoll_create1(0);
    if (epoll < 0) give_up(strerror(errno));
    double difference = clock_difference();
    start = pace = now();
    for (int i = 0; i < connections; i++) conns[i].open_at = start + (uint64_t)i * SECOND / OPENED;
    stop = start + span(seconds);
    drive();
    uint64_t at = now();
    for (int i = 0; i < connections; i++)
        if (conns[i].is_asking) stalls(&conns[i], at);
    tell_all(clock_difference() - difference);
    return total.wrong ? 1 : 0;
}
