// A closed-loop load generator (get and set) for servers of memcached's text protocol, and for two others beside them.
//
// -P text        memcached's text protocol
// -P redis       Redis' protocol; -P redis-wait: each SET is followed by WAIT 1 0, so that a replica has it
// -P etcd        etcd's JSON over HTTP, by which each key and value is sent in base 64
//
// Each connection keeps `depth` requests outstanding and sends the next one only when a reply has come.
// Before the measured part each key is set once (unless -n), so that a server that drops nothing has each key. That may take
// ten minutes and 2 ms a key; else it is an error.
// Every reply is checked: a set answers STORED; a get answers END, or one VALUE of the asked key with the right
// flags, length and bytes (a key's value is its own text, repeated) and then END; with the other protocols likewise.
// With -H a get that finds nothing is an error.
// The last line of standard output is one line of key=value pairs. Status: 0 no error, 1 a wrong or lost reply, 2 bad use.
#define _GNU_SOURCE
#include <errno.h>
#include <fcntl.h>
#include <netdb.h>
#include <netinet/in.h>
#include <netinet/tcp.h>
#include <pthread.h>
#include <signal.h>
#include <stdarg.h>
#include <stdint.h>
#include <stdio.h>
#include <stdlib.h>
#include <string.h>
#include <sys/epoll.h>
#include <sys/socket.h>
#include <time.h>
#include <unistd.h>

enum { MAX_KEY = 64, STEPS = 64, RANGES = 40 };
enum { TEXT, REDIS, REDIS_WAIT, ETCD };
static const char *const PROTOCOLS[] = {"text", "redis", "redis-wait", "etcd"};
static const char WAIT[] = "*3\r\n$4\r\nWAIT\r\n$1\r\n1\r\n$1\r\n0\r\n";

static int protocol = TEXT;

static const char *host = "127.0.0.1", *port = "11211";
static int connections = 1, threads = 0, depth = 1, must_hit = 0, no_fill = 0, session_keys = 0;
static double seconds = 5, get_ratio = 0.9, grace = 10;
static long value_size = 32, keys = 10000;
static uint64_t seed = 1;
static struct addrinfo *address;

typedef struct {
    uint64_t started;
    uint32_t key;
    char is_get;
} Pending;

typedef struct {
    int fd, is_open, is_waiting_to_write;
    char *in, *out;
    size_t in_len, in_room, out_at, out_len, out_room;
    Pending *ring;
    int head, count;
    uint32_t next_fill;
} Conn;

typedef struct {
    pthread_t id;
    int first, last; // connections first..last-1
    uint64_t random, ops, gets, sets, hits, misses, errors, lost, closed, worst;
    uint64_t buckets[RANGES * STEPS];
    char complaint[160];
    int is_filling;
    uint64_t stop_at; // no new request from then on
    uint64_t finished_at;
} Worker;

static Conn *conns;
static pthread_barrier_t gate;
static uint64_t measured_from;

static uint64_t now(void) {
    struct timespec t;
    clock_gettime(CLOCK_MONOTONIC, &t);
    return (uint64_t)t.tv_sec * 1000000000u + (uint64_t)t.tv_nsec;
}

static void *need(void *block) {
    if (!block) {
        fprintf(stderr, "load: no memory\n");
        exit(2);
    }
    return block;
}

static uint64_t draw(uint64_t *state) { // splitmix64
    uint64_t z = (*state += 0x9e3779b97f4a7c15u);
    z = (z ^ (z >> 30)) * 0xbf58476d1ce4e5b9u;
    z = (z ^ (z >> 27)) * 0x94d049bb133111ebu;
    return z ^ (z >> 31);
}

// Numbered keys, or keys as sites name their sessions: a word and 32 digits that look random.
static int key_text(char *to, uint32_t key) {
    if (!session_keys) return sprintf(to, "key-%08u", key);
    uint64_t state = key;
    uint64_t first = draw(&state), second = draw(&state);
    return sprintf(to, "sess:%016llx%016llx", (unsigned long long)first, (unsigned long long)second);
}

// Log-linear buckets: 64 steps in each doubling, so within 1.6 percent.
static int bucket_of(uint64_t ns) {
    if (ns < STEPS) return (int)ns;
    int top = 63 - __builtin_clzll(ns); // at least 6
    int range = top - 5;
    int at = range * STEPS + (int)((ns >> (top - 6)) - STEPS);
    return at < RANGES * STEPS ? at : RANGES * STEPS - 1;
}

static double bucket_us(int at) {
    int range = at / STEPS, step = at % STEPS;
    double ns = range == 0 ? step : (double)(STEPS + step) * (double)(1ull << (range - 1));
    return ns / 1000;
}

static void complain(Worker *w, const char *form, ...) {
    w->errors++;
    if (w->complaint[0]) return;
    va_list more;
    va_start(more, form);
    vsnprintf(w->complaint, sizeof w->complaint, form, more);
    va_end(more);
}

static void close_conn(Worker *w, Conn *c) {
    if (!c->is_open) return;
    close(c->fd);
    c->is_open = 0;
    w->closed++;
    w->lost += (uint64_t)c->count;
    c->count = 0;
}

static void room_for(char **block, size_t *room, size_t wanted) {
    if (*room >= wanted) return;
    while (*room < wanted) *room = *room ? *room * 2 : 4096;
    *block = need(realloc(*block, *room));
}

// A key's value is its own text, repeated.
static char *put_value(char *to, const char *text, int len) {
    for (long i = 0; i < value_size; i += len) {
        long left = value_size - i;
        memcpy(to + i, text, (size_t)(left < len ? left : len));
    }
    return to + value_size;
}

static char *put_base64(char *to, const char *from, long len) {
    static const char digits[] = "ABCDEFGHIJKLMNOPQRSTUVWXYZabcdefghijklmnopqrstuvwxyz0123456789+/";
    for (long i = 0; i < len; i += 3) {
        uint32_t v = (uint32_t)(uint8_t)from[i] << 16;
        if (i + 1 < len) v |= (uint32_t)(uint8_t)from[i + 1] << 8;
        if (i + 2 < len) v |= (uint8_t)from[i + 2];
        *to++ = digits[v >> 18];
        *to++ = digits[v >> 12 & 63];
        *to++ = i + 1 < len ? digits[v >> 6 & 63] : '=';
        *to++ = i + 2 < len ? digits[v & 63] : '=';
    }
    return to;
}

static char *put_text_request(char *to, int is_get, uint32_t key, const char *text, int len) {
    if (is_get) return to + sprintf(to, "get %s\r\n", text);
    to += sprintf(to, "set %s %u 0 %ld\r\n", text, key & 0xffff, value_size);
    to = put_value(to, text, len);
    return to + sprintf(to, "\r\n");
}

static char *put_redis_request(char *to, int is_get, const char *text, int len) {
    if (is_get) return to + sprintf(to, "*2\r\n$3\r\nGET\r\n$%d\r\n%s\r\n", len, text);
    to += sprintf(to, "*3\r\n$3\r\nSET\r\n$%d\r\n%s\r\n$%ld\r\n", len, text, value_size);
    to = put_value(to, text, len);
    return to + sprintf(to, "\r\n%s", protocol == REDIS_WAIT ? WAIT : "");
}

static char *put_etcd_request(char *to, int is_get, const char *text, int len) {
    char *body = need(malloc((size_t)value_size * 2 + 512)), *value = need(malloc((size_t)value_size + 1)), *end = body;
    end += sprintf(end, "{\"key\":\"");
    end = put_base64(end, text, len);
    if (!is_get) {
        put_value(value, text, len);
        end += sprintf(end, "\",\"value\":\"");
        end = put_base64(end, value, value_size);
    }
    end += sprintf(end, "\"}");
    to += sprintf(to, "POST /v3/kv/%s HTTP/1.1\r\nHost: %s\r\nContent-Type: application/json\r\nContent-Length: %ld\r\n\r\n",
                  is_get ? "range" : "put", host, (long)(end - body));
    memcpy(to, body, (size_t)(end - body));
    to += end - body;
    free(value);
    free(body);
    return to;
}

static void ask(Conn *c, int is_get, uint32_t key) {
    char text[MAX_KEY];
    int len = key_text(text, key);
    room_for(&c->out, &c->out_room, c->out_len + (size_t)value_size * 2 + 1024);
    char *to = c->out + c->out_len;
    if (protocol == TEXT) to = put_text_request(to, is_get, key, text, len);
    else if (protocol == ETCD) to = put_etcd_request(to, is_get, text, len);
    else to = put_redis_request(to, is_get, text, len);
    c->out_len = (size_t)(to - c->out);
    int at = (c->head + c->count) % depth;
    c->ring[at] = (Pending){now(), key, (char)is_get};
    c->count++;
}

static void refill(Worker *w, Conn *c) {
    while (c->is_open && c->count < depth) {
        if (w->is_filling) {
            if ((long)c->next_fill >= keys) return;
            ask(c, 0, c->next_fill);
            c->next_fill += (uint32_t)connections;
        } else {
            if (now() >= w->stop_at) return;
            uint64_t r = draw(&w->random);
            int is_get = (double)(r >> 40) / (double)(1u << 24) < get_ratio;
            ask(c, is_get, (uint32_t)(draw(&w->random) % (uint64_t)keys));
        }
    }
}

// A get that found nothing.
static void miss(Worker *w) {
    if (!w->is_filling) w->misses++;
    if (must_hit) complain(w, "a get found nothing for a key that was set");
}

// Whether the value is the key's; says so if it is not.
static int is_value(Worker *w, const char *data, const char *key, int key_len) {
    for (long i = 0; i < value_size; i++)
        if (data[i] != key[i % key_len]) {
            complain(w, "get %s: byte %ld of the value is wrong", key, i);
            return 0;
        }
    w->hits++;
    return 1;
}

// Of each protocol: the bytes of the first whole reply in text, 0 if it is not whole, -1 if it is wrong (and says so).
// `line` is the length of its first line.
static long text_reply(Worker *w, const Pending *p, const char *text, size_t len, size_t line) {
    if (!p->is_get) {
        if (line == 8 && !memcmp(text, "STORED\r\n", 8)) return 8;
        complain(w, "set answered: %.*s", (int)(line < 80 ? line : 80), text);
        return -1;
    }
    if (line == 5 && !memcmp(text, "END\r\n", 5)) {
        miss(w);
        return 5;
    }
    char key[MAX_KEY], wanted[MAX_KEY + 64];
    int key_len = key_text(key, p->key);
    int wanted_len = sprintf(wanted, "VALUE %s %u %ld\r\n", key, p->key & 0xffff, value_size);
    if (line != (size_t)wanted_len || memcmp(text, wanted, line)) {
        complain(w, "get %s answered: %.*s", key, (int)(line < 80 ? line : 80), text);
        return -1;
    }
    size_t whole = line + (size_t)value_size + 7;
    if (len < whole) return 0;
    if (!is_value(w, text + line, key, key_len)) return -1;
    if (memcmp(text + line + value_size, "\r\nEND\r\n", 7)) {
        complain(w, "get %s: the block does not end as it must", key);
        return -1;
    }
    return (long)whole;
}

static long redis_set_reply(Worker *w, const char *text, size_t len, size_t line) {
    if (line != 5 || memcmp(text, "+OK\r\n", 5)) {
        complain(w, "SET answered: %.*s", (int)(line < 80 ? line : 80), text);
        return -1;
    }
    if (protocol == REDIS) return 5;
    const char *end = memchr(text + 5, '\n', len - 5);
    if (!end) return 0;
    if (text[5] == ':' && text[6] >= '1' && text[6] <= '9') return end - text + 1;
    complain(w, "WAIT answered: %.*s", (int)(end - text - 5), text + 5);
    return -1;
}

static long redis_reply(Worker *w, const Pending *p, const char *text, size_t len, size_t line) {
    if (!p->is_get) return redis_set_reply(w, text, len, line);
    if (line == 5 && !memcmp(text, "$-1\r\n", 5)) {
        miss(w);
        return 5;
    }
    char key[MAX_KEY], wanted[64];
    int key_len = key_text(key, p->key);
    int wanted_len = sprintf(wanted, "$%ld\r\n", value_size);
    if (line != (size_t)wanted_len || memcmp(text, wanted, line)) {
        complain(w, "GET %s answered: %.*s", key, (int)(line < 80 ? line : 80), text);
        return -1;
    }
    if (len < line + (size_t)value_size + 2) return 0;
    return is_value(w, text + line, key, key_len) ? (long)(line + (size_t)value_size + 2) : -1;
}

static long etcd_reply(Worker *w, const Pending *p, const char *text, size_t len, size_t line) {
    const char *body = memmem(text, len, "\r\n\r\n", 4);
    if (!body) return 0;
    const char *said = memmem(text, (size_t)(body - text), "Content-Length: ", 16);
    if (memcmp(text, "HTTP/1.1 200", 12) || !said) {
        complain(w, "etcd answered: %.*s", (int)(line < 80 ? line : 80), text);
        return -1;
    }
    size_t whole = (size_t)(body + 4 - text) + (size_t)atol(said + 16);
    if (len < whole) return 0;
    if (!p->is_get) return (long)whole;
    char key[MAX_KEY], *value = need(malloc((size_t)value_size)), *wanted = need(malloc((size_t)value_size * 2 + 64));
    int key_len = key_text(key, p->key);
    put_value(value, key, key_len);
    char *end = wanted + sprintf(wanted, "\"value\":\"");
    end = put_base64(end, value, value_size);
    *end++ = '"';
    size_t left = whole - (size_t)(body - text);
    int is_there = memmem(body, left, wanted, (size_t)(end - wanted)) != NULL;
    int has_value = memmem(body, left, "\"value\":", 8) != NULL;
    free(wanted);
    free(value);
    if (is_there) w->hits++;
    else if (!has_value) miss(w);
    else {
        complain(w, "range %s: the value is wrong", key);
        return -1;
    }
    return (long)whole;
}

static long reply_length(Worker *w, const Pending *p, const char *text, size_t len) {
    const char *end = memchr(text, '\n', len);
    if (!end) {
        if (len > 1024) {
            complain(w, "a reply line has no end");
            return -1;
        }
        return 0;
    }
    size_t line = (size_t)(end - text) + 1;
    if (protocol == TEXT) return text_reply(w, p, text, len, line);
    if (protocol == ETCD) return etcd_reply(w, p, text, len, line);
    return redis_reply(w, p, text, len, line);
}

static void take_replies(Worker *w, Conn *c) {
    size_t at = 0;
    while (c->is_open && c->count > 0) {
        Pending *p = &c->ring[c->head];
        long got = reply_length(w, p, c->in + at, c->in_len - at);
        if (got < 0) {
            close_conn(w, c);
            return;
        }
        if (got == 0) break;
        at += (size_t)got;
        uint64_t took = now() - p->started;
        if (!w->is_filling) {
            w->ops++;
            if (p->is_get) w->gets++;
            else w->sets++;
            w->buckets[bucket_of(took)]++;
            if (took > w->worst) w->worst = took;
        }
        c->head = (c->head + 1) % depth;
        c->count--;
    }
    if (c->is_open && c->count == 0 && at < c->in_len) {
        complain(w, "bytes came that nothing asked for");
        close_conn(w, c);
        return;
    }
    memmove(c->in, c->in + at, c->in_len - at);
    c->in_len -= at;
}

static void arm(int ep, Conn *c, int for_write) {
    if (c->is_waiting_to_write == for_write) return;
    c->is_waiting_to_write = for_write;
    struct epoll_event e = {.events = EPOLLIN | (for_write ? EPOLLOUT : 0), .data.ptr = c};
    epoll_ctl(ep, EPOLL_CTL_MOD, c->fd, &e);
}

static void push_out(Worker *w, int ep, Conn *c) {
    while (c->is_open && c->out_at < c->out_len) {
        ssize_t n = send(c->fd, c->out + c->out_at, c->out_len - c->out_at, MSG_NOSIGNAL);
        if (n < 0 && errno == EINTR) continue;
        if (n < 0 && (errno == EAGAIN || errno == EWOULDBLOCK)) {
            arm(ep, c, 1);
            return;
        }
        if (n < 0) {
            complain(w, "a write failed: %s", strerror(errno));
            close_conn(w, c);
            return;
        }
        c->out_at += (size_t)n;
    }
    if (!c->is_open) return;
    c->out_at = c->out_len = 0;
    arm(ep, c, 0);
}

static void pull_in(Worker *w, Conn *c) {
    room_for(&c->in, &c->in_room, c->in_len + 16384);
    ssize_t n = recv(c->fd, c->in + c->in_len, c->in_room - c->in_len, 0);
    if (n < 0 && (errno == EAGAIN || errno == EWOULDBLOCK || errno == EINTR)) return;
    if (n <= 0) {
        complain(w, n == 0 ? "the server closed a connection" : "a read failed: %s", strerror(errno));
        close_conn(w, c);
        return;
    }
    c->in_len += (size_t)n;
    take_replies(w, c);
}

static int outstanding(Worker *w) {
    int n = 0;
    for (int i = w->first; i < w->last; i++)
        n += conns[i].is_open ? conns[i].count : 0;
    return n;
}

static int is_filled(Worker *w) {
    for (int i = w->first; i < w->last; i++)
        if (conns[i].is_open && (conns[i].count > 0 || (long)conns[i].next_fill < keys)) return 0;
    return 1;
}

static int is_any_open(Worker *w) {
    for (int i = w->first; i < w->last; i++)
        if (conns[i].is_open) return 1;
    return 0;
}

static void drive(Worker *w, int ep) {
    uint64_t give_up = w->stop_at + (uint64_t)(grace * 1e9);
    struct epoll_event ready[64];
    for (int i = w->first; i < w->last; i++) {
        refill(w, &conns[i]);
        push_out(w, ep, &conns[i]);
    }
    while (is_any_open(w)) {
        uint64_t at = now();
        if (at >= give_up) break;
        if (w->is_filling ? is_filled(w) : at >= w->stop_at && outstanding(w) == 0) break;
        int n = epoll_wait(ep, ready, 64, 10);
        for (int k = 0; k < n; k++) {
            Conn *c = ready[k].data.ptr;
            if (c->is_open && ready[k].events & (EPOLLIN | EPOLLHUP | EPOLLERR)) pull_in(w, c);
            if (!c->is_open) continue;
            refill(w, c);
            if (c->out_at < c->out_len) push_out(w, ep, c);
        }
    }
    w->finished_at = now();
}

static int connect_one(void) {
    int fd = socket(address->ai_family, SOCK_STREAM, 0);
    if (fd < 0 || connect(fd, address->ai_addr, address->ai_addrlen)) {
        fprintf(stderr, "load: cannot connect to %s:%s: %s\n", host, port, strerror(errno));
        exit(2);
    }
    int one = 1;
    setsockopt(fd, IPPROTO_TCP, TCP_NODELAY, &one, sizeof one);
    fcntl(fd, F_SETFL, fcntl(fd, F_GETFL) | O_NONBLOCK);
    return fd;
}

static void *work(void *arg) {
    Worker *w = arg;
    int ep = epoll_create1(0);
    for (int i = w->first; i < w->last; i++) {
        struct epoll_event e = {.events = EPOLLIN, .data.ptr = &conns[i]};
        epoll_ctl(ep, EPOLL_CTL_ADD, conns[i].fd, &e);
    }
    if (!no_fill) {
        w->is_filling = 1;
        w->stop_at = now() + (uint64_t)(600e9 + 2e6 * (double)keys);
        drive(w, ep);
        if (!is_filled(w)) complain(w, "not each key was set in time");
        w->is_filling = 0;
        w->hits = w->misses = 0;
    }
    if (pthread_barrier_wait(&gate) == PTHREAD_BARRIER_SERIAL_THREAD) measured_from = now();
    pthread_barrier_wait(&gate);
    w->stop_at = measured_from + (uint64_t)(seconds * 1e9);
    drive(w, ep);
    for (int i = w->first; i < w->last; i++) w->lost += conns[i].is_open ? (uint64_t)conns[i].count : 0;
    close(ep);
    return NULL;
}

static double number(const char *text, double low, double high) {
    char *end;
    double x = strtod(text, &end);
    if (end == text || *end || x < low || x > high) {
        fprintf(stderr, "load: %s is not a number from %g to %g\n", text, low, high);
        exit(2);
    }
    return x;
}

static int protocol_of(const char *name) {
    for (int i = TEXT; i <= ETCD; i++)
        if (!strcmp(name, PROTOCOLS[i])) return i;
    fprintf(stderr, "load: %s is none of text, redis, redis-wait, etcd\n", name);
    exit(2);
}

static double quantile(const uint64_t *buckets, uint64_t all, double q) {
    uint64_t wanted = (uint64_t)(q * (double)all), seen = 0;
    for (int i = 0; i < RANGES * STEPS; i++) {
        seen += buckets[i];
        if (seen > wanted) return bucket_us(i);
    }
    return 0;
}

int main(int argc, char **argv) {
    int o;
    while ((o = getopt(argc, argv, "h:p:P:c:t:T:g:s:k:d:r:w:HnS")) != -1) switch (o) {
        case 'h': host = optarg; break;
        case 'p': port = optarg; break;
        case 'P': protocol = protocol_of(optarg); break;
        case 'c': connections = (int)number(optarg, 1, 4096); break;
        case 't': seconds = number(optarg, 0.01, 3600); break;
        case 'T': threads = (int)number(optarg, 1, 64); break;
        case 'g': get_ratio = number(optarg, 0, 1); break;
        case 's': value_size = (long)number(optarg, 1, 1048576); break;
        case 'k': keys = (long)number(optarg, 1, 99999999); break;
        case 'd': depth = (int)number(optarg, 1, 1024); break;
        case 'r': seed = (uint64_t)number(optarg, 0, 1e15); break;
        case 'w': grace = number(optarg, 0, 600); break;
        case 'H': must_hit = 1; break;
        case 'n': no_fill = 1; break;
        case 'S': session_keys = 1; break;
        default:
            fprintf(stderr, "usage: load [-h host] [-p port] [-P text|redis|redis-wait|etcd] [-c connections] [-t seconds] [-g get ratio 0..1] [-s value size]\n"
                            "            [-k keys] [-d pipeline depth] [-T threads] [-r seed] [-w seconds to wait for the last replies]\n"
                            "            [-H a get must find its key] [-n do not set each key first] [-S keys named as sessions are]\n");
            return 2;
        }
    if (!threads) threads = connections < 2 ? 1 : 2;
    if (threads > connections) threads = connections;
    signal(SIGPIPE, SIG_IGN);
    struct addrinfo hints = {.ai_socktype = SOCK_STREAM};
    if (getaddrinfo(host, port, &hints, &address)) {
        fprintf(stderr, "load: cannot find %s:%s\n", host, port);
        return 2;
    }
    conns = need(calloc((size_t)connections, sizeof *conns));
    for (int i = 0; i < connections; i++) {
        conns[i].fd = connect_one();
        conns[i].is_open = 1;
        conns[i].next_fill = (uint32_t)i;
        conns[i].ring = need(calloc((size_t)depth, sizeof(Pending)));
    }
    pthread_barrier_init(&gate, NULL, (unsigned)threads);
    Worker *workers = need(calloc((size_t)threads, sizeof *workers));
    for (int i = 0; i < threads; i++) {
        workers[i].first = connections * i / threads;
        workers[i].last = connections * (i + 1) / threads;
        workers[i].random = seed * 1000003u + (uint64_t)i;
        if (pthread_create(&workers[i].id, NULL, work, &workers[i])) {
            fprintf(stderr, "load: cannot start a thread\n");
            return 2;
        }
    }
    static Worker all;
    const char *complaint = "";
    for (int i = 0; i < threads; i++) {
        Worker *w = &workers[i];
        pthread_join(w->id, NULL);
        all.ops += w->ops, all.gets += w->gets, all.sets += w->sets, all.hits += w->hits, all.misses += w->misses;
        all.errors += w->errors, all.lost += w->lost, all.closed += w->closed;
        if (w->worst > all.worst) all.worst = w->worst;
        if (w->finished_at > all.finished_at) all.finished_at = w->finished_at;
        for (int k = 0; k < RANGES * STEPS; k++) all.buckets[k] += w->buckets[k];
        if (w->complaint[0]) complaint = w->complaint;
    }
    if (*complaint) fprintf(stderr, "load: %s\n", complaint);
    double took = (double)(all.finished_at - measured_from) / 1e9;
    printf("connections=%d threads=%d depth=%d seconds=%.2f get_ratio=%.2f value_size=%ld keys=%ld ops=%llu ops_per_s=%.0f gets=%llu sets=%llu hits=%llu "
           "misses=%llu errors=%llu lost=%llu closed=%llu p50_us=%.1f p99_us=%.1f p999_us=%.1f max_us=%.1f\n",
           connections, threads, depth, took, get_ratio, value_size, keys, (unsigned long long)all.ops, (double)all.ops / took,
           (unsigned long long)all.gets, (unsigned long long)all.sets, (unsigned long long)all.hits, (unsigned long long)all.misses,
           (unsigned long long)all.errors, (unsigned long long)all.lost, (unsigned long long)all.closed, quantile(all.buckets, all.ops, 0.5),
           quantile(all.buckets, all.ops, 0.99), quantile(all.buckets, all.ops, 0.999), (double)all.worst / 1000);
    return all.errors || all.lost ? 1 : 0;
}
