// How long a client waits that sends many sets in one piece, as set_many and setMulti do:
//
//     cc -O2 -o /tmp/pieces scripts/clients/pieces.c && /tmp/pieces PORT[,PORT..] [SETS [KEYS [SECONDS]]]
//
// SETS (200) commands are sent in one piece and all their replies are read, then the next piece is sent, for SECONDS (5).
// They go through KEYS (200) keys in turn, each of which is set once before. Values have 32 bytes, and live for 60 seconds.
// Unlike pipeline.go it asks nothing else, so a profile of the server is one of these sets alone.
//
// With several ports each server has one piece in turn. So a host that is slow for a second is slow for all of them, and
// ratios hold where times do not. For each it prints milliseconds (the median, what one piece of ten is faster than, the
// 99 %), and the median of the ratios to the first one, turn by turn, with the quarters. The status is 1 if a reply was not
// STORED.
#include <arpa/inet.h>
#include <netinet/tcp.h>
#include <stdio.h>
#include <stdlib.h>
#include <string.h>
#include <sys/socket.h>
#include <time.h>
#include <unistd.h>

enum { REPLY = 8, LONGEST = 80, MOST_SERVERS = 16, MOST_TURNS = 1 << 18 };

typedef struct {
    int port, fd;
    long next;
    double *took;
} Server;

static long sets = 200, keys = 200;
static char *text, *replies;

static double now(void) {
    struct timespec t;
    clock_gettime(CLOCK_MONOTONIC, &t);
    return (double)t.tv_sec * 1e3 + (double)t.tv_nsec / 1e6;
}

static void *need(void *block) {
    if (block) return block;
    fprintf(stderr, "no memory\n");
    exit(2);
}

static int connect_to(int port) {
    int fd = socket(AF_INET, SOCK_STREAM, 0), one = 1;
    struct sockaddr_in at = {.sin_family = AF_INET, .sin_port = htons((unsigned short)port), .sin_addr.s_addr = htonl(INADDR_LOOPBACK)};
    if (fd < 0 || connect(fd, (struct sockaddr *)&at, sizeof at)) {
        perror("connect");
        exit(2);
    }
    setsockopt(fd, IPPROTO_TCP, TCP_NODELAY, &one, sizeof one);
    return fd;
}

// Sends sets of the next keys in one piece, and reads all their replies: how long that took.
static double piece(Server *server) {
    size_t len = 0, sent = 0, wanted = (size_t)sets * REPLY, got = 0;
    for (long i = 0; i < sets; i++) {
        len += (size_t)sprintf(text + len, "set m%ld 0 60 32\r\n01234567890123456789012345678901\r\n", server->next);
        server->next = (server->next + 1) % keys;
    }
    double begun = now();
    while (sent < len) {
        ssize_t n = write(server->fd, text + sent, len - sent);
        if (n <= 0) exit(2);
        sent += (size_t)n;
    }
    while (got < wanted) {
        ssize_t n = read(server->fd, replies + got, wanted - got);
        if (n <= 0) exit(2);
        got += (size_t)n;
    }
    double took = now() - begun;
    for (long i = 0; i < sets; i++)
        if (memcmp(replies + i * REPLY, "STORED\r\n", REPLY)) {
            fprintf(stderr, "a set was answered: %.8s\n", replies + i * REPLY);
            exit(1);
        }
    return took;
}

static int by_value(const void *a, const void *b) {
    double x = *(const double *)a, y = *(const double *)b;
    return (x > y) - (x < y);
}

static void show(const Server *server, const Server *first, size_t count) {
    double *times = need(malloc(count * sizeof *times)), *ratios = need(malloc(count * sizeof *ratios));
    for (size_t i = 0; i < count; i++) times[i] = server->took[i], ratios[i] = server->took[i] / first->took[i];
    qsort(times, count, sizeof *times, by_value);
    qsort(ratios, count, sizeof *ratios, by_value);
    printf("port %d: %ld sets in one piece, %ld keys: median %.2f ms, 10 %% %.2f ms, 99 %% %.2f ms, ratio %.3f (%.3f to %.3f), %zu times\n",
           server->port, sets, keys, times[count / 2], times[count / 10], times[count * 99 / 100], ratios[count / 2], ratios[count / 4],
           ratios[count * 3 / 4], count);
    free(times);
    free(ratios);
}

int main(int argc, char **argv) {
    double seconds = argc > 4 ? atof(argv[4]) : 5;
    if (argc > 2) sets = atol(argv[2]);
    if (argc > 3) keys = atol(argv[3]);
    if (argc < 2 || sets < 1 || keys < 1) {
        fprintf(stderr, "usage: pieces PORT[,PORT..] [SETS [KEYS [SECONDS]]]\n");
        return 2;
    }
    text = need(malloc((size_t)sets * LONGEST));
    replies = need(malloc((size_t)sets * REPLY));
    Server servers[MOST_SERVERS];
    int servers_len = 0;
    for (char *port = strtok(argv[1], ","); port && servers_len < MOST_SERVERS; port = strtok(NULL, ",")) {
        Server *it = &servers[servers_len++];
        *it = (Server){.port = atoi(port), .fd = connect_to(atoi(port)), .took = need(malloc(MOST_TURNS * sizeof(double)))};
        for (long set = 0; set < keys; set += sets) piece(it);
    }
    size_t count = 0;
    for (double begun = now(); (count == 0 || now() - begun < seconds * 1e3) && count < MOST_TURNS; count++)
        for (int i = 0; i < servers_len; i++) servers[i].took[count] = piece(&servers[i]);
    for (int i = 0; i < servers_len; i++) show(&servers[i], &servers[0], count);
    return 0;
}
