// Measures servers of memcached's text protocol beside each other on a host that is not steady:
//
//     cc -O2 -o /tmp/turns scripts/clients/turns.c && /tmp/turns PORT,PORT.. SECONDS ROW..
//
// A row is a number of connections and g (90 % gets) or s (sets alone), as 64g. In a turn one server is sent one request on
// each connection, and all replies are read. The servers have their turns one after the other, each time another one
// first, for SECONDS a row. So whatever slows the host for more than some milliseconds slows all of them. Printed are how
// many turns each had, the median time in milliseconds, and the median of its ratios to the first server's, turn by turn,
// with the quarters. The servers are filled with 10,000 keys first; values have 32 bytes. Replies are read to their end and
// not compared (scripts/load.c does that).
#include <arpa/inet.h>
#include <netinet/tcp.h>
#include <stdio.h>
#include <stdlib.h>
#include <string.h>
#include <sys/socket.h>
#include <time.h>
#include <unistd.h>

enum { KEYS = 10000, AT_ONCE = 100, MOST_SERVERS = 8, MOST_CONNECTIONS = 1024, MOST_TURNS = 1 << 17 };

static int ports[MOST_SERVERS], fds[MOST_SERVERS][MOST_CONNECTIONS];
static double took[MOST_SERVERS][MOST_TURNS];

static double now(void) {
    struct timespec t;
    clock_gettime(CLOCK_MONOTONIC, &t);
    return (double)t.tv_sec * 1e3 + (double)t.tv_nsec / 1e6;
}

static void stop(const char *why) {
    perror(why);
    exit(2);
}

static int connect_to(int port) {
    int fd = socket(AF_INET, SOCK_STREAM, 0), one = 1;
    struct sockaddr_in at = {.sin_family = AF_INET, .sin_port = htons((unsigned short)port), .sin_addr.s_addr = htonl(INADDR_LOOPBACK)};
    if (fd < 0 || connect(fd, (struct sockaddr *)&at, sizeof at)) stop("connect");
    setsockopt(fd, IPPROTO_TCP, TCP_NODELAY, &one, sizeof one);
    return fd;
}

static unsigned draw(void) { // xorshift
    static unsigned long state = 88172645463325252ul;
    state ^= state << 13, state ^= state >> 7, state ^= state << 17;
    return (unsigned)(state >> 20);
}

static int put_set(char *to, unsigned key) {
    return sprintf(to, "set key-%08u 0 0 32\r\n01234567890123456789012345678901\r\n", key);
}

static void send_all(int fd, const char *text, int len) {
    if (write(fd, text, (size_t)len) != len) stop("write");
}

// Reads up to this end of a reply.
static void read_to(int fd, const char *end) {
    char text[4096];
    size_t len = 0, wanted = strlen(end);
    while (len < wanted || memcmp(text + len - wanted, end, wanted)) {
        ssize_t n = len < sizeof text ? read(fd, text + len, sizeof text - len) : 0;
        if (n <= 0) stop("read");
        len += (size_t)n;
    }
}

static void fill(int port) {
    static char text[AT_ONCE * 80];
    int fd = connect_to(port);
    for (unsigned key = 0; key < KEYS; key += AT_ONCE) {
        int len = 0;
        for (unsigned i = 0; i < AT_ONCE; i++) len += put_set(text + len, key + i);
        send_all(fd, text, len);
        for (size_t got = 0; got < AT_ONCE * strlen("STORED\r\n");) {
            ssize_t n = read(fd, text, sizeof text);
            if (n <= 0) stop("read");
            got += (size_t)n;
        }
    }
    close(fd);
}

static double turn(int server, int connections, int gets) {
    char text[128], is_get[MOST_CONNECTIONS];
    double begun = now();
    for (int i = 0; i < connections; i++) {
        is_get[i] = gets && draw() % 10;
        unsigned key = draw() % KEYS;
        send_all(fds[server][i], text, is_get[i] ? sprintf(text, "get key-%08u\r\n", key) : put_set(text, key));
    }
    for (int i = 0; i < connections; i++) read_to(fds[server][i], is_get[i] ? "END\r\n" : "STORED\r\n");
    return now() - begun;
}

static int by_value(const void *a, const void *b) {
    double x = *(const double *)a, y = *(const double *)b;
    return (x > y) - (x < y);
}

static void show(int servers, int turns) {
    static double times[MOST_TURNS], ratios[MOST_TURNS];
    for (int s = 0; s < servers; s++) {
        for (int i = 0; i < turns; i++) times[i] = took[s][i], ratios[i] = took[s][i] / took[0][i];
        qsort(times, (size_t)turns, sizeof *times, by_value);
        qsort(ratios, (size_t)turns, sizeof *ratios, by_value);
        printf("  port %d: %.3f ms, %.3f (%.3f to %.3f)", ports[s], times[turns / 2], ratios[turns / 2], ratios[turns / 4], ratios[turns * 3 / 4]);
    }
    printf("\n");
    fflush(stdout);
}

static void measure(int servers, int connections, int gets, double seconds) {
    for (int s = 0; s < servers; s++)
        for (int i = 0; i < connections; i++) fds[s][i] = connect_to(ports[s]);
    for (int s = 0; s < servers; s++) turn(s, connections, gets);
    int turns = 0;
    for (double begun = now(); (turns == 0 || now() - begun < seconds * 1e3) && turns < MOST_TURNS; turns++)
        for (int s = 0; s < servers; s++) {
            int next = (turns + s) % servers;
            took[next][turns] = turn(next, connections, gets);
        }
    printf("%d connections, %s, %d turns:", connections, gets ? "90 % gets" : "sets alone", turns);
    show(servers, turns);
    for (int s = 0; s < servers; s++)
        for (int i = 0; i < connections; i++) close(fds[s][i]);
}

int main(int argc, char **argv) {
    int servers = 0;
    if (argc < 4) {
        fprintf(stderr, "usage: turns PORT,PORT.. SECONDS ROW..\n");
        return 2;
    }
    for (char *port = strtok(argv[1], ","); port && servers < MOST_SERVERS; port = strtok(NULL, ",")) ports[servers++] = atoi(port);
    for (int s = 0; s < servers; s++) fill(ports[s]);
    for (int row = 3; row < argc; row++) {
        int connections = atoi(argv[row]);
        if (connections < 1 || MOST_CONNECTIONS < connections) return 2;
        measure(servers, connections, argv[row][strlen(argv[row]) - 1] == 'g', atof(argv[2]));
    }
    return 0;
}
