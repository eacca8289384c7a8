/* An HTTP service whose values are its keys: GET /KEY answers the key, after so many milliseconds: origin ADDRESS MILLISECONDS [BYTES].
   With BYTES each value is its key and then the letter x, as many bytes together. On SIGUSR1 it prints how many requests it had.

   One thread that parses next to nothing, so that it takes little of the processors from the server in front of it. It answers
   GET /_groupcache/echo/KEY as a peer of groupcache does, so that the load generator can ask it without a server. */
#define _GNU_SOURCE
#include <arpa/inet.h>
#include <fcntl.h>
#include <netinet/tcp.h>
#include <signal.h>
#include <stdint.h>
#include <stdio.h>
#include <stdlib.h>
#include <string.h>
#include <sys/epoll.h>
#include <time.h>
#include <unistd.h>

enum { CONNS = 8192, ROOM = 8192, KEY = 512, VALUE = 1 << 16, REPLIES = 1 << 15 };

static const char PEER[] = "/_groupcache/echo/";

struct conn {
    int len;
    uint32_t number; /* how many clients had this descriptor, so that no other gets a reply */
    char in[ROOM];
};

struct reply {
    int64_t due;
    int fd, as_peer, len;
    uint32_t number;
    char key[KEY];
};

static struct conn conns[CONNS];
static struct reply replies[REPLIES];
static uint64_t first, behind;
static volatile uint64_t asked;
static int64_t wait_ns;
static int value_len;

static void tell(int number) {
    char line[32];
    (void)number;
    if (write(1, line, snprintf(line, sizeof line, "%llu\n", (unsigned long long)asked)) < 0) _exit(1);
}

static int64_t now(void) {
    struct timespec t;
    clock_gettime(CLOCK_MONOTONIC, &t);
    return t.tv_sec * 1000000000LL + t.tv_nsec;
}

static void fail(const char *what) {
    perror(what);
    exit(1);
}

static int hex(char c) {
    return c <= '9' ? c - '0' : (c | 32) - 'a' + 10;
}

static int unescape(char *to, const char *from, const char *end) {
    int n = 0;
    while (from < end && n < KEY) {
        if (*from == '%' && end - from > 2) {
            to[n++] = hex(from[1]) << 4 | hex(from[2]);
            from += 3;
        } else {
            to[n++] = *from++;
        }
    }
    return n;
}

static void answer(const struct reply *r) {
    static char out[VALUE + 128];
    int head = r->as_peer ? (r->len < 128 ? 2 : 3) : 0;
    int more = !r->as_peer && value_len > r->len ? value_len - r->len : 0;
    int n = sprintf(out, "HTTP/1.1 200 OK\r\nContent-Length: %d\r\n\r\n", r->len + head + more);
    if (head) out[n++] = 0x0a;
    if (head == 2) out[n++] = r->len;
    if (head == 3) {
        out[n++] = (r->len & 127) | 128;
        out[n++] = r->len >> 7;
    }
    memcpy(out + n, r->key, r->len);
    memset(out + n + r->len, 'x', more);
    if (write(r->fd, out, n + r->len + more) < 0) return;
}

/* Takes the requests that are whole. Whether they are requests. */
static int take(int fd) {
    struct conn *c = &conns[fd];
    char *at = c->in, *end = c->in + c->len, *stop;
    while ((stop = memmem(at, end - at, "\r\n\r\n", 4))) {
        char *path = at + 4, *space = memchr(path, ' ', stop - path);
        if (memcmp(at, "GET /", 5) || !space || behind - first == REPLIES) return 0;
        struct reply *r = &replies[behind % REPLIES];
        asked++;
        r->as_peer = space - path >= (int)sizeof PEER - 1 && !memcmp(path, PEER, sizeof PEER - 1);
        r->len = unescape(r->key, path + (r->as_peer ? sizeof PEER - 1 : 1), space);
        r->fd = fd;
        r->number = c->number;
        r->due = wait_ns ? now() + wait_ns : 0;
        if (wait_ns) behind++;
        else answer(r);
        at = stop + 4;
    }
    c->len = end - at;
    memmove(c->in, at, c->len);
    return c->len < ROOM;
}

static void read_from(int fd) {
    struct conn *c = &conns[fd];
    int n = read(fd, c->in + c->len, ROOM - c->len);
    if (n > 0) c->len += n;
    if (n <= 0 || !take(fd)) {
        c->number++;
        close(fd);
    }
}

static void accept_all(int listener, int poll) {
    int fd, one = 1;
    while ((fd = accept4(listener, 0, 0, SOCK_NONBLOCK)) >= 0) {
        if (fd >= CONNS) {
            close(fd);
            continue;
        }
        setsockopt(fd, IPPROTO_TCP, TCP_NODELAY, &one, sizeof one);
        conns[fd].len = 0;
        struct epoll_event event = {EPOLLIN, {.fd = fd}};
        if (epoll_ctl(poll, EPOLL_CTL_ADD, fd, &event)) fail("epoll_ctl");
    }
}

/* Gives the replies that are due. How long until the next is. */
static int64_t answer_due(void) {
    int64_t time = now();
    for (; first < behind; first++) {
        struct reply *r = &replies[first % REPLIES];
        if (r->due > time) return r->due - time;
        if (r->number == conns[r->fd].number) answer(r);
    }
    return -1;
}

int main(int count, char **words) {
    struct sockaddr_in addr = {.sin_family = AF_INET};
    char host[64];
    int port, one = 1, listener = socket(AF_INET, SOCK_STREAM | SOCK_NONBLOCK, 0), poll = epoll_create1(0);
    if (count < 3 || count > 4 || sscanf(words[1], "%63[^:]:%d", host, &port) != 2) return 1;
    wait_ns = atoll(words[2]) * 1000000;
    value_len = count == 4 ? atoi(words[3]) : 0;
    if (value_len > VALUE) return 1;
    signal(SIGUSR1, tell);
    addr.sin_port = htons(port);
    inet_pton(AF_INET, host, &addr.sin_addr);
    setsockopt(listener, SOL_SOCKET, SO_REUSEADDR, &one, sizeof one);
    if (bind(listener, (struct sockaddr *)&addr, sizeof addr) || listen(listener, 4096)) fail("listen");
    struct epoll_event event = {EPOLLIN, {.fd = listener}}, events[256];
    if (epoll_ctl(poll, EPOLL_CTL_ADD, listener, &event)) fail("epoll_ctl");
    for (;;) {
        int64_t left = answer_due();
        struct timespec until = {left / 1000000000, left % 1000000000};
        int n = epoll_pwait2(poll, events, 256, left < 0 ? 0 : &until, 0); /* -1 where a signal came */
        for (int i = 0; i < n; i++) {
            if (events[i].data.fd == listener) accept_all(listener, poll);
            else read_from(events[i].data.fd);
        }
    }
}
