// load: a bounded HTTP/1.1 pipelining load generator for groupcache's peer protocol.
// N connections over T threads (epoll each), a window of D requests in flight on each, every reply checked.
#define _GNU_SOURCE
#include <arpa/inet.h>
#include <errno.h>
#include <fcntl.h>
#include <netinet/tcp.h>
#include <pthread.h>
#include <stdatomic.h>
#include <stdint.h>
#include <stdio.h>
#include <stdlib.h>
#include <string.h>
#include <sys/epoll.h>
#include <sys/resource.h>
#include <sys/socket.h>
#include <time.h>
#include <unistd.h>

enum { MAXD = 4096, INBUF = 512 * 1024, OUTBUF = 1 << 20, SUB = 64, BUCKETS = 64 * SUB };
enum Keys { HOT, UNIFORM, UNIQUE };

static struct {
    struct sockaddr_in addr;
    char hostport[96];
    int conns, depth, threads, exact, minimal, burst;
    uint64_t total;
    double seconds;
    enum Keys keys;
    uint64_t nkeys;
    char group[16], hot[256];
    int pid, csv;
} o = {.conns = 1, .depth = 1, .threads = 1, .total = 1000000, .seconds = 5, .keys = HOT, .nkeys = 1000, .group = "echo", .hot = "k"};

static _Atomic uint64_t issued, nextkey, done_all, bytes_all, failed;
static _Atomic int stop;
static uint64_t hist[BUCKETS];
static uint64_t max_ns;
static pthread_mutex_t merge = PTHREAD_MUTEX_INITIALIZER;
static char *xs;

static uint64_t now(void) { struct timespec t; clock_gettime(CLOCK_MONOTONIC, &t); return t.tv_sec * 1000000000ull + t.tv_nsec; }
static void die(const char *m) { perror(m); exit(2); }

static int bucket(uint64_t ns) {
    if (ns < SUB) return ns;
    int e = 63 - __builtin_clzll(ns), s = e - 6;
    int b = (s + 1) * SUB + ((ns >> s) - SUB);
    return b < BUCKETS ? b : BUCKETS - 1;
}
static double bucket_ns(int b) {
    if (b < SUB) return b;
    int s = b / SUB - 1;
    return (double)((uint64_t)(b % SUB + SUB) << s);
}

struct want { uint64_t sent; uint64_t key; };
enum State { HEAD, LENGTH, CHUNK_SIZE, CHUNK_DATA, CHUNK_END };
struct conn {
    int fd, dead, ep, closes; // closes: the reply at hand is the last of its connection
    char *in; size_t from, to;
    char *out; size_t ofrom, oto; int wants_out;
    struct want ring[MAXD]; unsigned head, tail; // tail - head in flight
    enum State st; uint64_t left, bpos, blen;
    // the body that is due
    char pre[300]; size_t npre; uint64_t nx; size_t hlen; char hbuf[160];
    uint64_t rng;
};

static size_t keytext(char *p, uint64_t k) {
    if (o.keys == HOT) { size_t n = strlen(o.hot); memcpy(p, o.hot, n); return n; }
    return sprintf(p, "%09llu", (unsigned long long)k);
}

static void due(struct conn *c) { // computes what the oldest request must be answered
    char key[300]; char val[300]; size_t nv = 0; uint64_t vlen;
    struct want *w = &c->ring[c->head % MAXD];
    size_t n = keytext(key, w->key); key[n] = 0;
    c->nx = 0;
    if (o.group[0] == 'e') { memcpy(val, key, n); nv = vlen = n; }
    else if (o.group[0] == 's') { uint64_t v = strtoull(key, 0, 10); nv = vlen = sprintf(val, "%llu", (unsigned long long)(v * v)); }
    else { vlen = c->nx = strtoull(key, 0, 10); }
    char *p = c->pre; *p++ = 0x0a;
    uint64_t v = vlen; while (v > 127) { *p++ = (v & 127) | 128; v >>= 7; } *p++ = v;
    if (o.group[0] == 'f' && vlen == 0) {} // an empty value may lack its field: accepted below
    memcpy(p, val, nv); p += nv;
    c->npre = p - c->pre; c->blen = c->npre + c->nx; c->bpos = 0;
    if (o.exact) c->hlen = sprintf(c->hbuf, "HTTP/1.1 200 OK\r\nContent-Type: application/x-protobuf\r\nContent-Length: %llu\r\n\r\n", (unsigned long long)c->blen);
}

static int body(struct conn *c, const char *p, size_t n) { // the next n bytes of the body
    if (c->bpos + n > c->blen) return 0;
    while (n) {
        size_t k;
        if (c->bpos < c->npre) {
            k = c->npre - c->bpos; if (k > n) k = n;
            if (memcmp(p, c->pre + c->bpos, k)) return 0;
        } else {
            k = n < 65536 ? n : 65536;
            if (memcmp(p, xs, k)) return 0;
        }
        p += k; n -= k; c->bpos += k;
    }
    return 1;
}

struct stats { uint64_t hist[BUCKETS], max, done, bytes; };

static void bad(struct conn *c, const char *why) {
    if (!atomic_fetch_add(&failed, 1)) {
        fprintf(stderr, "load: %s; state %d, body at %llu of %llu, bytes held:\n", why, c->st, (unsigned long long)c->bpos, (unsigned long long)c->blen);
        size_t n = c->to - c->from; fwrite(c->in + c->from, 1, n < 400 ? n : 400, stderr); fputc('\n', stderr);
    }
    c->dead = 1; atomic_store(&stop, 1);
}

// A connection to the server, known to the epoll of its thread.
static void dial(struct conn *c) {
    c->fd = socket(AF_INET, SOCK_STREAM, 0);
    if (connect(c->fd, (void *)&o.addr, sizeof o.addr)) die("connect");
    int one = 1; setsockopt(c->fd, IPPROTO_TCP, TCP_NODELAY, &one, sizeof one);
    fcntl(c->fd, F_SETFL, O_NONBLOCK);
    struct epoll_event ev = {.events = EPOLLIN, .data.ptr = c};
    epoll_ctl(c->ep, EPOLL_CTL_ADD, c->fd, &ev);
}

static _Atomic uint64_t reopened;
// The server closed after a reply: what was asked behind it is asked again on a new connection.
static void reopen(struct conn *c) {
    c->closes = 0;
    atomic_fetch_sub(&issued, c->tail - c->head); c->tail = c->head;
    c->from = c->to = 0; c->ofrom = c->oto = 0; c->wants_out = 0;
    close(c->fd);
    dial(c);
    atomic_fetch_add(&reopened, 1);
}

static void finish(struct conn *c, struct stats *s, uint64_t t) {
    if (c->bpos != c->blen) { bad(c, "short body"); return; }
    uint64_t ns = t - c->ring[c->head % MAXD].sent;
    s->hist[bucket(ns)]++; if (ns > s->max) s->max = ns;
    s->done++; c->head++; c->st = HEAD;
    if (c->closes) reopen(c);
}

// Works through the bytes held, and returns false where more are needed.
static void consume(struct conn *c, struct stats *s, uint64_t t) {
    while (!c->dead && c->from < c->to) {
        char *p = c->in + c->from; size_t n = c->to - c->from;
        switch (c->st) {
        case HEAD: {
            if (c->head == c->tail) { bad(c, "bytes that nobody asked for"); return; }
            due(c);
            c->closes = 0;
            if (o.exact) {
                char cbuf[200]; size_t clen = sprintf(cbuf, "%.*sConnection: close\r\n\r\n", (int)c->hlen - 2, c->hbuf);
                if (n >= c->hlen && memcmp(p, c->hbuf, c->hlen)) {
                    if (n < clen) { if (memcmp(p, cbuf, n)) bad(c, "wrong head"); return; }
                    if (memcmp(p, cbuf, clen)) { bad(c, "wrong head"); return; }
                    c->closes = 1; c->from += clen; c->left = c->blen; c->st = LENGTH;
                    if (!c->left) finish(c, s, t);
                    break;
                }
                if (n < c->hlen) { if (memcmp(p, c->hbuf, n)) bad(c, "wrong head"); return; }
                if (memcmp(p, c->hbuf, c->hlen)) { bad(c, "wrong head"); return; }
                c->from += c->hlen; c->left = c->blen; c->st = LENGTH;
                if (!c->left) finish(c, s, t);
                break;
            }
            char *e = memmem(p, n, "\r\n\r\n", 4);
            if (!e) { if (n > 16384) bad(c, "head too long"); return; }
            if (n < 12 || memcmp(p, "HTTP/1.1 200", 12)) { bad(c, "status is not 200"); return; }
            int64_t len = -1; int chunked = 0;
            for (char *l = memchr(p, '\n', e - p); l && l < e; l = memchr(l, '\n', e - l)) {
                l++;
                if (!strncasecmp(l, "content-length:", 15)) len = strtoll(l + 15, 0, 10);
                else if (!strncasecmp(l, "transfer-encoding: chunked", 26)) chunked = 1;
            }
            c->from += e + 4 - p;
            if (chunked) c->st = CHUNK_SIZE;
            else if (len != (int64_t)c->blen) { bad(c, "wrong content length"); return; }
            else { c->left = len; c->st = LENGTH; if (!len) finish(c, s, t); }
            break;
        }
        case LENGTH: case CHUNK_DATA: {
            size_t k = n < c->left ? n : c->left;
            if (!body(c, p, k)) { bad(c, "wrong body"); return; }
            c->from += k; c->left -= k;
            if (!c->left) { if (c->st == LENGTH) finish(c, s, t); else { c->st = CHUNK_END; } }
            break;
        }
        case CHUNK_SIZE: {
            char *e = memchr(p, '\n', n);
            if (!e) return;
            c->left = strtoull(p, 0, 16);
            if (c->left) { c->from += e + 1 - p; c->st = CHUNK_DATA; break; }
            if (n < (size_t)(e + 3 - p)) return; // the last chunk and its empty trailer
            c->from += e + 3 - p; finish(c, s, t);
            break;
        }
        case CHUNK_END:
            if (n < 2) return;
            c->from += 2; c->st = CHUNK_SIZE;
            break;
        }
    }
}

static uint64_t rnd(uint64_t *s) { uint64_t x = *s; x ^= x << 13; x ^= x >> 7; x ^= x << 17; return *s = x; }

static void top_up(struct conn *c) { // writes requests until the window is full
    if (c->ofrom == c->oto) c->ofrom = c->oto = 0;
    uint64_t t = now(); // a request's clock starts when it is queued, so waiting in our own buffer counts
    if (o.burst && c->tail != c->head) return;
    while (c->tail - c->head < (unsigned)o.depth && c->oto + 1024 < OUTBUF && !atomic_load_explicit(&stop, memory_order_relaxed)) {
        if (atomic_fetch_add_explicit(&issued, 1, memory_order_relaxed) >= o.total) { break; }
        struct want *w = &c->ring[c->tail++ % MAXD];
        w->sent = t;
        w->key = o.keys == HOT ? 0 : o.keys == UNIFORM ? rnd(&c->rng) % o.nkeys : atomic_fetch_add_explicit(&nextkey, 1, memory_order_relaxed);
        char *p = c->out + c->oto;
        memcpy(p, "GET /_groupcache/", 17); p += 17;
        size_t g = strlen(o.group); memcpy(p, o.group, g); p += g; *p++ = '/';
        p += keytext(p, w->key);
        if (o.minimal) { memcpy(p, " HTTP/1.1\r\nHost: h\r\n\r\n", 22); p += 22; }
        else p += sprintf(p, " HTTP/1.1\r\nHost: %s\r\nUser-Agent: Go-http-client/1.1\r\nAccept-Encoding: gzip\r\n\r\n", o.hostport);
        c->oto = p - c->out;
    }
}

static void flush_out(int ep, struct conn *c) {
    while (c->ofrom < c->oto) {
        ssize_t n = send(c->fd, c->out + c->ofrom, c->oto - c->ofrom, MSG_NOSIGNAL);
        if (n > 0) { c->ofrom += n; continue; }
        if (errno == EAGAIN) break;
        if (errno == EINTR) continue;
        bad(c, "send failed"); return;
    }
    int want = c->ofrom < c->oto;
    if (want != c->wants_out) {
        struct epoll_event ev = {.events = EPOLLIN | (want ? EPOLLOUT : 0), .data.ptr = c};
        epoll_ctl(ep, EPOLL_CTL_MOD, c->fd, &ev); c->wants_out = want;
    }
}

static void *run(void *arg) {
    int first = (int)(intptr_t)arg, n = 0;
    int ep = epoll_create1(0);
    struct conn *cs[1024]; struct stats *s = calloc(1, sizeof *s);
    for (int i = first; i < o.conns; i += o.threads) {
        struct conn *c = calloc(1, sizeof *c); cs[n++] = c; c->ep = ep;
        c->in = malloc(INBUF); c->out = malloc(OUTBUF); c->rng = 88172645463325252ull + i * 7919;
        dial(c);
        top_up(c); flush_out(ep, c);
        if (o.conns > 64 && n % 4 == 0) usleep(1000); // a backlog of 128 is not to overflow while the server has no processor
    }
    int open = n; uint64_t grace = 0;
    struct epoll_event evs[256];
    while (open) {
        int k = epoll_wait(ep, evs, 256, 100);
        uint64_t t = now();
        if (atomic_load(&stop) && !grace) grace = t + 2000000000ull; // what is in flight gets two seconds
        for (int i = 0; i < k; i++) {
            struct conn *c = evs[i].data.ptr;
            if (c->dead) continue;
            if (evs[i].events & (EPOLLIN | EPOLLHUP | EPOLLERR)) {
                if (c->from == c->to) c->from = c->to = 0;
                else if (INBUF - c->to < INBUF / 2) { memmove(c->in, c->in + c->from, c->to - c->from); c->to -= c->from; c->from = 0; }
                ssize_t r = recv(c->fd, c->in + c->to, INBUF - c->to, 0);
                if (r == 0) bad(c, "the server closed");
                else if (r < 0) { if (errno != EAGAIN && errno != EINTR) bad(c, "recv failed"); }
                else { c->to += r; s->bytes += r; consume(c, s, t); }
            }
            if (!c->dead) { top_up(c); flush_out(ep, c); }
        }
        open = 0;
        for (int i = 0; i < n; i++) if (!cs[i]->dead && cs[i]->head != cs[i]->tail) open++;
        if (grace && t > grace) { if (open) { fprintf(stderr, "load: %d connections without their replies\n", open); atomic_fetch_add(&failed, 1); } break; }
    }
    for (int i = 0; i < n; i++) close(cs[i]->fd);
    pthread_mutex_lock(&merge);
    for (int i = 0; i < BUCKETS; i++) hist[i] += s->hist[i];
    if (s->max > max_ns) max_ns = s->max;
    done_all += s->done; bytes_all += s->bytes;
    pthread_mutex_unlock(&merge);
    return 0;
}

static void *timer(void *arg) { (void)arg; usleep(o.seconds * 1e6); atomic_store(&stop, 1); return 0; }

static double cpu_of(int pid, double *sys) { // user + system seconds
    char f[64], b[1024]; snprintf(f, sizeof f, "/proc/%d/stat", pid);
    int fd = open(f, O_RDONLY); if (fd < 0) return 0;
    int n = read(fd, b, 1023); close(fd); if (n <= 0) return 0; b[n] = 0;
    char *p = strrchr(b, ')'); unsigned long u = 0, s = 0;
    sscanf(p + 2, "%*c %*d %*d %*d %*d %*d %*u %*u %*u %*u %*u %lu %lu", &u, &s);
    double hz = sysconf(_SC_CLK_TCK); *sys = s / hz; return (u + s) / hz;
}

static double pct(double q) {
    uint64_t n = done_all * q, seen = 0;
    for (int i = 0; i < BUCKETS; i++) { seen += hist[i]; if (seen > n) return bucket_ns(i) / 1000; }
    return max_ns / 1000.0;
}

int main(int argc, char **argv) {
    int ch; const char *a = "127.0.0.1:8001";
    while ((ch = getopt(argc, argv, "a:c:d:T:n:t:k:g:p:eMbC")) != -1) switch (ch) {
        case 'a': a = optarg; break;
        case 'c': o.conns = atoi(optarg); break;
        case 'd': o.depth = atoi(optarg); break;
        case 'T': o.threads = atoi(optarg); break;
        case 'n': o.total = strtoull(optarg, 0, 10); break;
        case 't': o.seconds = atof(optarg); break;
        case 'g': snprintf(o.group, sizeof o.group, "%s", optarg); break;
        case 'p': o.pid = atoi(optarg); break;
        case 'e': o.exact = 1; break;
        case 'M': o.minimal = 1; break;
        case 'b': o.burst = 1; break;
        case 'C': o.csv = 1; break;
        case 'k':
            if (!strncmp(optarg, "hot:", 4)) { o.keys = HOT; snprintf(o.hot, sizeof o.hot, "%s", optarg + 4); }
            else if (!strncmp(optarg, "uniform:", 8)) { o.keys = UNIFORM; o.nkeys = strtoull(optarg + 8, 0, 10); }
            else if (!strcmp(optarg, "unique")) o.keys = UNIQUE;
            else goto usage;
            break;
        default: usage:
            fprintf(stderr, "usage: load -a 127.0.0.1:PORT [-c conns] [-d depth] [-T threads] [-n requests] [-t seconds] [-g echo|square|fill]\n"
                            "  [-k hot:KEY|uniform:K|unique] [-e exact reply heads of peer_serve] [-M minimal request head] [-b bursts, no window] [-p server pid, for its CPU time] [-C one csv line]\n");
            return 2;
    }
    char ip[64]; int port;
    if (sscanf(a, "%63[^:]:%d", ip, &port) != 2 || strncmp(ip, "127.", 4) || o.depth < 1 || o.depth > MAXD || o.conns < 1 || o.conns > 1024 || o.threads < 1 || o.threads > 16 || o.seconds > 120) goto usage;
    if (o.threads > o.conns) o.threads = o.conns;
    o.addr.sin_family = AF_INET; o.addr.sin_port = htons(port); inet_pton(AF_INET, ip, &o.addr.sin_addr);
    snprintf(o.hostport, sizeof o.hostport, "%s:%d", ip, port);
    // Unique keys must differ from run to run, or a cache that still has them answers.
    nextkey = o.keys == UNIQUE ? (now() / 1000) % 800000000ull : 0;
    xs = malloc(65536); memset(xs, 'x', 65536);
    double s0 = 0, s1 = 0, c0 = o.pid ? cpu_of(o.pid, &s0) : 0;
    pthread_t tt, ts[16];
    uint64_t begin = now();
    pthread_create(&tt, 0, timer, 0); pthread_detach(tt);
    for (int i = 0; i < o.threads; i++) pthread_create(&ts[i], 0, run, (void *)(intptr_t)i);
    for (int i = 0; i < o.threads; i++) pthread_join(ts[i], 0);
    double sec = (now() - begin) / 1e9;
    double c1 = o.pid ? cpu_of(o.pid, &s1) : 0;
    struct rusage ru; getrusage(RUSAGE_SELF, &ru);
    double own = ru.ru_utime.tv_sec + ru.ru_utime.tv_usec / 1e6 + ru.ru_stime.tv_sec + ru.ru_stime.tv_usec / 1e6;
    uint64_t d = done_all ? done_all : 1;
    if (o.csv) printf("%.0f,%.1f,%.1f,%.1f,%.3f,%.3f,%.3f,%.1f,%llu,%llu\n", done_all / sec, pct(.5), pct(.99), pct(.999), (c1 - c0) / d * 1e6, (s1 - s0) / d * 1e6, own / d * 1e6, bytes_all / sec / 1e6, (unsigned long long)done_all, (unsigned long long)failed);
    else printf("requests %llu seconds %.3f rate %.0f/s p50 %.1fus p99 %.1fus p99.9 %.1fus max %.1fus MB/s %.1f server_cpu %.3fus/req (system %.3f) client_cpu %.3fus/req failed %llu reopened %llu\n",
           (unsigned long long)done_all, sec, done_all / sec, pct(.5), pct(.99), pct(.999), max_ns / 1000.0, bytes_all / sec / 1e6, (c1 - c0) / d * 1e6, (s1 - s0) / d * 1e6, own / d * 1e6, (unsigned long long)failed, (unsigned long long)reopened);
    return failed || !done_all;
}
