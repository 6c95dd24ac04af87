/* The fast part of tools/load: sends calls that it was given over TCP, checks each reply, and measures. It knows record marks, the head of
 * a reply (RFC 5531) and SEQUENCE (RFC 8881 section 18.46); all else of the calls and the replies comes in a file:
 *
 *     load FILE ADDRESS PORT
 *
 * It opens a connection for each session of the file, says `ready`, and reads orders from standard input:
 *
 *     run CONNECTIONS DEPTH SECONDS        over the first so many connections, with so many calls outstanding on each
 *     ceiling CONNECTIONS DEPTH SECONDS    the same against a child process that answers each call at once with the wanted reply
 *
 * and at the end of its input it says the last number used on slot 0 of each session. A line answers each order: the calls, the nanoseconds, those of the 50th, 90th, 99th and 99.9th of a hundred calls in the order of their
 * times and of the slowest, and the processor microseconds of this process and of the child. What is not as it should be is a line
 * `wrong: WHY`, and the status is 1. The file is numbers of four bytes, the highest first, and bytes with their length before them:
 *
 *     head of a call (what is between its xid and its number of operations)
 *     1 if a slot's next call is a random one, 0 if it is the one of the slot's number
 *     number of sessions; each: 16 bytes of session id, the last number used on each of 16 slots, number of calls; each call:
 *         number of its operations after SEQUENCE, their bytes, the wanted bytes of their results, and a mask: 0 where any byte will do */
#define _GNU_SOURCE
#include <arpa/inet.h>
#include <errno.h>
#include <netinet/tcp.h>
#include <poll.h>
#include <stdarg.h>
#include <stdint.h>
#include <stdio.h>
#include <stdlib.h>
#include <string.h>
#include <sys/resource.h>
#include <sys/socket.h>
#include <sys/wait.h>
#include <time.h>
#include <unistd.h>

enum { SLOTS = 16, MOST = 16, PATIENCE = 30, BUFFER = 1 << 21, PIECE = 1 << 17, HEAD = 36, SEQUENCED = 44, FINE = 32, BUCKETS = 64 * FINE };

typedef uint8_t byte;
struct bytes { const byte *at; uint32_t size; };
struct call { uint32_t count; struct bytes asked, wanted, mask; };
struct session { const byte *id; uint32_t numbers[SLOTS]; uint32_t calls; struct call *call; };
struct slot { uint32_t xid, call; uint64_t sent; int busy; };
struct line {
    int socket;
    struct session *session;
    struct slot slot[SLOTS];
    byte *in, *out;
    size_t read, written, sent;
};

static struct session *sessions;
static uint32_t session_count, is_random;
static struct bytes head;
static struct line lines[MOST];
static uint64_t times[BUCKETS], slowest;
static uint32_t next_xid = 1, seed = 1;

static void wrong(const char *why, ...) {
    va_list rest;
    va_start(rest, why);
    printf("wrong: ");
    vprintf(why, rest);
    printf("\n");
    fflush(stdout);
    _exit(1);
}

static uint64_t now(void) {
    struct timespec t;
    clock_gettime(CLOCK_MONOTONIC, &t);
    return t.tv_sec * 1000000000ull + t.tv_nsec;
}

static uint64_t worked(int whose) {
    struct rusage used;
    getrusage(whose, &used);
    return (used.ru_utime.tv_sec + used.ru_stime.tv_sec) * 1000000ull + used.ru_utime.tv_usec + used.ru_stime.tv_usec;
}

static uint32_t number_at(const byte *at) {
    uint32_t word;
    memcpy(&word, at, 4);
    return ntohl(word);
}

static byte *put(byte *at, uint32_t number) {
    number = htonl(number);
    memcpy(at, &number, 4);
    return at + 4;
}

static byte *put_bytes(byte *at, const void *from, size_t size) {
    memcpy(at, from, size);
    return at + size;
}

/* The file. */

static const byte *at, *end;

static uint32_t number(void) {
    if (end - at < 4) wrong("the file of calls ends early");
    at += 4;
    return number_at(at - 4);
}

static struct bytes bytes(uint32_t size) {
    if ((size_t)(end - at) < size) wrong("the file of calls ends early");
    at += size;
    return (struct bytes){at - size, size};
}

static void read_calls(const char *path) {
    FILE *file = fopen(path, "rb");
    if (!file) wrong("%s: %s", path, strerror(errno));
    fseek(file, 0, SEEK_END);
    size_t size = ftell(file);
    byte *data = malloc(size + 1);
    rewind(file);
    if (!data || fread(data, 1, size, file) != size) wrong("%s cannot be read", path);
    fclose(file);
    at = data;
    end = data + size;
    head = bytes(number());
    is_random = number();
    session_count = number();
    if (!session_count || session_count > MOST) wrong("%u sessions, and not 1 to %d", session_count, MOST);
    sessions = calloc(session_count, sizeof *sessions);
    for (struct session *s = sessions; s < sessions + session_count; s++) {
        s->id = bytes(16).at;
        for (int i = 0; i < SLOTS; i++) s->numbers[i] = number();
        s->calls = number();
        if (!s->calls) wrong("a session without calls");
        s->call = calloc(s->calls, sizeof *s->call);
        for (struct call *c = s->call; c < s->call + s->calls; c++) {
            c->count = number();
            c->asked = bytes(number());
            c->wanted = bytes(number());
            c->mask = bytes(c->wanted.size);
        }
    }
}

/* Connections. */

static int connected(const char *address, int port) {
    struct sockaddr_in to = {.sin_family = AF_INET, .sin_port = htons(port)};
    int made = socket(AF_INET, SOCK_STREAM, 0), one = 1;
    struct timeval patience = {.tv_sec = PATIENCE};
    if (inet_pton(AF_INET, address, &to.sin_addr) != 1) wrong("%s is no IPv4 address", address);
    if (made < 0 || connect(made, (struct sockaddr *)&to, sizeof to)) wrong("connect to %s:%d: %s", address, port, strerror(errno));
    setsockopt(made, IPPROTO_TCP, TCP_NODELAY, &one, sizeof one);
    setsockopt(made, SOL_SOCKET, SO_RCVTIMEO, &patience, sizeof patience);
    return made;
}

static void open_line(struct line *l, struct session *session) {
    l->session = session;
    l->in = malloc(BUFFER);
    l->out = malloc(BUFFER);
    if (!l->in || !l->out) wrong("no memory");
}

/* A call on a slot, at the end of what is to be sent. */
static void ask(struct line *l, int slot, uint64_t moment) {
    struct session *s = l->session;
    struct slot *mine = &l->slot[slot];
    seed = seed * 1664525u + 1013904223u;
    mine->call = (is_random ? seed >> 8 : (uint32_t)slot) % s->calls;
    mine->xid = next_xid++;
    mine->sent = moment;
    mine->busy = 1;
    s->numbers[slot]++;
    struct call *c = &s->call[mine->call];
    byte *mark = l->out + l->written, *to = mark + 4;
    if (l->written + head.size + c->asked.size + 64 > BUFFER) wrong("calls that are too long");
    to = put(to, mine->xid);
    to = put_bytes(to, head.at, head.size);
    to = put(to, c->count + 1);
    to = put(to, 53);
    to = put_bytes(to, s->id, 16);
    to = put(to, s->numbers[slot]);
    to = put(to, slot);
    to = put(to, SLOTS - 1);
    to = put(to, 0);
    to = put_bytes(to, c->asked.at, c->asked.size);
    put(mark, 0x80000000u | (uint32_t)(to - mark - 4));
    l->written += to - mark;
}

static void flush(struct line *l) {
    ssize_t sent = send(l->socket, l->out + l->sent, l->written - l->sent, MSG_DONTWAIT | MSG_NOSIGNAL);
    if (sent < 0 && errno != EAGAIN) wrong("send: %s", strerror(errno));
    if (sent > 0) l->sent += sent;
    if (l->sent == l->written) l->sent = l->written = 0;
}

static void note(uint64_t took) {
    int power = took < FINE ? 0 : 63 - __builtin_clzll(took) - 4;
    uint64_t bucket = (uint64_t)power * (FINE / 2) + (took >> power);
    times[bucket < BUCKETS ? bucket : BUCKETS - 1]++;
    if (took > slowest) slowest = took;
}

/* The greatest time of a bucket. */
static uint64_t time_of(uint64_t bucket) {
    if (bucket < FINE) return bucket;
    uint64_t power = bucket / (FINE / 2) - 1;
    return ((bucket - power * (FINE / 2) + 1) << power) - 1;
}

/* The time below or at which so many of a thousand calls are. */
static uint64_t share(uint64_t calls, int thousandths) {
    uint64_t seen = 0, due = (calls * thousandths + 999) / 1000;
    for (int i = 0; i < BUCKETS; i++)
        if ((seen += times[i]) >= due && seen) return time_of(i) < slowest ? time_of(i) : slowest;
    return slowest;
}

/* A reply, without its mark: each byte that is known is looked at. */
static void judge(struct line *l, const byte *reply, uint32_t size, uint64_t moment) {
    int slot = 0;
    uint32_t xid = size >= 4 ? number_at(reply) : 0;
    while (slot < SLOTS && !(l->slot[slot].busy && l->slot[slot].xid == xid)) slot++;
    if (slot == SLOTS) wrong("a reply to no call (xid %u)", xid);
    struct slot *mine = &l->slot[slot];
    struct session *s = l->session;
    struct call *c = &s->call[mine->call];
    byte wanted[HEAD + 32] = {0}, *to = put(put(wanted, xid), 1);
    to = put(wanted + HEAD - 4, c->count + 1);
    to = put(to, 53);
    to = put(to, 0);
    to = put_bytes(to, s->id, 16);
    to = put(to, s->numbers[slot]);
    put(to, slot);
    if (size < sizeof wanted || memcmp(reply, wanted, sizeof wanted))
        wrong("a head that is not the wanted one: status %u of %u results", size >= 28 ? number_at(reply + 24) : 0, size >= HEAD ? number_at(reply + 32) : 0);
    if (size != HEAD + SEQUENCED + c->wanted.size) wrong("results of %u bytes, and not %u", size - HEAD - SEQUENCED, c->wanted.size);
    const byte *results = reply + HEAD + SEQUENCED, *known = c->wanted.at, *mask = c->mask.at;
    byte differs = 0;
    for (uint32_t i = 0; i < c->wanted.size; i++) differs |= (results[i] ^ known[i]) & mask[i];
    for (uint32_t i = 0; differs && i < c->wanted.size; i++)
        if ((results[i] ^ known[i]) & mask[i]) wrong("byte %u of the results is %u, and not %u", i, results[i], known[i]);
    mine->busy = 0;
    note(moment - mine->sent);
}

/* Receives what is there, or waits for it; how many replies that were. */
static int receive(struct line *l, int flags) {
    size_t room = BUFFER - l->read;
    ssize_t came = recv(l->socket, l->in + l->read, room < PIECE ? room : PIECE, flags);
    if (came < 0 && errno == EAGAIN && flags) return 0;
    if (came < 0) wrong(errno == EAGAIN ? "no reply for %d seconds" : "recv failed", PATIENCE);
    if (!came) wrong("the server closed a connection");
    l->read += came;
    uint64_t moment = now();
    size_t done = 0;
    int replies = 0;
    while (l->read - done >= 4) {
        uint32_t mark = number_at(l->in + done), size = mark & 0x7fffffff;
        if (!(mark >> 31) || size > BUFFER / 2) wrong("a mark that is not that of a whole reply");
        if (l->read - done - 4 < size) break;
        judge(l, l->in + done + 4, size, moment);
        done += 4 + size;
        replies++;
    }
    memmove(l->in, l->in + done, l->read - done);
    l->read -= done;
    return replies;
}

/* Waits until one of the lines can go on, and lets each that can. */
static int go_on(int connections) {
    struct pollfd polled[MOST];
    int replies = 0;
    for (int i = 0; i < connections; i++) {
        polled[i] = (struct pollfd){.fd = lines[i].socket, .events = POLLIN};
        if (lines[i].written) polled[i].events |= POLLOUT;
    }
    int ready = poll(polled, connections, PATIENCE * 1000);
    if (ready < 0) wrong("poll: %s", strerror(errno));
    if (!ready) wrong("no reply for %d seconds", PATIENCE);
    for (int i = 0; i < connections; i++) {
        if (polled[i].revents & POLLOUT) flush(&lines[i]);
        if (polled[i].revents & (POLLIN | POLLERR | POLLHUP)) replies += receive(&lines[i], MSG_DONTWAIT);
    }
    return replies;
}

/* As many calls as are answered in so many seconds, each slot's next one when its reply has come; the line that says how many. */
static void measure(int connections, int depth, double seconds) {
    memset(times, 0, sizeof times);
    slowest = 0;
    uint64_t used = worked(RUSAGE_SELF), begun = now(), until = begun + (uint64_t)(seconds * 1e9), calls = 0, last = begun;
    int outstanding = 0;
    do {
        uint64_t moment = now();
        for (int i = 0; i < connections; i++) {
            for (int slot = 0; slot < depth && moment < until; slot++)
                if (!lines[i].slot[slot].busy) {
                    ask(&lines[i], slot, moment);
                    outstanding++;
                }
            if (lines[i].written) flush(&lines[i]);
        }
        if (!outstanding) break;
        int replies = connections == 1 && !lines[0].written ? receive(&lines[0], 0) : go_on(connections);
        outstanding -= replies;
        calls += replies;
        last = now();
    } while (1);
    used = worked(RUSAGE_SELF) - used;
    printf("%llu %llu %llu %llu %llu %llu %llu %llu", (unsigned long long)calls, (unsigned long long)(last - begun),
           (unsigned long long)share(calls, 500), (unsigned long long)share(calls, 900), (unsigned long long)share(calls, 990),
           (unsigned long long)share(calls, 999), (unsigned long long)slowest, (unsigned long long)used);
}

/* The child that answers each call at once: the wanted reply of its session's first call, or of its slot's, with the call's own xid,
 * session, number and slot. */

static size_t answer(byte *to, const byte *call) {
    const byte *sequence = call + 4 + head.size + 4 + 4;
    uint32_t slot = number_at(sequence + 20);
    struct session *s = sessions;
    while (s < sessions + session_count - 1 && memcmp(s->id, sequence, 16)) s++;
    struct call *c = &s->call[is_random ? 0 : slot % s->calls];
    byte *from = to;
    memset(to, 0, 4 + HEAD + SEQUENCED);
    to = put(to, 0x80000000u | (HEAD + SEQUENCED + c->wanted.size));
    put(put_bytes(to, call, 4), 1);
    to = put(to + HEAD - 4, c->count + 1);
    to = put(to, 53);
    put_bytes(to + 4, sequence, 24);
    to = put_bytes(to + SEQUENCED - 4, c->wanted.at, c->wanted.size);
    return to - from;
}

/* Whether a whole call is there. */
static int has_call(const struct line *l) {
    return l->read >= 4 && l->read - 4 >= (number_at(l->in) & 0x7fffffff);
}

/* Answers the calls that are there, a piece of replies at a time, as far as they can be sent; without one it reads first. 0 if the other side
 * has closed. */
static int serve(struct line *l, int flags) {
    if (!has_call(l)) {
        ssize_t came = recv(l->socket, l->in + l->read, BUFFER - l->read, flags);
        if (came == 0 || (came < 0 && errno != EAGAIN)) return 0;
        if (came > 0) l->read += came;
    }
    while (has_call(l) && !l->written) {
        size_t done = 0;
        while (l->read - done >= 4 && l->written < PIECE) {
            uint32_t size = number_at(l->in + done) & 0x7fffffff;
            if (l->read - done - 4 < size) break;
            l->written += answer(l->out + l->written, l->in + done + 4);
            done += 4 + size;
        }
        memmove(l->in, l->in + done, l->read - done);
        l->read -= done;
        flush(l);
    }
    return 1;
}

static void echo(int listener, int connections) {
    for (int i = 0; i < connections; i++) {
        int one = 1;
        lines[i].socket = accept(listener, NULL, NULL);
        if (lines[i].socket < 0) _exit(1);
        setsockopt(lines[i].socket, IPPROTO_TCP, TCP_NODELAY, &one, sizeof one);
    }
    for (;;) {
        struct pollfd polled[MOST];
        if (connections == 1 && !lines[0].written) {
            if (!serve(&lines[0], 0)) _exit(0);
            continue;
        }
        for (int i = 0; i < connections; i++)
            polled[i] = (struct pollfd){.fd = lines[i].socket, .events = lines[i].written ? POLLOUT : POLLIN};
        poll(polled, connections, -1);
        for (int i = 0; i < connections; i++) {
            if (polled[i].revents && lines[i].written) flush(&lines[i]);
            if (polled[i].revents && !lines[i].written && !serve(&lines[i], MSG_DONTWAIT)) _exit(0);
        }
    }
}

static void ceiling(int connections, int depth, double seconds) {
    struct sockaddr_in here = {.sin_family = AF_INET, .sin_addr.s_addr = htonl(INADDR_LOOPBACK)};
    socklen_t size = sizeof here;
    int listener = socket(AF_INET, SOCK_STREAM, 0), others[MOST], was_random = is_random;
    if (listener < 0 || bind(listener, (struct sockaddr *)&here, size) || listen(listener, MOST) || getsockname(listener, (struct sockaddr *)&here, &size))
        wrong("no port of the loopback: %s", strerror(errno));
    uint64_t used = worked(RUSAGE_CHILDREN);
    pid_t child = fork();
    if (child < 0) wrong("fork: %s", strerror(errno));
    if (!child) echo(listener, connections);
    for (int i = 0; i < connections; i++) {
        others[i] = lines[i].socket;
        lines[i].socket = connected("127.0.0.1", ntohs(here.sin_port));
    }
    /* the child answers each random call as the first */
    uint32_t calls[MOST], numbers[MOST][SLOTS];
    for (uint32_t i = 0; i < session_count; i++) {
        calls[i] = sessions[i].calls;
        memcpy(numbers[i], sessions[i].numbers, sizeof numbers[i]);
        if (is_random) sessions[i].calls = 1;
    }
    measure(connections, depth, seconds);
    for (int i = 0; i < connections; i++) {
        close(lines[i].socket);
        lines[i].socket = others[i];
    }
    for (uint32_t i = 0; i < session_count; i++) {
        sessions[i].calls = calls[i];
        memcpy(sessions[i].numbers, numbers[i], sizeof numbers[i]);
    }
    is_random = was_random;
    close(listener);
    waitpid(child, NULL, 0);
    printf(" %llu\n", (unsigned long long)(worked(RUSAGE_CHILDREN) - used));
}

int main(int count, char **words) {
    char order[16];
    int connections, depth;
    double seconds;
    if (count != 4) {
        fprintf(stderr, "load FILE ADDRESS PORT; tools/load makes the file and says more\n");
        return 2;
    }
    read_calls(words[1]);
    for (uint32_t i = 0; i < session_count; i++) {
        open_line(&lines[i], &sessions[i]);
        lines[i].socket = connected(words[2], atoi(words[3]));
    }
    printf("ready\n");
    fflush(stdout);
    while (scanf("%15s %d %d %lf", order, &connections, &depth, &seconds) == 4) {
        if (connections < 1 || connections > (int)session_count || depth < 1 || depth > SLOTS) wrong("an order that cannot be");
        if (!strcmp(order, "ceiling")) {
            ceiling(connections, depth, seconds);
        } else {
            measure(connections, depth, seconds);
            printf(" 0\n");
        }
        fflush(stdout);
    }
    for (uint32_t i = 0; i < session_count; i++) printf("%u\n", sessions[i].numbers[0]);
    return 0;
}
