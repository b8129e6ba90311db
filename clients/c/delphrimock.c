/* See delphrimock.h. A call makes its message, sends it, reads a line, and reads the line's numbers. */

#define _POSIX_C_SOURCE 200809L

#include "delphrimock.h"

#include <errno.h>
#include <fcntl.h>
#include <netdb.h>
#include <netinet/in.h>
#include <netinet/tcp.h>
#include <poll.h>
#include <string.h>
#include <sys/socket.h>
#include <sys/un.h>
#include <time.h>
#include <unistd.h>

#ifndef MSG_NOSIGNAL
#define MSG_NOSIGNAL 0
#endif

enum { LONGEST_BODY = 160, LINE = 400 };

/* ---- time */

static int64_t now_ms(void)
{
    struct timespec t;
    clock_gettime(CLOCK_MONOTONIC, &t);
    return (int64_t)t.tv_sec * 1000 + t.tv_nsec / 1000000;
}

/* Waits for a socket until a time, -1 for ever: 0, or DELPHRIMOCK_TIMEOUT or DELPHRIMOCK_ENDED. Signals do not cut it short. */
static int ready(int fd, short events, int64_t until)
{
    struct pollfd p = {fd, events, 0};
    for (;;) {
        int64_t left = until < 0 ? -1 : until - now_ms();
        if (until >= 0 && left < 0)
            left = 0;
        int got = poll(&p, 1, (int)left);
        if (got > 0)
            return 0;
        if (got == 0)
            return DELPHRIMOCK_TIMEOUT;
        if (errno != EINTR)
            return DELPHRIMOCK_ENDED;
    }
}

/* ---- connections */

void delphrimock_close(struct delphrimock *c)
{
    if (c->socket >= 0)
        close(c->socket);
    c->socket = -1;
}

static int fail(struct delphrimock *c, int why)
{
    delphrimock_close(c);
    return why;
}

static int64_t deadline(const struct delphrimock *c)
{
    return c->timeout_ms < 0 ? -1 : now_ms() + c->timeout_ms;
}

static int reach(struct delphrimock *c, int family, const struct sockaddr *address, socklen_t length)
{
    int64_t until = deadline(c);
    int error = 0;
    socklen_t size = sizeof error;
    c->socket = socket(family, SOCK_STREAM, 0);
    if (c->socket < 0)
        return DELPHRIMOCK_ENDED;
    fcntl(c->socket, F_SETFD, FD_CLOEXEC);
    fcntl(c->socket, F_SETFL, O_NONBLOCK);
    while (connect(c->socket, address, length) != 0) {
        if (errno == EAGAIN) { /* more are connecting at the moment than the system lines up */
            struct timespec moment = {0, 1000000};
            if (until >= 0 && now_ms() >= until)
                return fail(c, DELPHRIMOCK_TIMEOUT);
            nanosleep(&moment, NULL);
        } else if (errno == EINPROGRESS || errno == EINTR) {
            int wait = ready(c->socket, POLLOUT, until);
            if (wait != 0)
                return fail(c, wait);
            break;
        } else {
            return fail(c, DELPHRIMOCK_ENDED);
        }
    }
    if (getsockopt(c->socket, SOL_SOCKET, SO_ERROR, &error, &size) != 0 || error != 0)
        return fail(c, DELPHRIMOCK_ENDED);
    return 0;
}

int delphrimock_connect(struct delphrimock *c, const char *path, int timeout_ms)
{
    struct sockaddr_un address;
    c->socket = -1;
    c->timeout_ms = timeout_ms;
    memset(&address, 0, sizeof address);
    address.sun_family = AF_UNIX;
    if (strlen(path) >= sizeof address.sun_path)
        return DELPHRIMOCK_UNSAYABLE;
    strcpy(address.sun_path, path);
    return reach(c, AF_UNIX, (const struct sockaddr *)&address, sizeof address);
}

int delphrimock_connect_tcp(struct delphrimock *c, const char *host, const char *port, int timeout_ms)
{
    struct addrinfo hints, *all, *a;
    int result = DELPHRIMOCK_ENDED, one = 1;
    c->socket = -1;
    c->timeout_ms = timeout_ms;
    memset(&hints, 0, sizeof hints);
    hints.ai_socktype = SOCK_STREAM;
    if (getaddrinfo(host, port, &hints, &all) != 0)
        return DELPHRIMOCK_ENDED;
    for (a = all; a != NULL; a = a->ai_next) {
        result = reach(c, a->ai_family, a->ai_addr, a->ai_addrlen);
        if (result == 0) {
            setsockopt(c->socket, IPPROTO_TCP, TCP_NODELAY, &one, sizeof one);
            break;
        }
    }
    freeaddrinfo(all);
    return result;
}

/* ---- a message and its line */

int delphrimock_send(struct delphrimock *c, const uint8_t *message, size_t length, char *line, size_t room)
{
    int64_t until = deadline(c);
    size_t at = 0;
    if (c->socket < 0)
        return DELPHRIMOCK_ENDED;
    while (at < length) {
        ssize_t done = send(c->socket, message + at, length - at, MSG_NOSIGNAL);
        if (done >= 0) {
            at += (size_t)done;
        } else if (errno == EAGAIN || errno == EWOULDBLOCK) {
            int wait = ready(c->socket, POLLOUT, until);
            if (wait != 0)
                return fail(c, wait);
        } else if (errno != EINTR) {
            return fail(c, DELPHRIMOCK_ENDED);
        }
    }
    at = 0;
    for (;;) {
        ssize_t got;
        int wait;
        if (at == room)
            return fail(c, DELPHRIMOCK_NONSENSE);
        got = recv(c->socket, line + at, room - at, 0);
        if (got > 0) {
            at += (size_t)got;
            if (line[at - 1] == '\n') {
                line[at - 1] = 0;
                /* one message has one line: a second would be another call's */
                return memchr(line, '\n', at - 1) != NULL ? fail(c, DELPHRIMOCK_NONSENSE) : 0;
            }
        } else if (got == 0) {
            return fail(c, DELPHRIMOCK_ENDED);
        } else if (errno == EAGAIN || errno == EWOULDBLOCK) {
            wait = ready(c->socket, POLLIN, until);
            if (wait != 0)
                return fail(c, wait);
        } else if (errno != EINTR) {
            return fail(c, DELPHRIMOCK_ENDED);
        }
    }
}

/* Takes a word from the front of a line: what stands behind it, or NULL if it is another. */
static const char *behind(const char *line, const char *word)
{
    size_t n = strlen(word);
    return strncmp(line, word, n) == 0 && (line[n] == 0 || line[n] == ' ') ? line + n : NULL;
}

/* Takes a number with a space before it: what stands behind it, or NULL if there is none. */
static const char *number_in(const char *text, uint32_t *number)
{
    uint64_t n = 0;
    if (text == NULL || *text++ != ' ' || *text < '0' || *text > '9')
        return NULL;
    for (; *text >= '0' && *text <= '9'; text++) {
        n = 10 * n + (uint64_t)(*text - '0');
        if (n > UINT32_MAX)
            return NULL;
    }
    *number = (uint32_t)n;
    return text;
}

static int only_number(const char *text, uint32_t *number)
{
    uint32_t n;
    text = number_in(text, &n);
    if (text == NULL || *text != 0)
        return 0;
    *number = n;
    return 1;
}

struct body {
    uint8_t bytes[3 + LONGEST_BODY];
    size_t length;
};

static void put8(struct body *b, uint32_t v)
{
    b->bytes[b->length++] = (uint8_t)v;
}

static void put32(struct body *b, uint32_t v)
{
    put8(b, v >> 24);
    put8(b, v >> 16);
    put8(b, v >> 8);
    put8(b, v);
}

static struct body start(uint8_t kind)
{
    struct body b;
    b.length = 3;
    put8(&b, kind);
    return b;
}

/* Asks, and reads a refusal: its number, or 0 with the line. */
static int ask(struct delphrimock *c, struct body *b, char line[LINE])
{
    uint32_t refused;
    const char *rest;
    int result;
    b->bytes[0] = 1;
    b->bytes[1] = 0;
    b->bytes[2] = (uint8_t)(b->length - 3);
    result = delphrimock_send(c, b->bytes, b->length, line, LINE);
    if (result != 0)
        return result;
    rest = behind(line, "refused");
    if (rest == NULL)
        return 0;
    if (!only_number(rest, &refused) || refused == 0 || refused > 99)
        return fail(c, DELPHRIMOCK_NONSENSE);
    if (refused == 11) /* the last line of a connection */
        delphrimock_close(c);
    return (int)refused;
}

static int done(struct delphrimock *c, struct body *b)
{
    char line[LINE];
    int result = ask(c, b, line);
    return result == 0 && strcmp(line, "ok") != 0 ? fail(c, DELPHRIMOCK_NONSENSE) : result;
}

static int counted(struct delphrimock *c, struct body *b, const char *word, uint32_t *number)
{
    char line[LINE];
    int result = ask(c, b, line);
    if (result == 0 && !only_number(behind(line, word), number))
        return fail(c, DELPHRIMOCK_NONSENSE);
    return result;
}

/* ---- the calls */

int delphrimock_open(struct delphrimock *c, uint32_t first, const uint32_t *floors, size_t count)
{
    struct body b = start(0);
    size_t i;
    if (count > (LONGEST_BODY - 5) / 4)
        return DELPHRIMOCK_UNSAYABLE;
    put32(&b, first);
    for (i = 0; i < count; i++)
        put32(&b, floors[i]);
    return done(c, &b);
}

int delphrimock_begin(struct delphrimock *c, uint8_t sites, uint32_t *number)
{
    struct body b = start(1);
    put8(&b, sites);
    return counted(c, &b, "begin", number);
}

int delphrimock_ticket(struct delphrimock *c, uint32_t number, uint8_t site, uint32_t ticket)
{
    struct body b = start(2);
    put32(&b, number);
    put8(&b, site);
    put32(&b, ticket);
    return done(c, &b);
}

int delphrimock_prepared(struct delphrimock *c, uint32_t number, uint8_t site)
{
    struct body b = start(3);
    put32(&b, number);
    put8(&b, site);
    return done(c, &b);
}

int delphrimock_abort(struct delphrimock *c, uint32_t number)
{
    struct body b = start(4);
    put32(&b, number);
    return done(c, &b);
}

int delphrimock_decide(struct delphrimock *c, uint32_t number, int *committed)
{
    struct body b = start(5);
    char line[LINE];
    uint32_t n = 0;
    int result, commit;
    put32(&b, number);
    result = ask(c, &b, line);
    if (result != 0)
        return result;
    commit = behind(line, "commit") != NULL;
    if (!only_number(behind(line, commit ? "commit" : "cycle"), &n) || n != number)
        return fail(c, DELPHRIMOCK_NONSENSE);
    *committed = commit;
    return 0;
}

int delphrimock_forget(struct delphrimock *c, uint32_t number)
{
    struct body b = start(6);
    put32(&b, number);
    return done(c, &b);
}

int delphrimock_sweep(struct delphrimock *c, uint32_t *forgotten)
{
    struct body b = start(7);
    return counted(c, &b, "swept", forgotten);
}

int delphrimock_propose(struct delphrimock *c, const uint32_t *numbers, size_t count, int *good)
{
    struct body b = start(8);
    char line[LINE];
    size_t i;
    int result;
    if (count > (LONGEST_BODY - 1) / 4)
        return DELPHRIMOCK_UNSAYABLE;
    for (i = 0; i < count; i++)
        put32(&b, numbers[i]);
    result = ask(c, &b, line);
    if (result != 0)
        return result;
    if (strcmp(line, "good") != 0 && strcmp(line, "bad") != 0)
        return fail(c, DELPHRIMOCK_NONSENSE);
    *good = line[0] == 'g';
    return 0;
}

int delphrimock_order(struct delphrimock *c, uint32_t numbers[32], size_t *count)
{
    struct body b = start(9);
    char line[LINE];
    uint32_t got[32];
    const char *rest;
    size_t n = 0;
    int result = ask(c, &b, line);
    if (result != 0)
        return result;
    rest = behind(line, "order");
    while (rest != NULL && *rest != 0 && n < 32)
        rest = number_in(rest, &got[n++]);
    if (rest == NULL || *rest != 0)
        return fail(c, DELPHRIMOCK_NONSENSE);
    memcpy(numbers, got, n * sizeof got[0]);
    *count = n;
    return 0;
}
