/* The coordinator from C: one connection to a daemon (otm serve), a function for each call.

   One header and one file, for POSIX systems, C99 or later. The rules of the calls are docs/RULES.md.

   Every call gives one of
     0                   done, or the answer is in the place that was lent for it
     1 to 99             refused, with the refusal's number (RULES, Refusals); the table is as before
     DELPHRIMOCK_...     below 0: no answer. The places lent are as before.

   After DELPHRIMOCK_ENDED, DELPHRIMOCK_TIMEOUT or DELPHRIMOCK_NONSENSE it is not known whether the call was done. The connection is closed
   then, so that no later call can be given this one's answer; connect again. A connection is for one thread at a time. No memory is
   allocated, and no signal is raised where the daemon is gone. */

#ifndef DELPHRIMOCK_H
#define DELPHRIMOCK_H

#include <stddef.h>
#include <stdint.h>

#ifdef __cplusplus
extern "C" {
#endif

enum {
    DELPHRIMOCK_ENDED = -1,    /* the daemon has closed the connection, cannot be reached, or this connection is closed */
    DELPHRIMOCK_TIMEOUT = -2,  /* no answer came in time */
    DELPHRIMOCK_NONSENSE = -3, /* what came is no answer to the call */
    DELPHRIMOCK_UNSAYABLE = -4 /* no message can carry these values, or the answer has no room; nothing was sent, or nothing changed */
};

struct delphrimock {
    int socket;     /* -1: closed */
    int timeout_ms; /* for each call; below 0: for ever */
};

/* Connects to a socket's path, or over a network. What is done when this gives 0 ends with delphrimock_close. */
int delphrimock_connect(struct delphrimock *c, const char *path, int timeout_ms);
int delphrimock_connect_tcp(struct delphrimock *c, const char *host, const char *port, int timeout_ms);
void delphrimock_close(struct delphrimock *c);

/* The calls. Sites are bits: 1 << site. */
int delphrimock_open(struct delphrimock *c, uint32_t first, const uint32_t *floors, size_t count);
int delphrimock_begin(struct delphrimock *c, uint8_t sites, uint32_t *number);
int delphrimock_ticket(struct delphrimock *c, uint32_t number, uint8_t site, uint32_t ticket);
int delphrimock_prepared(struct delphrimock *c, uint32_t number, uint8_t site);
int delphrimock_abort(struct delphrimock *c, uint32_t number);
int delphrimock_decide(struct delphrimock *c, uint32_t number, int *committed); /* 0: it made a cycle, and is aborted */
int delphrimock_forget(struct delphrimock *c, uint32_t number);
int delphrimock_sweep(struct delphrimock *c, uint32_t *forgotten);
int delphrimock_propose(struct delphrimock *c, const uint32_t *numbers, size_t count, int *good);
int delphrimock_order(struct delphrimock *c, uint32_t numbers[32], size_t *count);

/* Sends the bytes of one whole message as they are, and gives its line without the line feed. 400 bytes hold every line there is. */
int delphrimock_send(struct delphrimock *c, const uint8_t *message, size_t length, char *line, size_t room);

#ifdef __cplusplus
}
#endif

#endif
