/* The C client against a daemon: every call, both sides of each answer, refusals, and what happens where no answer comes. Ends with
   'N passed, M failed'. Arguments: the daemon's socket, its port, a socket whose answers are nonsense, and one that never answers. */

#include "delphrimock.h"

#include <stdio.h>
#include <stdlib.h>
#include <string.h>

static int passed, failed;

static void hold(const char *what, int good)
{
    if (good) {
        passed++;
    } else {
        failed++;
        printf("not so, in C: %s\n", what);
    }
}

static void story(struct delphrimock *c, struct delphrimock *d)
{
    uint32_t floors[39] = {0}, n = 99, m = 99, swept = 99, order[32];
    size_t count = 99;
    int committed = 99, good = 99;
    char line[400];

    hold("a call before the opening is 1", delphrimock_sweep(c, &swept) == 1 && swept == 99);
    hold("39 floors cannot be said", delphrimock_open(c, 1, floors, 39) == DELPHRIMOCK_UNSAYABLE);
    hold("38 can, and are 1", delphrimock_open(c, 1, floors, 38) == 1);
    hold("open", delphrimock_open(c, 7, floors, 2) == 0);
    hold("a second opening is 4", delphrimock_open(d, 1, floors, 1) == 4);
    hold("begin without sites is 3", delphrimock_begin(c, 0, &n) == 3 && n == 99);
    hold("begin", delphrimock_begin(c, 3, &n) == 0 && n == 7);
    hold("begin, over another connection", delphrimock_begin(d, 3, &m) == 0 && m == 8);
    hold("ticket", delphrimock_ticket(c, n, 0, 1) == 0 && delphrimock_ticket(c, n, 1, 2) == 0);
    hold("ticket of the other", delphrimock_ticket(d, m, 0, 2) == 0 && delphrimock_ticket(d, m, 1, 1) == 0);
    hold("a second ticket is 4", delphrimock_ticket(c, n, 0, 9) == 4);
    hold("a site that is not listed is 3", delphrimock_prepared(c, n, 255) == 3);
    hold("decide too early is 4", delphrimock_decide(c, n, &committed) == 4 && committed == 99);
    hold("prepared", delphrimock_prepared(c, n, 0) == 0 && delphrimock_prepared(c, n, 1) == 0);
    hold("prepared of the other", delphrimock_prepared(d, m, 0) == 0 && delphrimock_prepared(d, m, 1) == 0);
    hold("an empty order", delphrimock_order(c, order, &count) == 0 && count == 0);
    hold("decide: commit", delphrimock_decide(c, n, &committed) == 0 && committed == 1);
    hold("decide: cycle", delphrimock_decide(d, m, &committed) == 0 && committed == 0);
    hold("order", delphrimock_order(d, order, &count) == 0 && count == 1 && order[0] == 7);
    hold("propose: good", delphrimock_propose(c, order, 1, &good) == 0 && good == 1);
    hold("propose: bad", delphrimock_propose(c, order, 0, &good) == 0 && good == 0);
    hold("39 numbers can be said, 40 cannot",
         delphrimock_propose(c, floors, 39, &good) == 0 && good == 0 && delphrimock_propose(c, floors, 40, &good) == DELPHRIMOCK_UNSAYABLE);
    hold("abort of a committed one is 4", delphrimock_abort(c, n) == 4);
    hold("forget", delphrimock_forget(c, n) == 0 && delphrimock_forget(c, n) == 2);
    hold("abort", delphrimock_begin(c, 1, &n) == 0 && n == 9 && delphrimock_abort(c, n) == 0);
    hold("sweep", delphrimock_sweep(c, &swept) == 0 && swept == 0);
    hold("bytes as they are", delphrimock_send(c, (const uint8_t *)"\1\0\0", 3, line, sizeof line) == 0 && strcmp(line, "refused 10") == 0);
}

static void thirty_two(struct delphrimock *c)
{
    uint32_t n = 0, order[32], swept = 0;
    size_t count = 0, i;
    int committed = 0, good = 0, all = 1;
    for (i = 0; i < 32; i++)
        all = all && delphrimock_begin(c, 1, &n) == 0 && delphrimock_ticket(c, n, 0, 100 + (uint32_t)i) == 0 && delphrimock_prepared(c, n, 0) == 0 &&
              delphrimock_decide(c, n, &committed) == 0 && committed == 1;
    hold("32 commits", all);
    hold("a full table is 7", delphrimock_begin(c, 1, &n) == 7);
    hold("an order of 32", delphrimock_order(c, order, &count) == 0 && count == 32 && order[31] == n);
    hold("which is good", delphrimock_propose(c, order, count, &good) == 0 && good == 1);
    hold("and all go", delphrimock_sweep(c, &swept) == 0 && swept == 32);
}

int main(int argc, char **argv)
{
    struct delphrimock c, d;
    uint32_t n = 5;
    char line[400];
    if (argc != 5)
        return 2;
    hold("it connects", delphrimock_connect(&c, argv[1], 10000) == 0);
    hold("over a network, too", delphrimock_connect_tcp(&d, "127.0.0.1", argv[2], 10000) == 0);
    story(&c, &d);
    thirty_two(&c);
    hold("an 11 is the last line", delphrimock_send(&d, (const uint8_t *)"\2", 1, line, sizeof line) == 0 && strcmp(line, "refused 11") == 0);
    hold("and then the connection is over", delphrimock_sweep(&d, &n) == DELPHRIMOCK_ENDED && n == 5);
    hold("for good", delphrimock_sweep(&d, &n) == DELPHRIMOCK_ENDED && d.socket == -1);
    hold("others go on", delphrimock_sweep(&c, &n) == 0 && n == 0);
    delphrimock_close(&c);
    hold("a closed one gives no answer", delphrimock_sweep(&c, &n) == DELPHRIMOCK_ENDED);
    delphrimock_close(&c);

    n = 5;
    hold("nonsense is told", delphrimock_connect(&c, argv[3], 10000) == 0 && delphrimock_sweep(&c, &n) == DELPHRIMOCK_NONSENSE && n == 5);
    hold("and ends the connection", c.socket == -1);
    hold("nonsense for begin", delphrimock_connect(&c, argv[3], 10000) == 0 && delphrimock_begin(&c, 1, &n) == DELPHRIMOCK_NONSENSE && n == 5);
    hold("no answer in time is told", delphrimock_connect(&c, argv[4], 60) == 0 && delphrimock_sweep(&c, &n) == DELPHRIMOCK_TIMEOUT && n == 5);
    hold("and ends the connection, so that no later call gets it", c.socket == -1 && delphrimock_sweep(&c, &n) == DELPHRIMOCK_ENDED);
    hold("nobody there", delphrimock_connect(&c, "/no/such/socket", 1000) == DELPHRIMOCK_ENDED && c.socket == -1);
    memset(line, 'x', 300);
    line[300] = 0;
    hold("a path that is too long", delphrimock_connect(&c, line, 1000) == DELPHRIMOCK_UNSAYABLE);
    printf("%d passed, %d failed\n", passed, failed);
    return failed != 0;
}
