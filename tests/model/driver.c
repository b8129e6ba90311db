/* Hands cases from standard input to order_check and writes its answers to standard output.
 *
 * A case is a length (4 bytes, big-endian) and so many bytes of rows, then a length and so many bytes of the order;
 * an answer is 4 bytes, big-endian. Each case is asked twice, with both lists ending right before memory that cannot
 * be touched, and with both beginning right behind such memory. The lists can only be read during the call. So a
 * read outside of them, or a write to them, ends this program by a signal. Two different answers end it with status 3.
 */
#define _DEFAULT_SOURCE
#include <stddef.h>
#include <stdint.h>
#include <stdio.h>
#include <stdlib.h>
#include <string.h>
#include <sys/mman.h>

uint32_t order_check(const uint8_t *rows, size_t rows_len, const uint8_t *order, size_t order_len);

enum { PAGE = 4096, ROOM = 16 * PAGE };

static void give_up(const char *why)
{
    fprintf(stderr, "driver: %s\n", why);
    exit(3);
}

/* ROOM bytes with a page before and a page behind that nobody may touch. */
static uint8_t *guarded(void)
{
    uint8_t *all = mmap(NULL, ROOM + 2 * PAGE, PROT_NONE, MAP_PRIVATE | MAP_ANONYMOUS, -1, 0);
    if (all == MAP_FAILED)
        give_up("no memory");
    return all + PAGE;
}

static const uint8_t *placed(uint8_t *room, const uint8_t *bytes, size_t length, int at_end)
{
    uint8_t *start = at_end ? room + ROOM - length : room;
    if (mprotect(room, ROOM, PROT_READ | PROT_WRITE) != 0)
        give_up("memory cannot be opened");
    memcpy(start, bytes, length);
    if (mprotect(room, ROOM, PROT_READ) != 0)
        give_up("memory cannot be closed");
    return start;
}

/* A list into the buffer; 0 at the end of input. */
static int read_list(uint8_t *buffer, size_t *length)
{
    uint8_t head[4];
    size_t got = fread(head, 1, 4, stdin);
    if (got == 0)
        return 0;
    *length = (size_t)head[0] << 24 | (size_t)head[1] << 16 | (size_t)head[2] << 8 | head[3];
    if (got < 4 || *length > ROOM || fread(buffer, 1, *length, stdin) < *length)
        give_up("a case is cut off or too long");
    return 1;
}

int main(void)
{
    static uint8_t rows[ROOM], order[ROOM];
    uint8_t *rows_room = guarded(), *order_room = guarded();
    size_t rows_len, order_len;
    while (read_list(rows, &rows_len)) {
        uint32_t answers[2];
        if (!read_list(order, &order_len))
            give_up("a case without an order");
        for (int at_end = 0; at_end < 2; at_end++) {
            const uint8_t *r = placed(rows_room, rows, rows_len, at_end);
            const uint8_t *o = placed(order_room, order, order_len, at_end);
            answers[at_end] = order_check(r, rows_len, o, order_len);
        }
        if (answers[0] != answers[1])
            give_up("the answer depends on where the lists lie");
        uint32_t a = answers[0];
        uint8_t out[4] = {(uint8_t)(a >> 24), (uint8_t)(a >> 16), (uint8_t)(a >> 8), (uint8_t)a};
        if (fwrite(out, 1, 4, stdout) < 4)
            give_up("the answer cannot be written");
    }
    return fflush(stdout) == 0 ? 0 : 3;
}
