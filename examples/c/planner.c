/* A planner's server in small: it keeps rows of tickets, gets proposed orders from wherever, and asks the proved check about
 * each. From the project's folder:
 *
 *   tools/build ccheck
 *   cc -Iinclude examples/c/planner.c target/staticlib/libccheck.a -o target/planner && target/planner
 */
#include <stdio.h>
#include <string.h>

#include "order_check.h"

enum { SITES = 8, ROWS = 32, ROW_BYTES = 4 + 4 * SITES };

/* The rows as the check takes them, so that nothing has to be turned round before a call. */
struct rows {
    uint8_t bytes[ROWS * ROW_BYTES];
    size_t count;
};

static void put(uint8_t *to, uint32_t value)
{
    to[0] = (uint8_t)(value >> 24);
    to[1] = (uint8_t)(value >> 16);
    to[2] = (uint8_t)(value >> 8);
    to[3] = (uint8_t)value;
}

/* Keeps a transaction with its tickets at sites 0 to 7; 0 is no ticket. Answers 0 if there is no room. */
static int keep(struct rows *r, uint32_t number, const uint32_t tickets[SITES])
{
    if (r->count == ROWS)
        return 0;
    uint8_t *row = r->bytes + ROW_BYTES * r->count++;
    put(row, number);
    for (int site = 0; site < SITES; site++)
        put(row + 4 + 4 * site, tickets[site]);
    return 1;
}

/* Takes a transaction out again; the rows behind it move up. */
static void drop(struct rows *r, uint32_t number)
{
    uint8_t wanted[4];
    put(wanted, number);
    for (size_t i = 0; i < r->count; i++) {
        uint8_t *row = r->bytes + ROW_BYTES * i;
        if (memcmp(row, wanted, 4) == 0) {
            memmove(row, row + ROW_BYTES, ROW_BYTES * (--r->count - i));
            return;
        }
    }
}

static void propose(const struct rows *r, size_t count, const uint32_t *numbers)
{
    uint8_t order[4 * 64];
    if (count > 64)
        return;
    for (size_t i = 0; i < count; i++)
        put(order + 4 * i, numbers[i]);

    printf("order");
    for (size_t i = 0; i < count; i++)
        printf(" %lu", (unsigned long)numbers[i]);
    switch (order_check(r->bytes, ROW_BYTES * r->count, order, 4 * count)) {
    case 1:
        puts(": yes, all tickets agree with it");
        break;
    case 0:
        puts(": no, a row is missing, stands twice, is not kept, or stands against a ticket");
        break;
    default:
        puts(": the rows are bad (13), a number is 0 or stands twice, or a ticket stands twice at a site");
    }
}

#define PROPOSE(r, ...) propose(r, sizeof(uint32_t[]){__VA_ARGS__} / sizeof(uint32_t), (uint32_t[]){__VA_ARGS__})

int main(void)
{
    struct rows r = {{0}, 0};

    puts("1 has ticket 256 at site 0, and 2 has ticket 255 there: 2 goes first");
    keep(&r, 1, (uint32_t[SITES]){256});
    keep(&r, 2, (uint32_t[SITES]){255});
    PROPOSE(&r, 2, 1);
    PROPOSE(&r, 1, 2);
    PROPOSE(&r, 2);
    PROPOSE(&r, 2, 2);

    puts("3 shares no site with them and may stand anywhere");
    keep(&r, 3, (uint32_t[SITES]){0, 0, 0, 0, 0, 0, 0, 9});
    PROPOSE(&r, 2, 1, 3);
    PROPOSE(&r, 3, 2, 1);
    PROPOSE(&r, 3, 1, 2);

    puts("3 and 4 alone, crossed: site 0 puts 3 first, site 7 puts 4 first. No order is one");
    drop(&r, 1);
    drop(&r, 2);
    drop(&r, 3);
    keep(&r, 3, (uint32_t[SITES]){1, 0, 0, 0, 0, 0, 0, 9});
    keep(&r, 4, (uint32_t[SITES]){2, 0, 0, 0, 0, 0, 0, 8});
    PROPOSE(&r, 3, 4);
    PROPOSE(&r, 4, 3);

    puts("5 claims a ticket that 4 has");
    keep(&r, 5, (uint32_t[SITES]){2});
    PROPOSE(&r, 3, 4, 5);
    return 0;
}
