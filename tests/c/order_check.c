/* The C call, called from C: the trial P10, and lists damaged in every way that RULES names, each beside one that is
 * not damaged. Answers 13 and 0 must be given where they are listed here, and 1 where nothing is wrong.
 *
 * With -DALWAYS=N a stand-in that answers N to everything takes the call's place: then this program must fail.
 */
#include "order_check.h"

#include <stdio.h>
#include <stdlib.h>
#include <string.h>

#ifdef ALWAYS
uint32_t order_check(const uint8_t *rows, size_t rows_len, const uint8_t *order, size_t order_len)
{
    (void)rows, (void)rows_len, (void)order, (void)order_len;
    return ALWAYS;
}
#endif

enum { SITES = 8, ROW = 36, NUMBER = 4, MOST = 40 };

static unsigned passed, failed;

/* ---- building lists ---- */

typedef struct {
    uint32_t number;
    uint32_t ticket[SITES];
} Row;

static void put(uint8_t *at, uint32_t x)
{
    at[0] = (uint8_t)(x >> 24);
    at[1] = (uint8_t)(x >> 16);
    at[2] = (uint8_t)(x >> 8);
    at[3] = (uint8_t)x;
}

static size_t put_rows(uint8_t *out, const Row *rows, size_t count)
{
    for (size_t i = 0; i < count; i++) {
        put(out + ROW * i, rows[i].number);
        for (size_t s = 0; s < SITES; s++)
            put(out + ROW * i + NUMBER * (s + 1), rows[i].ticket[s]);
    }
    return ROW * count;
}

static size_t put_order(uint8_t *out, const uint32_t *order, size_t count)
{
    for (size_t i = 0; i < count; i++)
        put(out + NUMBER * i, order[i]);
    return NUMBER * count;
}

/* ---- asking ---- */

static void *copy_of(const uint8_t *bytes, size_t length)
{
    void *p = malloc(length + 1); /* never NULL, also for length 0 */
    if (p == NULL)
        exit(2);
    memcpy(p, bytes, length);
    return p;
}

/* The answer for copies of the lists; 0xffffffff, which is no answer, where the call changed one of them. */
static uint32_t ask(const uint8_t *rows, size_t rows_len, const uint8_t *order, size_t order_len)
{
    uint8_t *r = copy_of(rows, rows_len), *o = copy_of(order, order_len);
    uint32_t answer = order_check(r, rows_len, o, order_len);
    int same = memcmp(r, rows, rows_len) == 0 && memcmp(o, order, order_len) == 0;
    free(r);
    free(o);
    return same ? answer : 0xffffffffu;
}

static void told(const char *what, uint32_t expected, uint32_t answer)
{
    if (answer == expected) {
        passed++;
        return;
    }
    failed++;
    printf("%s: expected %u, got %u\n", what, (unsigned)expected, (unsigned)answer);
}

static void expect(const char *what, uint32_t expected, const Row *rows, size_t row_count, const uint32_t *order, size_t count)
{
    uint8_t r[ROW * MOST], o[NUMBER * MOST];
    size_t rows_len = put_rows(r, rows, row_count), order_len = put_order(o, order, count);
    told(what, expected, ask(r, rows_len, o, order_len));
}

/* ---- the cases ---- */

#define NOTHING (const uint32_t[]){0}, 0
#define ORDER(...) (const uint32_t[]){__VA_ARGS__}, sizeof((const uint32_t[]){__VA_ARGS__}) / sizeof(uint32_t)

static const Row two[] = {{1, {2}}, {2, {1}}};

static void trial_p10(void)
{
    expect("P10: 2, 1", 1, two, 2, ORDER(2, 1));
    expect("P10: 1, 2, an arrow goes backwards", 0, two, 2, ORDER(1, 2));
    expect("P10: 2 alone", 0, two, 2, ORDER(2));
    expect("P10: 2, 2", 0, two, 2, ORDER(2, 2));
}

static void wrong_orders(void)
{
    expect("nothing of two rows", 0, two, 2, NOTHING);
    expect("a number left out, the other twice", 0, two, 2, ORDER(2, 1, 1));
    expect("a third, unknown number", 0, two, 2, ORDER(2, 1, 3));
    expect("an unknown number in place of one", 0, two, 2, ORDER(2, 3));
    expect("number 0 in the order", 0, two, 2, ORDER(2, 0));
    expect("a number with its lowest byte first", 0, two, 2, ORDER(0x02000000u, 0x01000000u));
}

static void empty_lists(void)
{
    expect("no rows, no numbers", 1, two, 0, NOTHING);
    expect("no rows, a number", 0, two, 0, ORDER(1));
    told("no rows, a byte", 0, ask((const uint8_t *)"", 0, (const uint8_t *)"x", 1));
}

static void bad_tables(void)
{
    const Row zero[] = {{1, {2}}, {0, {1}}}, twice[] = {{7, {2}}, {7, {0, 1}}}, same[] = {{7, {2}}, {7, {2}}};
    expect("number 0", 13, zero, 2, ORDER(0, 1));
    expect("two equal numbers", 13, twice, 2, ORDER(7));
    expect("two equal rows", 13, same, 2, ORDER(7, 7));
    expect("equal tickets, and an empty order", 13, (const Row[]){{1, {3}}, {2, {3}}}, 2, NOTHING);
    expect("equal tickets at two sites are no fault", 1, (const Row[]){{1, {3}}, {2, {0, 3}}}, 2, ORDER(2, 1));
    for (size_t s = 0; s < SITES; s++) {
        Row rows[] = {{1, {0}}, {2, {0}}, {3, {0}}};
        char what[64];
        rows[0].ticket[s] = rows[2].ticket[s] = 5;
        snprintf(what, sizeof what, "equal tickets at site %zu", s);
        expect(what, 13, rows, 3, ORDER(1, 2, 3));
        rows[2].ticket[s] = 6;
        snprintf(what, sizeof what, "tickets 5 and 6 at site %zu, in order", s);
        expect(what, 1, rows, 3, ORDER(1, 2, 3));
        snprintf(what, sizeof what, "tickets 5 and 6 at site %zu, the other way", s);
        expect(what, 0, rows, 3, ORDER(3, 2, 1));
    }
}

static void arrows(void)
{
    const Row crossed[] = {{1, {1, 2}}, {2, {2, 1}}}, ring[] = {{1, {2, 1}}, {2, {0, 2, 1}}, {3, {1, 0, 2}}};
    const Row bytes[] = {{1, {256}}, {2, {255}}}, ends[] = {{4294967295u, {1}}, {1, {4294967295u}}};
    expect("crossed at two sites: 1, 2", 0, crossed, 2, ORDER(1, 2));
    expect("crossed at two sites: 2, 1", 0, crossed, 2, ORDER(2, 1));
    expect("a ring of three: 1, 2, 3", 0, ring, 3, ORDER(1, 2, 3));
    expect("a ring of three: 3, 1, 2", 0, ring, 3, ORDER(3, 1, 2));
    expect("tickets 255 and 256", 1, bytes, 2, ORDER(2, 1));
    expect("tickets 256 and 255", 0, bytes, 2, ORDER(1, 2));
    expect("the largest number and ticket", 1, ends, 2, ORDER(4294967295u, 1));
    expect("the largest number and ticket, the other way", 0, ends, 2, ORDER(1, 4294967295u));
    expect("a row without tickets first", 1, (const Row[]){{1, {2}}, {9, {0}}, {2, {1}}}, 3, ORDER(9, 2, 1));
    expect("a row without tickets last", 1, (const Row[]){{1, {2}}, {9, {0}}, {2, {1}}}, 3, ORDER(2, 1, 9));
}

/* 33 rows with falling tickets at site 7, so that the only order is the last row first */
static void falling(Row *rows, uint32_t *order, size_t count)
{
    for (size_t i = 0; i < count; i++) {
        rows[i] = (Row){(uint32_t)i + 1, {0}};
        rows[i].ticket[SITES - 1] = (uint32_t)(count - i);
        order[i] = (uint32_t)(count - i);
    }
}

static void full_tables(void)
{
    Row rows[33];
    uint32_t order[33];
    falling(rows, order, 32);
    expect("32 rows", 1, rows, 32, order, 32);
    expect("32 rows, the last number left out", 0, rows, 32, order, 31);
    for (size_t i = 0; i + 1 < 32; i++) {
        uint32_t swapped[32];
        char what[64];
        memcpy(swapped, order, sizeof swapped);
        swapped[i] = order[i + 1], swapped[i + 1] = order[i];
        snprintf(what, sizeof what, "32 rows, places %zu and %zu exchanged", i, i + 1);
        expect(what, 0, rows, 32, swapped, 32);
    }
    falling(rows, order, 33);
    expect("33 rows", 13, rows, 33, order, 33);
    expect("32 rows, 33 numbers", 0, rows, 32, order, 33);
    rows[31].number = 1;
    expect("32 rows, two equal numbers, 33 numbers", 13, rows, 32, order, 33);
}

/* Every length of the rows, and every length of an order of a good table and of a bad one. */
static void all_lengths(void)
{
    Row rows[33];
    uint32_t numbers[33];
    uint8_t r[ROW * 33], o[NUMBER * 33], bad[ROW];
    char what[64];
    for (uint32_t i = 0; i < 33; i++)
        rows[i] = (Row){i + 1, {0}}, numbers[i] = i + 1;
    put_rows(r, rows, 33);
    put_order(o, numbers, 33);
    for (size_t length = 0; length <= sizeof r; length++) {
        uint32_t expected = length % ROW != 0 || length > 1152 ? 13 : 1;
        snprintf(what, sizeof what, "%zu bytes of rows", length);
        told(what, expected, ask(r, length, o, length / ROW * NUMBER));
        snprintf(what, sizeof what, "%zu bytes of rows, an order cut short", length);
        told(what, expected == 13 ? 13 : 0, ask(r, length, o, length / ROW * NUMBER + 1));
    }
    put_rows(bad, &(Row){0, {0}}, 1);
    for (size_t length = 0; length <= sizeof o; length++) {
        snprintf(what, sizeof what, "an order of %zu bytes", length);
        told(what, length == 3 * NUMBER, ask(r, 3 * ROW, o, length));
        snprintf(what, sizeof what, "an order of %zu bytes, a bad table", length);
        told(what, 13, ask(bad, sizeof bad, o, length));
    }
}

static void long_lists(void)
{
    size_t length = 36u << 16;
    uint8_t *bytes = calloc(length, 1), one[ROW];
    if (bytes == NULL)
        exit(2);
    put_rows(one, &(Row){1, {0}}, 1);
    told("some two million bytes of rows", 13, ask(bytes, length, one, NUMBER));
    told("some two million bytes of order", 0, ask(one, ROW, bytes, length));
    free(bytes);
}

int main(void)
{
    trial_p10();
    wrong_orders();
    empty_lists();
    bad_tables();
    arrows();
    full_tables();
    all_lengths();
    long_lists();
    printf("%u passed, %u failed\n", passed, failed);
    return failed == 0 ? 0 : 1;
}
