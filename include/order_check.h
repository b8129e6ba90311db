/* Does a proposed order of transactions agree with their tickets? docs/RULES.md, Orders and The C call.
 *
 *   rows   the ticket table, 36 bytes a row: the transaction's number, then its tickets at sites 0 to 7; 0 is no ticket
 *   order  the numbers of the transactions in the order proposed, 4 bytes each
 *
 * Every number and ticket is unsigned, 32 bits, the highest byte first. Lengths count bytes.
 *
 * Answers, each tested before the next:
 *
 *   13  the table is bad: its length is over 1152 or no multiple of 36, a number is 0, two rows have the same number, or
 *       two rows have the same ticket at a site. The order is not looked at then, whatever its length.
 *    1  the order names each row's number once and no other, and of any two rows with a ticket at the same site the one
 *       with the smaller ticket there stands earlier
 *    0  it does not; so is every order whose length is no multiple of 4
 *
 * No other number is answered, for any two lists: nothing is asked of what they hold. Of the pointers it is asked that
 * neither is NULL, not even with length 0 (any address does then), and that so many bytes can be read there; the lists may
 * overlap. The call writes to neither, keeps no pointer, allocates nothing, has no state and takes some two kilobytes of
 * stack, so that any number of threads may call it at once. It always returns.
 *
 * Link target/staticlib/libccheck.a, which `tools/build ccheck` makes, for x86-64.
 */
#ifndef ORDER_CHECK_H
#define ORDER_CHECK_H

#include <stddef.h>
#include <stdint.h>

#ifdef __cplusplus
extern "C" {
#endif

uint32_t order_check(const uint8_t *rows, size_t rows_len, const uint8_t *order, size_t order_len);

#ifdef __cplusplus
}
#endif

#endif
