/*
 * Writes the ticket for two small matrices and checks it in both ways, then
 * checks it in full with one claim changed; then writes one whose sums are
 * rounded to the nearest.
 *
 *     bash examples/run write
 */
#include <stdio.h>

#include "dikdumar.h"

enum { ROWS = 2, INNER = 2, COLUMNS = 2, RECORD = 8 };
enum { TICKET = RECORD * (ROWS * INNER + INNER * COLUMNS + 2 * ROWS * COLUMNS) };

/* The records of the first quotient and remainder, and of the last: A and B come
 * before. */
enum { FIRST_QUOTIENT = ROWS * INNER + INNER * COLUMNS, FIRST_REMAINDER = FIRST_QUOTIENT + ROWS * COLUMNS };
enum { LAST_QUOTIENT = FIRST_REMAINDER - 1, LAST_REMAINDER = LAST_QUOTIENT + ROWS * COLUMNS };

static void print_record(const uint8_t *ticket, int record)
{
    printf("record %d:", record);
    for (int byte = 0; byte < RECORD; byte++) {
        printf(" %02X", (unsigned)ticket[RECORD * record + byte]);
    }
    printf("\n");
}

/* Little-endian, whatever the machine's own order. */
static void set_value(uint8_t *ticket, int record, int32_t entry)
{
    uint32_t value = dikdumar_from_signed(entry);
    for (int byte = 0; byte < 4; byte++) {
        ticket[RECORD * record + 4 + byte] = (uint8_t)(value >> (8 * byte));
    }
}

static void print_answer(const char *call, dikdumar_answer answer)
{
    printf("%s: %lu %lu %lu %lu\n", call, (unsigned long)answer.number, (unsigned long)answer.place,
           (unsigned long)answer.row, (unsigned long)answer.products);
}

int main(void)
{
    /* rows, inner, columns, vectors, scale, bound, width, rounding */
    const dikdumar_setting setting = {ROWS, INNER, COLUMNS, 1, 10, 8, 5, 0};
    const dikdumar_setting nearest = {ROWS, INNER, COLUMNS, 1, 10, 8, 5, 5};
    const int32_t a[ROWS * INNER] = {3, -2, 5, 4};
    const int32_t b[INNER * COLUMNS] = {-1, 6, 7, -8};
    const int32_t other_b[INNER * COLUMNS] = {-1, 5, 7, 0};
    const uint32_t list[COLUMNS] = {1, 2};
    uint8_t ticket[TICKET];

    /* A times B is (-17, 34), (23, -2); -17 over 10 rounds down to -2. */
    print_answer("writer", dikdumar_write_ticket(setting, a, ROWS * INNER, b, INNER * COLUMNS, ticket, TICKET));
    print_record(ticket, FIRST_QUOTIENT);
    print_answer("full check", dikdumar_full_check(setting, ticket, TICKET));
    print_answer("challenge check", dikdumar_challenge_check(setting, ticket, TICKET, list, COLUMNS));

    /* The claim of row 0, column 0 becomes 10 * (-1) + 3 = -7. */
    set_value(ticket, FIRST_QUOTIENT, -1);
    print_record(ticket, FIRST_QUOTIENT);
    print_answer("full check", dikdumar_full_check(setting, ticket, TICKET));

    /* To the nearest, halves up: 5 is added to each sum before it is divided. A
     * times the other B is (-17, 15), (23, 25); -17 gives -2, remainder 8, and 25
     * gives 3, remainder 0. */
    printf("to the nearest\n");
    print_answer("writer", dikdumar_write_ticket(nearest, a, ROWS * INNER, other_b, INNER * COLUMNS, ticket, TICKET));
    print_record(ticket, FIRST_QUOTIENT);
    print_record(ticket, FIRST_REMAINDER);
    print_record(ticket, LAST_QUOTIENT);
    print_record(ticket, LAST_REMAINDER);
    print_answer("full check", dikdumar_full_check(nearest, ticket, TICKET));
    print_answer("challenge check", dikdumar_challenge_check(nearest, ticket, TICKET, list, COLUMNS));

    /* Rounded down, the first claim would be 10 * (-2) + 3. */
    print_answer("full check with a rounding of 0", dikdumar_full_check(setting, ticket, TICKET));
    return 0;
}
