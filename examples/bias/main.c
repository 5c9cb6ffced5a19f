/*
 * Writes the bias ticket for two small matrices and a bias, and checks it in both
 * ways; then with an entry of the bias changed, so that it is false only through
 * the bias, with the entry beyond its bound, and with a record lost. The answers
 * say what becomes of the pallet.
 *
 *     bash examples/run bias
 */
#include <stdio.h>

#include "dikdumar.h"

enum { ROWS = 2, INNER = 2, COLUMNS = 2, RECORD = 8 };
enum { TICKET = RECORD * (ROWS * INNER + INNER * COLUMNS + 3 * ROWS * COLUMNS) };

/* The records of the first and the last entry of the bias: A and B come before. */
enum { FIRST_BIAS = ROWS * INNER + INNER * COLUMNS, LAST_BIAS = FIRST_BIAS + ROWS * COLUMNS - 1 };

/* rows, inner, columns, vectors, scale, bound, width, rounding; bias_bound */
static const dikdumar_bias_setting SETTING = {{ROWS, INNER, COLUMNS, 1, 10, 8, 5, 0}, 23};

static void print_record(const uint8_t *ticket, int record)
{
    printf("  record %d:", record);
    for (int byte = 0; byte < RECORD; byte++) {
        printf(" %02X", (unsigned)ticket[RECORD * record + byte]);
    }
    printf("\n");
}

/* Little-endian, whatever the machine's own order. */
static void set_value(uint8_t *ticket, int record, int32_t entry)
{
    uint32_t value = dikdumar_from_signed(entry);
    for (int byte = 0; byte < 4; byte++) {
        ticket[RECORD * record + 4 + byte] = (uint8_t)(value >> (8 * byte));
    }
}

static void print_answer(const char *call, dikdumar_answer answer)
{
    printf("  %s: %lu %lu %lu %lu\n", call, (unsigned long)answer.number, (unsigned long)answer.place,
           (unsigned long)answer.row, (unsigned long)answer.products);
}

/* What to do on an answer of either check. Number 0 alone lets the pallet pass. */
static void act(dikdumar_answer answer)
{
    unsigned long place = answer.place;

    switch (answer.number) {
    case 0:
        printf("  let the pallet pass\n");
        break;
    case 12:
        printf("  reject the pallet: caught in row %lu\n", (unsigned long)answer.row);
        break;
    case 16:
        printf("  reject the pallet: the claim of row %lu, column %lu is untrue\n", place / COLUMNS, place % COLUMNS);
        break;
    case 4:
        printf("  hold the pallet and ask for the ticket again: wrong length\n");
        break;
    case 5:
    case 6:
    case 7:
    case 8:
    case 9:
    case 18:
        printf("  hold the pallet and ask for the ticket again: record %lu is refused\n", place);
        break;
    default:
        /* The setting (1, 2, 17, 19, 3) or the list (10, 11), which are this program's own. */
        printf("  hold the pallet and stop the line: the controller is wrong\n");
        break;
    }
}

static void receive(const char *name, const uint8_t *ticket, size_t length)
{
    /* In use, a list is drawn at random for each ticket once that is fixed. */
    const uint32_t list[COLUMNS] = {1, 2};
    dikdumar_answer challenge = dikdumar_bias_challenge_check(SETTING, ticket, length, list, COLUMNS);
    dikdumar_answer full = dikdumar_bias_full_check(SETTING, ticket, length);

    printf("%s\n", name);
    print_answer("challenge check", challenge);
    act(challenge);
    print_answer("full check", full);
    act(full);
}

int main(void)
{
    const int32_t a[ROWS * INNER] = {3, -2, 5, 4};
    const int32_t b[INNER * COLUMNS] = {-1, 6, 7, -8};
    const int32_t bias[ROWS * COLUMNS] = {-4, 23, -23, 5};
    uint8_t ticket[TICKET];
    dikdumar_answer written = dikdumar_write_bias_ticket(SETTING, a, ROWS * INNER, b, INNER * COLUMNS, bias,
                                                         ROWS * COLUMNS, ticket, TICKET);

    /* A times B is (-17, 34), (23, -2), and with the bias (-21, 57), (0, 3); -21
     * over 10 rounds down to -3. */
    printf("a bias ticket\n");
    print_answer("writer", written);
    print_record(ticket, FIRST_BIAS);
    receive("as it was written", ticket, TICKET);

    /* With 6 for 5 the sum of row 1, column 1 is 4, and the claim is still 3. */
    set_value(ticket, LAST_BIAS, 6);
    receive("the last entry of the bias changed", ticket, TICKET);

    set_value(ticket, LAST_BIAS, 24);
    receive("the last entry of the bias beyond 23", ticket, TICKET);

    set_value(ticket, LAST_BIAS, 5);
    receive("the last record lost", ticket, TICKET - RECORD);
    return 0;
}
