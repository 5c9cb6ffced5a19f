/*
 * A line controller's part: a ticket stands in memory as it was received, is
 * checked in both ways, and the answers say what becomes of the pallet.
 *
 *     bash examples/run check
 *
 * host/dikdumar/examples/check.rs is the same in Rust.
 */
#include <stdio.h>
#include <string.h>

#include "dikdumar.h"

enum { ROWS = 2, INNER = 2, COLUMNS = 2, RECORD = 8 };
enum { TICKET = RECORD * (ROWS * INNER + INNER * COLUMNS + 2 * ROWS * COLUMNS) };

/* rows, inner, columns, vectors, scale, bound, width, rounding */
static const dikdumar_setting SETTING = {ROWS, INNER, COLUMNS, 1, 10, 8, 5, 0};

/* A times B is (-17, 34), (23, -2); the claims are these sums over 10, rounded
 * down, and what is left. */
static const uint8_t RECEIVED[TICKET] = {
    0x01, 0x00, 0x00, 0x00, 0x03, 0x00, 0x00, 0x00, /* A: 3 */
    0x01, 0x00, 0x00, 0x01, 0xFD, 0xFF, 0xFF, 0x7F, /* -2 */
    0x01, 0x00, 0x01, 0x00, 0x05, 0x00, 0x00, 0x00, /* 5 */
    0x01, 0x00, 0x01, 0x01, 0x04, 0x00, 0x00, 0x00, /* 4 */
    0x02, 0x00, 0x00, 0x00, 0xFE, 0xFF, 0xFF, 0x7F, /* B: -1 */
    0x02, 0x00, 0x00, 0x01, 0x06, 0x00, 0x00, 0x00, /* 6 */
    0x02, 0x00, 0x01, 0x00, 0x07, 0x00, 0x00, 0x00, /* 7 */
    0x02, 0x00, 0x01, 0x01, 0xF7, 0xFF, 0xFF, 0x7F, /* -8 */
    0x03, 0x00, 0x00, 0x00, 0xFD, 0xFF, 0xFF, 0x7F, /* quotients: -2 */
    0x03, 0x00, 0x00, 0x01, 0x03, 0x00, 0x00, 0x00, /* 3 */
    0x03, 0x00, 0x01, 0x00, 0x02, 0x00, 0x00, 0x00, /* 2 */
    0x03, 0x00, 0x01, 0x01, 0xFE, 0xFF, 0xFF, 0x7F, /* -1 */
    0x04, 0x00, 0x00, 0x00, 0x03, 0x00, 0x00, 0x00, /* remainders: 3 */
    0x04, 0x00, 0x00, 0x01, 0x04, 0x00, 0x00, 0x00, /* 4 */
    0x04, 0x00, 0x01, 0x00, 0x03, 0x00, 0x00, 0x00, /* 3 */
    0x04, 0x00, 0x01, 0x01, 0x08, 0x00, 0x00, 0x00, /* 8 */
};

static void print_answer(const char *call, dikdumar_answer answer)
{
    printf("  %s: %lu %lu %lu %lu\n", call, (unsigned long)answer.number, (unsigned long)answer.place,
           (unsigned long)answer.row, (unsigned long)answer.products);
}

/* What to do on an answer of either check. Number 0 alone lets the pallet pass. */
static void act(dikdumar_answer answer)
{
    unsigned long place = answer.place;

    switch (answer.number) {
    case 0:
        printf("  let the pallet pass\n");
        break;
    case 12:
        printf("  reject the pallet: caught in row %lu\n", (unsigned long)answer.row);
        break;
    case 16:
        printf("  reject the pallet: the claim of row %lu, column %lu is untrue\n", place / COLUMNS, place % COLUMNS);
        break;
    case 4:
        printf("  hold the pallet and ask for the ticket again: wrong length\n");
        break;
    case 5:
    case 6:
    case 7:
    case 8:
    case 9:
        printf("  hold the pallet and ask for the ticket again: record %lu is refused\n", place);
        break;
    case 21:
        /* Never only a new list: a source that gives zeros gives them again. */
        printf("  hold the pallet and stop drawing: the source of the numbers has failed\n");
        break;
    default:
        /* The setting (1, 2, 19, 3) or the list (10, 11), which are this program's own. */
        printf("  hold the pallet and stop the line: the controller is wrong\n");
        break;
    }
}

static void receive(const char *name, const uint8_t *ticket, size_t length, const uint32_t *list, size_t numbers)
{
    dikdumar_answer challenge = dikdumar_challenge_check(SETTING, ticket, length, list, numbers);
    dikdumar_answer full = dikdumar_full_check(SETTING, ticket, length);

    printf("%s\n", name);
    print_answer("challenge check", challenge);
    act(challenge);
    print_answer("full check", full);
    act(full);
}

int main(void)
{
    /* In use, a list is drawn at random for each ticket once that is fixed. */
    const uint32_t list[COLUMNS] = {1, 5};
    const uint32_t zeros[COLUMNS] = {0, 0};
    uint8_t ticket[TICKET];

    receive("a true ticket", RECEIVED, TICKET, list, COLUMNS);

    /* The first quotient, record 8, is -1: -17 over 10 rounds down to -2. */
    memcpy(ticket, RECEIVED, TICKET);
    ticket[8 * RECORD + 4] = 0xFE;
    receive("a quotient rounded towards zero", ticket, TICKET, list, COLUMNS);

    memcpy(ticket, RECEIVED, TICKET);
    ticket[5 * RECORD + 1] = 0x01;
    receive("a byte of record 5 damaged", ticket, TICKET, list, COLUMNS);

    receive("the last record lost", RECEIVED, TICKET - RECORD, list, COLUMNS);

    receive("a list with a number too few", RECEIVED, TICKET, list, COLUMNS - 1);

    receive("a list of zeros", RECEIVED, TICKET, zeros, COLUMNS);
    return 0;
}
