/*
 * A check that an operator strengthens while it is under way. It begins with one
 * vector and makes one row at a step, and two more vectors are added before it is
 * complete; the ordinary check with the final list gives the same answer. Then a
 * false ticket that the first vector does not show and the second does: once it
 * is caught, nothing can be added.
 *
 *     bash examples/run stepped
 */
#include <stdio.h>

#include "dikdumar.h"

enum { ROWS = 2, INNER = 2, COLUMNS = 2, RECORD = 8 };
enum { TICKET = RECORD * (ROWS * INNER + INNER * COLUMNS + 2 * ROWS * COLUMNS) };

/* rows, inner, columns, vectors, scale, bound, width, rounding */
static const dikdumar_setting SETTING = {ROWS, INNER, COLUMNS, 1, 10, 8, 5, 0};

static const char *words(uint32_t mark)
{
    switch (mark) {
    case DIKDUMAR_UNDER_WAY:
        return "under way";
    case DIKDUMAR_CAUGHT:
        return "caught";
    case DIKDUMAR_COMPLETE:
        return "complete";
    default:
        return "refused";
    }
}

static void print_answer(dikdumar_answer answer)
{
    printf("%lu %lu %lu %lu\n", (unsigned long)answer.number, (unsigned long)answer.place, (unsigned long)answer.row,
           (unsigned long)answer.products);
}

/* What a call makes of a run, printed. */
static dikdumar_run_answer shown(const char *call, dikdumar_run_answer told)
{
    printf("  %s: mark %lu, %s: ", call, (unsigned long)told.mark, words(told.mark));
    print_answer(told.answer);
    return told;
}

/* The same ticket is to be lent at every step of a run. */
static dikdumar_run_answer step(dikdumar_run run, const uint8_t *ticket)
{
    return shown("step", dikdumar_run_step(run, ticket, TICKET));
}

static dikdumar_run_answer add(dikdumar_run run, const uint32_t *vector)
{
    return shown("addition", dikdumar_run_add(run, vector, COLUMNS));
}

/* The ordinary check with the list of a run, and whether it answers as the run does. */
static void compare(dikdumar_run_answer told, const uint8_t *ticket)
{
    const dikdumar_run run = told.run;
    const dikdumar_answer end = told.answer;
    dikdumar_answer whole = dikdumar_challenge_check(run.setting, ticket, TICKET, run.list, run.list_length);

    printf("  the ordinary check with all %lu vectors, %s: ", (unsigned long)run.setting.vectors,
           whole.number == end.number && whole.place == end.place && whole.row == end.row &&
                   whole.products == end.products
               ? "the same"
               : "something else");
    print_answer(whole);
}

int main(void)
{
    const int32_t a[ROWS * INNER] = {3, -2, 5, 4};
    const int32_t b[INNER * COLUMNS] = {-1, 6, 7, -8};
    /* In use, each vector is drawn at random once the ticket is fixed. */
    const uint32_t first[COLUMNS] = {1, 2}, second[COLUMNS] = {3, 5}, third[COLUMNS] = {2147483646, 7};
    const uint32_t hiding[COLUMNS] = {0, 5}, showing[COLUMNS] = {1, 5};
    uint8_t ticket[TICKET];
    dikdumar_run_answer told;

    dikdumar_write_ticket(SETTING, a, ROWS * INNER, b, INNER * COLUMNS, ticket, TICKET);

    printf("a true ticket\n");
    told = shown("begin", dikdumar_run_begin(SETTING, ticket, TICKET, first, COLUMNS));
    told = step(told.run, ticket);
    told = add(told.run, second);
    told = step(told.run, ticket);
    told = step(told.run, ticket);
    told = add(told.run, third);
    while (told.mark == DIKDUMAR_UNDER_WAY) {
        told = step(told.run, ticket);
    }
    compare(told, ticket);

    /* The first quotient, record 8, becomes -1; the vector (0, 5) leaves its column out. */
    ticket[8 * RECORD + 4] = 0xFE;
    printf("a quotient rounded towards zero\n");
    told = shown("begin", dikdumar_run_begin(SETTING, ticket, TICKET, hiding, COLUMNS));
    told = step(told.run, ticket);
    told = add(told.run, showing);
    while (told.mark == DIKDUMAR_UNDER_WAY) {
        told = step(told.run, ticket);
    }
    compare(told, ticket);

    /* The state comes back as it was, and gives its answer again. */
    told = add(told.run, third);
    step(told.run, ticket);
    return 0;
}
