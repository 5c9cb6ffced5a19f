/*
 * Quotes for a layer before there is one, without a bias and with one; then
 * builds the layer with the width that was quoted: the writer and both checks
 * report what was quoted. A bound that is too large is not quoted.
 *
 *     bash examples/run quote
 */
#include <stdio.h>

#include "dikdumar.h"

enum { ROWS = 2, INNER = 2, COLUMNS = 2, CLAIMS = ROWS * COLUMNS, LONGEST = 160 };

/* rows, inner, columns, vectors, scale, bound, width, rounding: the width is not read by a quote. */
static const dikdumar_setting LAYER = {ROWS, INNER, COLUMNS, 1, 10, 8, 0, 5};

static const int32_t A[ROWS * INNER] = {3, -2, 5, 4};
static const int32_t B[INNER * COLUMNS] = {-1, 6, 7, -8};
static const int32_t BIAS[CLAIMS] = {-4, 18, -18, 5};

/* In use, the list is drawn at random once the ticket is fixed. */
static const uint32_t LIST[COLUMNS] = {1, 2};

static void print_quote(const char *what, dikdumar_quote quote)
{
    printf("%s: ", what);
    if (quote.number != 0) {
        printf("no quote, number %lu\n", (unsigned long)quote.number);
        return;
    }
    printf("%lu bits, %lu bytes, %lu products in full, %lu by challenge\n", (unsigned long)quote.width,
           (unsigned long)quote.length, (unsigned long)quote.full_products, (unsigned long)quote.challenge_products);
}

/* Whether the answers are those that the quote promised. */
static const char *kept(dikdumar_quote quote, dikdumar_answer written, dikdumar_answer full, dikdumar_answer challenge)
{
    if (written.number != 0 || full.number != 0 || challenge.number != 0) {
        return "not accepted";
    }
    return written.place == quote.length && written.products == quote.full_products &&
                   full.products == quote.full_products && challenge.products == quote.challenge_products
               ? "kept"
               : "broken";
}

int main(void)
{
    uint8_t ticket[LONGEST];
    dikdumar_setting setting = LAYER;
    dikdumar_bias_setting with_bias = {LAYER, 18};

    dikdumar_quote quote = dikdumar_quote_ticket(setting);
    print_quote("plain", quote);
    setting.width = quote.width;
    dikdumar_answer written = dikdumar_write_ticket(setting, A, ROWS * INNER, B, INNER * COLUMNS, ticket, LONGEST);
    printf("  %s\n", kept(quote, written, dikdumar_full_check(setting, ticket, written.place),
                          dikdumar_challenge_check(setting, ticket, written.place, LIST, COLUMNS)));

    quote = dikdumar_quote_bias_ticket(with_bias);
    print_quote("with a bias of at most 18", quote);
    with_bias.setting.width = quote.width;
    written = dikdumar_write_bias_ticket(with_bias, A, ROWS * INNER, B, INNER * COLUMNS, BIAS, CLAIMS, ticket, LONGEST);
    printf("  %s\n", kept(quote, written, dikdumar_bias_full_check(with_bias, ticket, written.place),
                          dikdumar_bias_challenge_check(with_bias, ticket, written.place, LIST, COLUMNS)));

    with_bias.bias_bound = 19;
    print_quote("with a bias of at most 19", dikdumar_quote_bias_ticket(with_bias));

    setting.bound = 32767;
    print_quote("with entries of at most 32767", dikdumar_quote_ticket(setting));
    return 0;
}
