/* A few sums, products and conversions modulo p = 2147483647. */
#include <inttypes.h>
#include <stdio.h>

#include "dikdumar_residue.h"

int main(void)
{
    const uint32_t largest = dikdumar_from_signed(-1); /* p - 1 */

    printf("reduce(4294967295)        = %" PRIu32 "\n", dikdumar_reduce(UINT32_MAX));
    printf("%" PRIu32 " + 1            = %" PRIu32 "\n", largest, dikdumar_add(largest, 1));
    printf("3 - 5                     = %" PRIu32 "\n", dikdumar_subtract(3, 5));
    printf("%" PRIu32 " * %" PRIu32 "   = %" PRIu32 "\n", largest, largest, dikdumar_multiply(largest, largest));
    printf("-17 as a residue          = %" PRIu32 "\n", dikdumar_from_signed(-17));
    printf("-2147483648 as a residue  = %" PRIu32 "\n", dikdumar_from_signed(INT32_MIN));
    printf("%" PRIu32 " as an entry    = %" PRId32 "\n", largest, dikdumar_to_signed(largest));
    printf("2^30, 2^31                = %" PRIu32 ", %" PRIu32 "\n", dikdumar_power_of_two(30), dikdumar_power_of_two(31));
    return 0;
}
