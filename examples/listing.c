/* Opens the sheet of the listing (docs/RULES.md, P1) through the library and prints the words of its result, or its refusal,
 * as the opening program does. */
#include "boxashewu.h"
#include <inttypes.h>
#include <stdio.h>

static const uint32_t sheet[] = {
    0x1000005a, 0x2000006e, 0x30000064, 0x40000064, 0x50000002, /* D 90, H 110, last 100, I 100, 2 orders */
    0x60000069, 0x8000000a, 0x90000000,                         /* a buy of 10 at 105 */
    0x7000005f, 0x80000004, 0x90000000,                         /* a sell of 4 at 95 */
};
static uint32_t space[AUCTION_OPENING_WORDS];

int main(void) {
    struct auction_space opened =
        auction_opening(sheet, sizeof sheet / sizeof *sheet, space, AUCTION_OPENING_WORDS);
    if (opened.refusal != 0) {
        printf("refused %" PRIu32 " %zu\n", opened.refusal, opened.order);
        return 1;
    }
    for (size_t i = 0; i < opened.count; i++) {
        printf("%08" PRIx32 "\n", space[i]);
    }
    return 0;
}
