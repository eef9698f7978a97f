/* One of two files that include fox.h, this one twice, for a program in C99 or C++ that is linked with the library. It
 * prints one block sealed by the card, as the other file opens it by the server, and then the text of refusal 2. */
#include <stdio.h>
#include "fox.h"
#include "fox.h"

int opens(const uint8_t *sealed, const uint8_t *block);

int main(void)
{
    const uint8_t block[FOX64_BLOCK] = {0x01, 0x23, 0x45, 0x67, 0x89, 0xAB, 0xCD, 0xEF};
    const uint8_t key[16] = {0x00, 0x11, 0x22, 0x33, 0x44, 0x55, 0x66, 0x77,
                             0x88, 0x99, 0xAA, 0xBB, 0xCC, 0xDD, 0xEE, 0xFF};
    uint8_t sealed[FOX64_BLOCK];
    size_t i;
    if (fox_card_seal_block(FOX64, 16, key, sizeof key, block, sizeof block, sealed, sizeof sealed) != FOX_SERVED)
        return 1;
    for (i = 0; i < sizeof sealed; i++)
        printf("%02X", (unsigned)sealed[i]);
    printf(" %s\n%s\n", opens(sealed, block) ? "opened" : "not opened", fox_refusal_text(FOX_REFUSED_ROUNDS));
    return 0;
}
