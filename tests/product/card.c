/* A card's program: a block sealed and opened, a run sealed and opened, and its tag made and tested, by the calls named
 * fox_card_ alone. It prints the sealed block, and that both came back. */
#include <stdio.h>
#include <string.h>
#include "fox.h"

int main(void)
{
    const uint8_t block[FOX64_BLOCK] = {0x01, 0x23, 0x45, 0x67, 0x89, 0xAB, 0xCD, 0xEF};
    const uint8_t key[16] = {0x00, 0x11, 0x22, 0x33, 0x44, 0x55, 0x66, 0x77,
                             0x88, 0x99, 0xAA, 0xBB, 0xCC, 0xDD, 0xEE, 0xFF};
    uint8_t sealed[FOX64_BLOCK], opened[FOX64_BLOCK], tag[FOX64_BLOCK], run[100], back[100], data[100] = {0};
    uint32_t refusal = fox_card_seal_block(FOX64, 16, key, sizeof key, block, sizeof block, sealed, sizeof sealed);
    refusal |= fox_card_open_block(FOX64, 16, key, sizeof key, sealed, sizeof sealed, opened, sizeof opened);
    refusal |= fox_card_seal_run(FOX64, 16, key, sizeof key, block, sizeof block, 0, data, sizeof data, run, sizeof run);
    refusal |= fox_card_make_tag(FOX64, 16, key, sizeof key, run, sizeof run, tag, sizeof tag);
    refusal |= fox_card_test_tag(FOX64, 16, key, sizeof key, run, sizeof run, tag, sizeof tag);
    refusal |= fox_card_open_run(FOX64, 16, key, sizeof key, block, sizeof block, 0, run, sizeof run, back, sizeof back);
    if (refusal != FOX_SERVED)
        return puts(fox_refusal_text(refusal)), 1;
    for (size_t i = 0; i < sizeof sealed; i++)
        printf("%02X", (unsigned)sealed[i]);
    /* A run's first block over zeros is the sealed counter. */
    int right = memcmp(opened, block, sizeof block) == 0 && memcmp(back, data, sizeof data) == 0 &&
                memcmp(run, sealed, sizeof sealed) == 0;
    return puts(right ? " sealed and opened" : " not opened"), !right;
}
