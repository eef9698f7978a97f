/* The other of two files that include fox.h. */
#include <string.h>
#include "fox.h"

int opens(const uint8_t *sealed, const uint8_t *block);

int opens(const uint8_t *sealed, const uint8_t *block)
{
    const uint8_t key[16] = {0x00, 0x11, 0x22, 0x33, 0x44, 0x55, 0x66, 0x77,
                             0x88, 0x99, 0xAA, 0xBB, 0xCC, 0xDD, 0xEE, 0xFF};
    uint8_t opened[FOX64_BLOCK];
    const size_t size = sizeof opened;
    return fox_server_open_block(FOX64, 16, key, sizeof key, sealed, size, opened, size) == FOX_SERVED &&
           memcmp(opened, block, size) == 0;
}
