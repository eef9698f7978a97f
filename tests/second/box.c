/* Substitution (001 §2.2.6): the box of 256 entries, each worked out from the three small S-boxes of §3.1, Fig. 13. The
 * box as printed in Fig. 7 is not used, since the scan of it is damaged. */
#include "parts.h"

static const uint8_t small_boxes[3][16] = {
    {0x2, 0x5, 0x1, 0x9, 0xE, 0xA, 0xC, 0x8, 0x6, 0x4, 0x7, 0xF, 0xD, 0xB, 0x0, 0x3},
    {0xB, 0x4, 0x1, 0xF, 0x0, 0x3, 0xE, 0xD, 0xA, 0x8, 0x7, 0x5, 0xC, 0x2, 0x9, 0x6},
    {0xD, 0xA, 0xB, 0x1, 0x4, 0x3, 0x8, 0x9, 0x5, 0x7, 0x2, 0xC, 0xF, 0x0, 0x6, 0xE},
};

/* Two bits and two bits: (a, b) becomes (b, a xor b). */
static unsigned or4(unsigned half)
{
    unsigned a = half >> 2, b = half & 3;
    return b << 2 | (a ^ b);
}

static uint8_t entry(unsigned x)
{
    unsigned left = x >> 4, right = x & 15;
    for (int round = 0; round < 3; round++) {
        unsigned sum = small_boxes[round][left ^ right];
        left ^= sum;
        right ^= sum;
        if (round < 2)
            left = or4(left);
    }
    return (uint8_t)(left << 4 | right);
}

void second_substitute(uint8_t *x, size_t len)
{
    static uint8_t box[256];
    static int made = 0;
    for (unsigned i = 0; !made && i < 256; i++)
        box[i] = entry(i);
    made = 1;
    for (size_t i = 0; i < len; i++)
        x[i] = box[x[i]];
}
