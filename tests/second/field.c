/* Fields of 256 elements: bytes as polynomials modulo one of degree 8, which for FOX is 1F9 (001 §1.6). */
#include "parts.h"

uint8_t second_product(unsigned a, unsigned b, unsigned modulus)
{
    unsigned sum = 0;
    for (; b != 0; b >>= 1) {
        if (b & 1)
            sum ^= a;
        a <<= 1;
        if (a & 0x100)
            a ^= modulus;
    }
    return (uint8_t)sum;
}

/* Every product is worked out once and kept, since a comparison asks for some hundred million of them. */
uint8_t second_times(uint8_t a, uint8_t b)
{
    static uint8_t products[256][256];
    static int made = 0;
    for (unsigned i = 0; !made && i < 65536; i++)
        products[i / 256][i % 256] = second_product(i / 256, i % 256, 0x1F9);
    made = 1;
    return products[a][b];
}
