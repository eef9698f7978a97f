/* Doubling and halving in the field, each with a branch on the byte that no compiler can take away. tests/instructions.sh
 * has to find these. */
#include <stdint.h>

uint8_t planted_double(uint8_t x);
uint8_t planted_halve(uint8_t x);

uint8_t planted_double(uint8_t x)
{
    if (x < 128)
        return (uint8_t)(x * 2);
    __asm__ volatile("");
    return (uint8_t)(x * 2 ^ 0xF9);
}

uint8_t planted_halve(uint8_t x)
{
    if (x % 2 == 0)
        return x / 2;
    __asm__ volatile("");
    return x / 2 ^ 0xFC;
}
