/* Bytes as pairs of upper-case hex digits, read and printed. */
#include "hex.h"

#include <stdio.h>
#include <string.h>

static const char digits[] = "0123456789ABCDEF";

static int value(char digit)
{
    const char *found = digit == '\0' ? NULL : strchr(digits, digit);
    return found == NULL ? -1 : (int)(found - digits);
}

size_t hex_read(const char *text, uint8_t *bytes, size_t room)
{
    size_t len = 0;
    while (len < room && value(text[0]) >= 0 && value(text[1]) >= 0) {
        bytes[len++] = (uint8_t)(value(text[0]) * 16 + value(text[1]));
        text += 2;
    }
    return len;
}

int hex_read_all(const char *text, uint8_t *bytes, size_t room, size_t *len)
{
    *len = hex_read(text, bytes, room);
    return strlen(text) == 2 * *len;
}

void hex_print(const uint8_t *bytes, size_t len)
{
    for (size_t i = 0; i < len; i++)
        printf("%02X", bytes[i]);
}

void hex_show(const char *name, const uint8_t *bytes, size_t len, size_t most)
{
    printf(", %s of %zu bytes ", name, len);
    hex_print(bytes, len < most ? len : most);
    printf("%s", len > most ? ".." : "");
}
