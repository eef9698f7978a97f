/* Plays the calls on sessions that its input lists, by the plain machine, and prints what each told: what the program
 * fox_check_session is to print for the same lines. A session begins with five lines, `way`, which is `seal` or `open`,
 * `cipher`, `rounds`, `key` and `counter`; a line `advance` has the next bytes, and a line `move` a position. */
#include "hex.h"
#include "session.h"

#include <inttypes.h>
#include <stdio.h>
#include <stdlib.h>
#include <string.h>

enum { MOST_LINE = 512, MOST_BYTES = 128 };

static char line[MOST_LINE];

/* The rest of the line after the name and `=`, of the next line where one is to be read; NULL where it has another
 * name. */
static char *value(const char *name, int next)
{
    size_t len = strlen(name);
    if (next && fgets(line, sizeof line, stdin) == NULL)
        return NULL;
    line[strcspn(line, "\n")] = 0;
    return strncmp(line, name, len) == 0 && line[len] == '=' ? line + len + 1 : NULL;
}

static void print_told(uint32_t refusal, size_t count, const struct second_session *s)
{
    printf(" refusal=%u count=%zu position=%" PRIu64, (unsigned)refusal, refusal == 0 ? count : 0, s->position);
}

/* The number, or the bytes, in the next line, which is to have this name. */

static int next_number(const char *name, uint32_t *number)
{
    const char *text = value(name, 1);
    if (text != NULL)
        *number = (uint32_t)strtoul(text, NULL, 10);
    return text != NULL;
}

static int next_bytes(const char *name, uint8_t *bytes, size_t *len)
{
    const char *text = value(name, 1);
    if (text != NULL)
        *len = hex_read(text, bytes, MOST_BYTES);
    return text != NULL;
}

static int start(struct second_session *s, const char *way)
{
    uint8_t key[MOST_BYTES], counter[MOST_BYTES];
    uint32_t cipher, rounds;
    size_t key_len, counter_len;
    int opening = strcmp(way, "open") == 0;
    if ((!opening && strcmp(way, "seal") != 0) || !next_number("cipher", &cipher) || !next_number("rounds", &rounds) ||
        !next_bytes("key", key, &key_len) || !next_bytes("counter", counter, &counter_len))
        return 0;
    uint32_t refusal = second_session_start(s, opening, cipher, rounds, key, key_len, counter, counter_len);
    printf("start %s %u %u %zu:", opening ? "open" : "seal", (unsigned)cipher, (unsigned)rounds, key_len);
    print_told(refusal, 0, s);
    puts("");
    return 1;
}

static void move(struct second_session *s, const char *position)
{
    uint32_t refusal = second_session_move(s, strtoull(position, NULL, 10));
    printf("  move");
    print_told(refusal, 0, s);
    puts("");
}

static void advance(struct second_session *s, const char *digits)
{
    uint8_t input[MOST_BYTES], out[MOST_BYTES] = {0};
    size_t n = hex_read(digits, input, sizeof input);
    uint32_t refusal = second_session_advance(s, input, n, out, n);
    printf("  advance");
    print_told(refusal, n, s);
    printf(" output=");
    for (size_t i = 0; i < n; i++)
        printf("%02x", out[i]);
    puts("");
}

int main(void)
{
    struct second_session s;
    memset(&s, 0, sizeof s);
    while (fgets(line, sizeof line, stdin) != NULL) {
        char *text;
        if ((text = value("way", 0)) != NULL) {
            if (!start(&s, text))
                return 1;
        } else if ((text = value("move", 0)) != NULL) {
            move(&s, text);
        } else if ((text = value("advance", 0)) != NULL) {
            advance(&s, text);
        } else {
            return 1;
        }
    }
    return 0;
}
