/* Runs stretch as a function, and looks for what it held: its key as digits and as bytes, the round keys, and the data.
 * Usage: held wiped|left KEYFILE PLAIN OUTPUT: none of it may be there once stretch has ended; `left` says that stretch was
 * compiled with its wiping left out, and then each has to be found. Last line: 'N passed, M failed'. */
#define main stretch_main
#include "../../examples/stretch.c"
#undef main

#include <getopt.h>
#include "hex.h"
#include "painted.h"
#include "parts.h"
#include "tally.h"

enum { ROUNDS = 16, KEY_LEN = 16, DIGITS = 2 * KEY_LEN, WORD = 8 };

static char digits[DIGITS + 1], shown[DIGITS + 1];
static char *words_of_file[] = {"stretch", "seal", "-c", "128", "-r", "16", "-k", NULL, "-n", "5", "-o", NULL, NULL, NULL};
static char *words_with_key[] = {"stretch", "seal", "-c", "128", "-r", "16", "--key", shown, "-n", "5", "-o", NULL, NULL, NULL};
static char **words_now;
static int status;

/* Reading a command's words begins anew, and the output is a new file. */
static void stretch_here(void)
{
    optind = 0;
    unlink(words_now[11]);
    status = stretch_main(13, words_now);
}

static int all_zero(const uint8_t *bytes, size_t len)
{
    for (size_t i = 0; i < len; i++)
        if (bytes[i] != 0)
            return 0;
    return 1;
}

static void look(const char *how, int wiped)
{
    uint8_t key[KEY_LEN], round_keys[ROUNDS * FOX128_BLOCK];
    hex_read(digits, key, sizeof key);
    second_round_keys(round_keys, FOX128_BLOCK, ROUNDS, key, sizeof key);
    on_painted_stack(stretch_here);
    size_t text = words_left((const uint8_t *)digits, DIGITS, WORD), bytes = words_left(key, sizeof key, WORD);
    size_t keys = words_left(round_keys, sizeof round_keys, WORD);
    int data = !all_zero(taken, sizeof taken) && !all_zero(made, sizeof made);
    int some = bytes > 0 && keys > 0 && data, any = text + bytes + keys > 0 || data;
    figure(status == DONE && (wiped ? !any : some),
           "stretch with %s, %s: words left of the key's digits %zu, its bytes %zu, round keys %zu; %s of the data", how,
           wiped ? "as it is" : "its wiping left out", text, bytes, keys, data ? "some" : "none");
}

int main(int count, char **words)
{
    if (count != 5)
        return 2;
    int wiped = strcmp(words[1], "wiped") == 0;
    FILE *file = fopen(words[2], "r");
    if (file == NULL || fread(digits, 1, DIGITS, file) != DIGITS)
        return 2;
    fclose(file);
    memcpy(shown, digits, sizeof shown);
    words_of_file[7] = words[2];
    words_of_file[11] = words_with_key[11] = words[4];
    words_of_file[12] = words_with_key[12] = words[3];
    tally_begin("wipe");
    words_now = words_of_file;
    look("a key file", wiped);
    words_now = words_with_key;
    look("the key as a word", wiped);
    figure(all_zero((const uint8_t *)shown, DIGITS) == wiped, "stretch, %s: the key among the command's words",
           wiped ? "which wipes" : "its wiping left out, which leaves");
    return tally_end();
}
