/* Traces that other programs write of this one, read line by line. */
#include "tally.h"
#include "trace.h"

#include <stdio.h>
#include <stdlib.h>
#include <string.h>

enum { LINE = 512 };

/* A line of lackey's has a kind, an address in hex and a size, as in 'I  00401a2c,4' or ' L 1ffefffe50,8'. What valgrind says
 * besides begins with '=', '-' or '#'. */
static int lackey_line(const char *line)
{
    char *end, kind = line[0] == ' ' ? line[1] : line[0];
    if (strchr("=-#", line[0]) != NULL)
        return 1;
    if (strchr(line[0] == ' ' ? "LSM" : "I", kind) == NULL || line[2] != ' ')
        return 0;
    uint64_t address = strtoull(line + 3, &end, 16);
    if (end == line + 3 || *end != ',')
        return 0;
    unsigned long size = strtoul(end + 1, &end, 10);
    if (size == 0 || *end != '\n')
        return 0;
    saw(kind, address, (unsigned)size);
    return 1;
}

void read_lackey(void)
{
    static char line[LINE];
    long count = 0;
    while (fgets(line, sizeof line, stdin) != NULL) {
        count++;
        if (!lackey_line(line)) {
            figure(0, "line %ld of valgrind's trace is none: %.*s", count, (int)strcspn(line, "\n"), line);
            return;
        }
    }
}

/* An emulator says 'Trace 0: HOST [BASE/ADDRESS/..' before each piece of code that none but its last instruction jumps out of.
 * Where such pieces begin says all of the instructions in them. */
void read_emulator(void)
{
    static char line[LINE];
    while (fgets(line, sizeof line, stdin) != NULL) {
        char *at = strncmp(line, "Trace ", 6) == 0 ? strchr(line, '[') : NULL;
        if (at != NULL && (at = strchr(at, '/')) != NULL)
            saw('I', strtoull(at + 1, NULL, 16), 0);
    }
}
