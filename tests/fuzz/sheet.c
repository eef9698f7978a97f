/* A fuzzer's input as the bench sheet: the proved library's answer beside that of the second implementation, the count
 * and every byte. Stops the program where they differ. */
#include "answers.h"
#include "exact.h"
#include "sheet.h"

#include <stdio.h>
#include <stdlib.h>
#include <string.h>

/* fox_probe's export: answers how many bytes of the answer stand at the start of `out`; the rest is as it was. */
size_t fox_probe_sheet(const uint8_t *sheet, size_t len, uint8_t out[MOST_ANSWER]);

int LLVMFuzzerTestOneInput(const uint8_t *bytes, size_t len);

static void hold(int right, const char *what)
{
    if (right)
        return;
    printf("sheet: %s\n", what);
    fflush(stdout);
    abort();
}

int LLVMFuzzerTestOneInput(const uint8_t *bytes, size_t len)
{
    char answer[MOST_ANSWER];
    size_t count = second_sheet(bytes, len, answer, sizeof answer);
    const uint8_t *right = (const uint8_t *)answer;
    count_answer((uint32_t)strtoul(answer + strlen("refusal="), NULL, 10));
    struct exact sheet = exact_copy(bytes, len), out = exact_room(MOST_ANSWER);
    exact_paint(&out, right, count);
    hold(fox_probe_sheet(sheet.at, sheet.len, out.at) == count, "the answer has another length");
    hold(exact_holds(&out, right, count), "the answer has another byte, or something else was written");
    hold(len == 0 || exact_holds(&sheet, bytes, len), "the sheet was changed");
    exact_free(&sheet);
    exact_free(&out);
    return 0;
}
