/* Holds the texts of the refusals to what each has to name: what is wrong and what range is right. Usage: texts, or
 * texts NUMBER, which prints the text of that number. */
#include "count.h"
#include "fox.h"
#include "tally.h"

#include <stdio.h>
#include <stdlib.h>
#include <string.h>

static const char *const named[][6] = {
    [FOX_SERVED] = {"Served", "output", "written", "tag", "no scan left", "session"},
    [FOX_REFUSED_CIPHER] = {"cipher", "64", "128", "session", "start"},
    [FOX_REFUSED_ROUNDS] = {"rounds", "12", "255"},
    [FOX_REFUSED_KEY] = {"key", "longer than 32 bytes", "16 to 32 bytes to seal", "0 to 32 to open"},
    [FOX_REFUSED_BLOCK] = {"block", "counter", "8 bytes", "16 bytes", "rounds", "taken up"},
    [FOX_REFUSED_DATA] = {"data", "65,536", "message", "1,073,741,824"},
    [FOX_REFUSED_OUTPUT] = {"output", "input", "tag 8", "16", "scan", "file"},
    [FOX_REFUSED_END] = {"run", "offset", "length", "1,073,741,824", "session's position"},
    [FOX_REFUSED_SHEET] = {"sheet", "line"},
    [FOX_REFUSED_TAG_LENGTH] = {"stored tag", "8 bytes", "16 bytes"},
    [FOX_REFUSED_TAG] = {"tag", "differs", "message", "key", "file"},
    [FOX_REFUSED_HEADER] = {"header", "cipher", "rounds"},
    [FOX_REFUSED_FILE] = {"cut short", "65,535", "65,536", "1,073,741,824", "lengths", "add up"},
    [FOX_REFUSED_SHORT_KEY] = {"key", "shorter than 16 bytes", "seal with", "16 to 32 bytes", "32 to 64 hex", "still opened"},
};
static const uint32_t others[] = {COUNT(named), COUNT(named) + 1, 255, 256, 65536, 0x7FFFFFFF, 0x80000000, UINT32_MAX};

static void hold(int right, uint32_t number, const char *what, const char *word)
{
    if (case_wrong(right))
        printf("text %u %s%s\n", (unsigned)number, what, word);
}

/* One sentence: it begins with a capital letter and has its only full stop, and no line's end, at its end. */
static int is_sentence(const char *text)
{
    size_t length = strlen(text);
    return length > 20 && text[0] >= 'A' && text[0] <= 'Z' && strchr(text, '.') == text + length - 1 &&
           strchr(text, '\n') == NULL;
}

static void hold_named(uint32_t number)
{
    const char *text = fox_refusal_text(number);
    hold(is_sentence(text), number, "is no sentence", "");
    hold(fox_refusal_text(number) == text, number, "stands elsewhere at a second call", "");
    for (size_t i = 0; i < COUNT(named[0]) && named[number][i] != NULL; i++)
        hold(strstr(text, named[number][i]) != NULL, number, "does not name: ", named[number][i]);
    for (uint32_t other = 0; other < number; other++)
        hold(strcmp(text, fox_refusal_text(other)) != 0, number, "is that of a lower number", "");
}

static void hold_other(uint32_t number)
{
    const char *text = fox_refusal_text(number);
    hold(text != NULL && is_sentence(text), number, "is no sentence", "");
    for (uint32_t i = 0; text != NULL && i < COUNT(named); i++)
        hold(named[i][0] == NULL || strcmp(text, fox_refusal_text(i)) != 0, number, "is that of a number that means something", "");
}

int main(int count, char **words)
{
    if (count == 2) {
        printf("%s\n", fox_refusal_text((uint32_t)strtoul(words[1], NULL, 10)));
        return 0;
    }
    tally_begin("texts");
    group_begin("texts of the answers");
    for (uint32_t number = 0; number < COUNT(named); number++)
        if (named[number][0] != NULL)
            hold_named(number);
    group_end();
    group_begin("texts of other numbers");
    for (uint32_t number = 0; number < COUNT(named); number++)
        if (named[number][0] == NULL)
            hold_other(number);
    for (size_t i = 0; i < COUNT(others); i++)
        hold_other(others[i]);
    group_end();
    return tally_end();
}
