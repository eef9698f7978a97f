/* The comparison of two tags has no early exit: a stored tag lies across the edge of a page that may not be touched,
 * and is seen to be read there, wherever it differs already. */
#define _GNU_SOURCE
#include "faults.h"
#include "fox.h"
#include "lent.h"
#include "tag.h"
#include "tally.h"

#include <stdio.h>
#include <stdlib.h>
#include <string.h>
#include <sys/mman.h>

/* As long as the largest page that a kernel uses. */
enum { PAGE = 65536 };

/* Bytes that may be read, between two stretches that may not be touched. */
static uint8_t *middle(void)
{
    static uint8_t *found;
    if (found != NULL)
        return found;
    uint8_t *all = mmap(NULL, 4 * PAGE, PROT_NONE, MAP_PRIVATE | MAP_ANONYMOUS, -1, 0);
    if (all == MAP_FAILED)
        abort();
    found = all + PAGE + (PAGE - (uintptr_t)all % PAGE) % PAGE;
    if (mprotect(found, PAGE, PROT_READ | PROT_WRITE) != 0)
        abort();
    return found;
}

/* The tag with the byte `differs` changed, its bytes from `edge` on beyond the middle's end, or those before `edge`
 * before its beginning. */
static void across(const struct engine *engine, struct call c, size_t edge, size_t differs, int at_end)
{
    uint8_t tag[FOX128_BLOCK], *first = at_end ? middle() + PAGE - edge : middle() - edge;
    memcpy(tag, c.first, c.first_len);
    tag[differs] ^= 0x10;
    if (at_end)
        memcpy(first, tag, edge);
    else
        memcpy(middle(), tag + edge, c.first_len - edge);
    c.first = first;
    uint32_t answer = make_caught(engine, TEST_TAG, &c);
    const uint8_t *place = fault_place(), *from = at_end ? first + edge : first;
    const uint8_t *to = at_end ? first + c.first_len : first + edge;
    if (case_wrong(answer == FAULTED && place >= from && place < to))
        printf("%s, cipher %u: a test answers %u without reading bytes %zu to %zu of a tag that differs in byte %zu\n",
               engine->name, (unsigned)c.cipher, (unsigned)answer, (size_t)(from - first), (size_t)(to - first) - 1,
               differs);
}

void comparison(const struct engine *engine)
{
    group_begin("a stored tag is read to its end, wherever it differs: %s", engine->name);
    for (uint32_t cipher = FOX64; cipher <= FOX128; cipher += FOX64) {
        struct call c = served_call(engine, cipher);
        for (size_t edge = 1; edge < c.first_len; edge++)
            for (size_t differs = 0; differs < c.first_len; differs++) {
                across(engine, c, edge, differs, 0);
                across(engine, c, edge, differs, 1);
            }
    }
    group_end();
}
