/* Rooms between pages that may not be touched. The untouchable stretches are as long as the largest page that a kernel
 * uses. */
#define _GNU_SOURCE
#include "rooms.h"

#include <stdlib.h>
#include <string.h>
#include <sys/mman.h>

enum { GUARD = 65536, EDGE = 64, ROOM = MOST_ROOM + GUARD, PAINT = 0xA5 };

static void make(struct room *room)
{
    uint8_t *all = mmap(NULL, ROOM + 3 * GUARD, PROT_NONE, MAP_PRIVATE | MAP_ANONYMOUS | MAP_NORESERVE, -1, 0);
    if (all == MAP_FAILED)
        abort();
    room->first = all + GUARD + (GUARD - (uintptr_t)all % GUARD) % GUARD;
    if (mprotect(room->first, ROOM, PROT_READ | PROT_WRITE) != 0)
        abort();
}

static uint8_t *place_of(const struct room *room, size_t len, int at_end)
{
    return at_end ? room->first + ROOM - len : room->first;
}

static uint8_t *edge_of(const struct room *room, size_t len, int at_end)
{
    return at_end ? room->first + ROOM - len - EDGE : room->first + len;
}

uint8_t *room_lay(struct room *room, const void *from, size_t len, int at_end)
{
    if (len > MOST_ROOM)
        abort();
    if (room->first == NULL)
        make(room);
    memset(edge_of(room, len, at_end), PAINT, EDGE);
    return len == 0 ? place_of(room, len, at_end) : memcpy(place_of(room, len, at_end), from, len);
}

int room_holds(const struct room *room, const void *bytes, size_t len, int at_end)
{
    const uint8_t *edge = edge_of(room, len, at_end);
    if (edge[0] != PAINT || memcmp(edge, edge + 1, EDGE - 1) != 0)
        return 0;
    return len == 0 || memcmp(place_of(room, len, at_end), bytes, len) == 0;
}

int room_has(const struct room *room, const uint8_t *address)
{
    return room->first != NULL && address >= room->first - GUARD && address < room->first + ROOM + GUARD;
}

const char *room_beside(const struct room *rooms, size_t count, const uint8_t *address)
{
    for (size_t i = 0; i < count; i++)
        if (room_has(&rooms[i], address))
            return rooms[i].name;
    return "nothing that it was lent";
}

const uint8_t *no_room(size_t len)
{
    void *all = mmap(NULL, len, PROT_NONE, MAP_PRIVATE | MAP_ANONYMOUS | MAP_NORESERVE, -1, 0);
    return all == MAP_FAILED ? NULL : all;
}
