/* Rooms between pages that may not be touched, for what a call is lent. */
#ifndef COMMON_ROOMS_H
#define COMMON_ROOMS_H

#include <stddef.h>
#include <stdint.h>

/* The most bytes that a room takes. */
enum { MOST_ROOM = 1 << 21 };

/* `name` says what it is for; `first` is its first byte once something was laid in it, and NULL before. */
struct room {
    const char *name;
    uint8_t *first;
};

/* Lays a copy of the bytes at the room's end or at its beginning, and paints what is on their other side. Answers with
 * the place of the copy. */
uint8_t *room_lay(struct room *room, const void *from, size_t len, int at_end);

/* Whether so laid they are still these bytes, and the paint is as it was. */
int room_holds(const struct room *room, const void *bytes, size_t len, int at_end);

/* Whether an address is in the room, or in the pages beside it. */
int room_has(const struct room *room, const uint8_t *address);

/* The name of the one of these rooms that has the address; "nothing that it was lent" where none has. */
const char *room_beside(const struct room *rooms, size_t count, const uint8_t *address);

/* Addresses for so many bytes, with no memory behind them; NULL where the machine gives none. */
const uint8_t *no_room(size_t len);

#endif
