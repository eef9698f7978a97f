/* The sheet in hand: put together piece by piece, handed to the bench program, and held to what the second
 * implementation says of it. */
#ifndef SHEETS_WRITTEN_H
#define SHEETS_WRITTEN_H

#include "program.h"

#include <stddef.h>
#include <stdint.h>

/* `command` starts the bench program; it ends in NULL. */
void bench_is(char *const *command);

void put_bytes(const void *bytes, size_t len);
void put(const char *part);
void put_number(uint32_t number);
void put_pairs(size_t pairs);
void put_many(uint8_t byte, size_t count);
void put_noise(size_t len);

size_t put_so_far(void);
void cut_to(size_t len);
void leave_out(size_t place);
void put_in(size_t place, uint8_t byte);
void put_over(size_t place, uint8_t byte);

/* Hands the sheet over, compares every byte that is printed, and begins the next sheet. */
void try_sheet(void);
void try_fed(struct feeding how);

#endif
