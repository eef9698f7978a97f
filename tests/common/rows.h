/* The rows of a file of vectors, whose fields stand between commas. */
#ifndef COMMON_ROWS_H
#define COMMON_ROWS_H

#include "engines.h"

/* Tries one row by the engine; `field` is NULL for one that has more fields than it should, or fewer. */
typedef void row_function(const struct engine *engine, char **field);

/* Hands every row below the first line to `row`. One case besides: there are `rows` of them, since a file that was cut
 * short would pass with those that are left. */
void each_row(const char *path, int rows, size_t fields, const struct engine *engine, row_function *row);

#endif
