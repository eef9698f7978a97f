/* A file of vectors, read line by line. */
#define _GNU_SOURCE
#include "rows.h"
#include "tally.h"

#include <stdio.h>
#include <stdlib.h>
#include <string.h>

enum { MOST_FIELDS = 8 };

static void hand_over(char *line, size_t fields, const struct engine *engine, row_function *row)
{
    char *field[MOST_FIELDS];
    if (fields > MOST_FIELDS)
        abort();
    line[strcspn(line, "\r\n")] = 0;
    for (size_t i = 0; i < fields; i++)
        field[i] = strsep(&line, ",");
    row(engine, field[fields - 1] == NULL || line != NULL ? NULL : field);
}

/* Says how many rows there were. */
static int rows_of(FILE *file, size_t fields, const struct engine *engine, row_function *row)
{
    static char line[2048];
    int count = 0;
    if (fgets(line, sizeof line, file) != NULL)
        for (; fgets(line, sizeof line, file) != NULL; count++)
            hand_over(line, fields, engine, row);
    return count;
}

void each_row(const char *path, int rows, size_t fields, const struct engine *engine, row_function *row)
{
    FILE *file = fopen(path, "r");
    int count = 0;
    if (file == NULL) {
        perror(path);
    } else {
        count = rows_of(file, fields, engine, row);
        fclose(file);
    }
    if (case_wrong(count == rows))
        printf("%d rows were read, and not %d\n", count, rows);
}
