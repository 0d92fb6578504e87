/* Turns one knob on the wall: sets one value of a room, without a line.
 *
 *   knob TABLE VALUES MODULE ROW VALUE
 *
 * The files are as room.py writes them; VALUES is written anew. MODULE and ROW
 * count from 0, rows as egrivundo.h lists them; a level is in tenths of a dB.
 * Where the module's label begins with # and its value changed, the answer to
 * a get line goes to standard output, for those who listen on the serial line. */

#include <stdio.h>
#include <stdlib.h>

#include "egrivundo.h"

/* One more than there can be, so that a file which is too long is refused. */
static uint8_t table[EGRIVUNDO_TABLE_BYTES + 1];
static int64_t values[EGRIVUNDO_VALUES + 1];

/* Reads a file into a buffer, and tells how many elements there were. */
static size_t load(const char *path, void *buffer, size_t size, size_t most)
{
    FILE *file = fopen(path, "rb");
    size_t count;
    if (!file) {
        perror(path);
        exit(1);
    }
    count = fread(buffer, size, most, file);
    fclose(file);
    return count;
}

static long long number(const char *text)
{
    char *end;
    long long number = strtoll(text, &end, 10);
    if (end == text || *end != '\0') {
        fprintf(stderr, "no whole number: %s\n", text);
        exit(2);
    }
    return number;
}

int main(int count, char **words)
{
    uint8_t reply[EGRIVUNDO_REPLY_BYTES];
    uint64_t told[EGRIVUNDO_PANEL_TOLD];
    size_t table_count, values_count;
    uint8_t answer;
    FILE *file;

    if (count != 6) {
        fprintf(stderr, "usage: knob TABLE VALUES MODULE ROW VALUE\n");
        return 2;
    }
    table_count = load(words[1], table, 1, sizeof table);
    values_count = load(words[2], values, sizeof values[0], EGRIVUNDO_VALUES + 1);
    /* A number below 0 becomes one so high that no module or row has it. */
    answer = egrivundo_panel(table, table_count, values, values_count,
                             (uint64_t)number(words[3]), (uint64_t)number(words[4]),
                             number(words[5]), reply, sizeof reply, told);
    if (answer != EGRIVUNDO_OK) {
        fprintf(stderr, "refused with %d\n", answer);
        return 1;
    }
    fwrite(reply, 1, told[0], stdout);
    file = fopen(words[2], "wb");
    if (!file || fwrite(values, sizeof values[0], values_count, file) != values_count ||
        fclose(file) != 0) {
        perror(words[2]);
        return 1;
    }
    return 0;
}
