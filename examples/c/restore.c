/* Writes the list that brings one module from its present values to others.
 *
 *   restore TABLE PRESENT WANTED MODULE
 *
 * The files are as room.py writes them; MODULE counts from 1. How long the list
 * is goes to standard error before there is a buffer for it, and the list to
 * standard output. */

#include <stdio.h>
#include <stdlib.h>

#include "egrivundo.h"

/* One more than there can be, so that a file which is too long is refused. */
static uint8_t table[EGRIVUNDO_TABLE_BYTES + 1];
static int64_t present[EGRIVUNDO_VALUES + 1];
static int64_t wanted[EGRIVUNDO_VALUES + 1];

/* Reads a file into a buffer, and tells how many elements there were. */
static size_t load(const char *path, void *buffer, size_t size, size_t most)
{
    FILE *file = fopen(path, "rb");
    size_t count;
    if (!file) {
        perror(path);
        exit(1);
    }
    count = fread(buffer, size, most, file);
    fclose(file);
    return count;
}

/* How many records a sound table has. */
static size_t modules(size_t table_count)
{
    size_t at = 0, count = 0;
    while (at < table_count) {
        at += table[at] == EGRIVUNDO_STANDARD_MIXER ? EGRIVUNDO_MIXER_RECORD_BYTES
                                                    : EGRIVUNDO_RECORD_BYTES;
        count++;
    }
    return count;
}

/* Says why a call was refused. */
static void refused(uint8_t answer)
{
    uint8_t text[EGRIVUNDO_REFUSAL_BYTES];
    egrivundo_refusal(answer, text);
    fprintf(stderr, "refused with %d: %s\n", answer, (const char *)text);
}

int main(int count, char **words)
{
    uint8_t selection[EGRIVUNDO_MODULES] = {0};
    uint64_t told[EGRIVUNDO_RESTORE_TOLD];
    size_t table_count, present_count, wanted_count, module_count, chosen;
    uint8_t answer, *list;

    if (count != 5) {
        fprintf(stderr, "usage: restore TABLE PRESENT WANTED MODULE\n");
        return 2;
    }
    table_count = load(words[1], table, 1, sizeof table);
    present_count = load(words[2], present, sizeof present[0], EGRIVUNDO_VALUES + 1);
    wanted_count = load(words[3], wanted, sizeof wanted[0], EGRIVUNDO_VALUES + 1);
    chosen = strtoul(words[4], NULL, 10);
    if (egrivundo_table(table, table_count) != EGRIVUNDO_OK) {
        refused(EGRIVUNDO_REFUSED_TABLE);
        return 1;
    }
    module_count = modules(table_count);
    if (chosen < 1 || chosen > module_count) {
        fprintf(stderr, "no such module\n");
        return 1;
    }
    selection[chosen - 1] = 1;

    /* Its size first. */
    answer = egrivundo_restore_size(table, table_count, present, present_count, selection,
                                    module_count, wanted, wanted_count, told);
    if (answer != EGRIVUNDO_OK) {
        refused(answer);
        return 1;
    }
    fprintf(stderr, "%u bytes, lines: %u\n", (unsigned)told[0], (unsigned)told[1]);

    /* Then a buffer of that size, which is never too short, and the list. A pointer that is
     * lent is not null, so an empty list has a byte too. */
    list = malloc(told[0] + 1);
    if (!list) {
        perror("restore");
        return 1;
    }
    answer = egrivundo_restore_write(table, table_count, present, present_count, selection,
                                     module_count, wanted, wanted_count, list, told[0], told);
    if (answer != EGRIVUNDO_OK) {
        refused(answer);
        return 1;
    }
    fwrite(list, 1, told[0], stdout);
    free(list);
    return 0;
}
