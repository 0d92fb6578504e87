/* Serves lines from standard input over a room, and writes the replies.
 *
 *   serve TABLE VALUES
 *
 * Both files are as room.py writes them. Where there is no file VALUES, the
 * room begins with the start values; it is written anew at the end.
 * A line that is answered with 99 is reported on standard error. */

#define _POSIX_C_SOURCE 200809L

#include <stdio.h>
#include <stdlib.h>
#include <unistd.h>

#include "egrivundo.h"

/* One more than there can be, so that a file which is too long is refused. */
static uint8_t table[EGRIVUNDO_TABLE_BYTES + 1];
static int64_t values[EGRIVUNDO_VALUES + 1];

/* Reads a file into a buffer, and tells how many elements there were. */
static size_t load(const char *path, void *buffer, size_t size, size_t most)
{
    FILE *file = fopen(path, "rb");
    size_t count;
    if (!file) {
        perror(path);
        exit(1);
    }
    count = fread(buffer, size, most, file);
    fclose(file);
    return count;
}

/* Puts the start values, and tells how many they are. */
static size_t start(size_t table_count)
{
    uint64_t told[1];
    egrivundo_value_count(table, table_count, told);
    egrivundo_starts(table, table_count, values, told[0]);
    return told[0];
}

static void report(uint64_t cause, uint64_t place)
{
    static const char *const causes[] = {"", "over 64 bytes", "no SA or GA", "no opening quote",
                                         "no closing quote", "no ="};
    fprintf(stderr, "99: %s, at byte %u\n", causes[cause], (unsigned)place);
}

/* Says why a call was refused. */
static void refused(uint8_t answer)
{
    uint8_t text[EGRIVUNDO_REFUSAL_BYTES];
    egrivundo_refusal(answer, text);
    fprintf(stderr, "refused with %d: %s\n", answer, (const char *)text);
}

int main(int count, char **words)
{
    uint8_t port[EGRIVUNDO_PORT_BYTES] = {0};
    uint8_t reply[EGRIVUNDO_REPLY_BYTES];
    uint8_t given[256];
    uint64_t told[EGRIVUNDO_PORT_TOLD];
    size_t table_count, values_count, done;
    ssize_t got;
    FILE *file;

    if (count != 3) {
        fprintf(stderr, "usage: serve TABLE VALUES\n");
        return 2;
    }
    table_count = load(words[1], table, 1, sizeof table);
    values_count = access(words[2], F_OK) == 0
                       ? load(words[2], values, sizeof values[0], EGRIVUNDO_VALUES + 1)
                       : start(table_count);
    while ((got = read(STDIN_FILENO, given, sizeof given)) > 0) {
        /* A call takes one line at most: go on until all is consumed. */
        for (done = 0; done < (size_t)got; done += told[0]) {
            uint8_t answer = egrivundo_port(table, table_count, values, values_count, port,
                                            given + done, (size_t)got - done, reply,
                                            sizeof reply, told);
            if (answer != EGRIVUNDO_OK) {
                refused(answer);
                return 1;
            }
            if (told[2] != EGRIVUNDO_FAULT_NONE) {
                report(told[2], told[3]);
            }
            fwrite(reply, 1, told[1], stdout);
        }
        fflush(stdout);
    }
    file = fopen(words[2], "wb");
    if (!file || fwrite(values, sizeof values[0], values_count, file) != values_count ||
        fclose(file) != 0) {
        perror(words[2]);
        return 1;
    }
    return 0;
}
