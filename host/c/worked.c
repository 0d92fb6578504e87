/* The worked lines on table A, some to a mixer, panel changes, and turns, from C. Says "ok" or what is wrong. */

#include <stdio.h>
#include <string.h>

#include "egrivundo.h"

static uint8_t table[2 * EGRIVUNDO_RECORD_BYTES];
static int wrong = 0;

static void expect(int right, const char *what)
{
    if (!right) {
        printf("wrong: %s\n", what);
        wrong = 1;
    }
}

/* Gives one line with its end to a fresh port, and compares its reply and what is told. */
static void line(const char *text, const char *reply, size_t place, int64_t value, uint64_t cause,
                 uint64_t at)
{
    int64_t values[7] = {0};
    int64_t expected[7] = {0};
    uint8_t port[EGRIVUNDO_PORT_BYTES] = {0};
    uint8_t buffer[EGRIVUNDO_REPLY_BYTES] = {0};
    uint64_t told[EGRIVUNDO_PORT_TOLD] = {0};
    uint8_t answer = egrivundo_port(table, sizeof table, values, 7, port, (const uint8_t *)text,
                                    strlen(text), buffer, sizeof buffer, told);
    expected[place] = value;
    expect(answer == EGRIVUNDO_OK, text);
    expect(told[0] == strlen(text) && told[1] == strlen(reply), text);
    expect(told[2] == cause && told[3] == at, text);
    expect(memcmp(buffer, reply, strlen(reply)) == 0, text);
    expect(memcmp(values, expected, sizeof values) == 0, text);
    expect(port[0] == 0 && port[1] == 0, text);
}

/* Asks for the size of the list that takes table A to these values, and for the list in buffers of each length; both
 * calls answer so, and the counts are zero with a refusal. */
static void restore(const uint8_t *selection, size_t selection_count, const int64_t *wanted,
                    uint8_t right, const char *list, uint64_t lines)
{
    const int64_t present[7] = {0};
    uint64_t told[EGRIVUNDO_RESTORE_TOLD] = {9, 9};
    size_t length = strlen(list), room;
    uint8_t answer = egrivundo_restore_size(table, sizeof table, present, 7, selection,
                                            selection_count, wanted, 7, told);
    expect(answer == right && told[0] == length && told[1] == lines, "the size of a list");
    for (room = 0; room <= 64; room++) {
        uint8_t buffer[64] = {0};
        uint8_t number = right == EGRIVUNDO_OK && room < length ? EGRIVUNDO_REFUSED_LIST : right;
        size_t bytes = number == EGRIVUNDO_OK ? length : 0;
        told[0] = told[1] = 9;
        answer = egrivundo_restore_write(table, sizeof table, present, 7, selection,
                                         selection_count, wanted, 7, buffer, room, told);
        expect(answer == number, "what a buffer is answered");
        expect(told[0] == bytes && told[1] == (bytes ? lines : 0), "what is told of a list");
        expect(memcmp(buffer, list, bytes) == 0, "the list");
        expect(bytes == 64 || buffer[bytes] == 0, "nothing is written behind the list");
    }
}

/* The worked wish, a part of it, none, and some that are refused. */
static void restores(void)
{
    static const char list[] = "SA\"T\">1=-4\rSA\"T\">2=O\rSA\"T\">3=0.5\rSA\"S\">1=O\r";
    const int64_t wanted[7] = {-40, 1, 5, 0, 0, 0, 1};
    const int64_t too_loud[7] = {151, 1, 5, 0, 0, 0, 1};
    const uint8_t both[3] = {1, 1, 1}, second[2] = {0, 1}, none[2] = {0, 0}, wrong[2] = {1, 2};
    restore(both, 2, wanted, EGRIVUNDO_OK, list, 4);
    restore(second, 2, wanted, EGRIVUNDO_OK, list + 33, 1);
    restore(none, 2, wanted, EGRIVUNDO_OK, "", 0);
    restore(second, 2, too_loud, EGRIVUNDO_OK, list + 33, 1);
    restore(both, 2, too_loud, EGRIVUNDO_REFUSED_WANTED, "", 0);
    restore(wrong, 2, too_loud, EGRIVUNDO_REFUSED_SELECTION, "", 0);
    restore(both, 3, wanted, EGRIVUNDO_REFUSED_SELECTION, "", 0);
    table[EGRIVUNDO_RECORD_BYTES + 1] = 'T';
    restore(both, 2, wanted, EGRIVUNDO_REFUSED_REACH, "", 0);
    table[EGRIVUNDO_RECORD_BYTES + 1] = 'S';
}

/* An overrun byte of 7 says overrun; it is stored as 1 once bytes are given. */
static void overrun(void)
{
    int64_t values[7] = {0};
    uint8_t port[EGRIVUNDO_PORT_BYTES] = {0};
    uint8_t buffer[EGRIVUNDO_REPLY_BYTES] = {0};
    uint64_t told[EGRIVUNDO_PORT_TOLD] = {9, 9, 9, 9};
    const uint8_t given[2] = {'x', '\r'};
    uint8_t answer;
    port[1] = 7;
    answer = egrivundo_port(table, sizeof table, values, 7, port, given, 0, buffer, 64, told);
    expect(answer == EGRIVUNDO_OK && told[0] == 0 && told[1] == 0, "no bytes given");
    expect(told[2] == EGRIVUNDO_FAULT_NONE && told[3] == 0, "no bytes given tell no cause");
    expect(port[1] == 7, "no bytes given change nothing");
    told[0] = told[2] = told[3] = 9;
    answer = egrivundo_port(table, sizeof table, values, 7, port, given, 1, buffer, 63, told);
    expect(answer == EGRIVUNDO_REFUSED_REPLY && told[0] == 0 && port[1] == 7, "a refusal");
    expect(told[2] == 0 && told[3] == 0, "a refusal tells no cause");
    answer = egrivundo_port(table, sizeof table, values, 7, port, given, 1, buffer, 64, told);
    expect(answer == EGRIVUNDO_OK && told[0] == 1 && port[1] == 1, "an overrun line goes on");
    expect(told[2] == 0 && told[3] == 0, "an overrun line that goes on tells no cause");
    answer = egrivundo_port(table, sizeof table, values, 7, port, given, 2, buffer, 64, told);
    expect(answer == EGRIVUNDO_OK && told[0] == 2 && told[1] == 4, "an overrun line ends");
    expect(told[2] == EGRIVUNDO_FAULT_OVERRUN && told[3] == 64, "why it was 99");
    expect(memcmp(buffer, "\x15" "99\r", 4) == 0 && port[0] == 0 && port[1] == 0, "one 99");
}

static void show(void)
{
    static const char text[] = "GA\"S\">1";
    uint64_t told[EGRIVUNDO_LOG_TOLD] = {9, 9, 9};
    egrivundo_log(table, sizeof table, (const uint8_t *)text, strlen(text), told);
    expect(told[0] == 1 && told[1] == 34 && told[2] == 1, "the log");
    egrivundo_log(table, sizeof table - 1, (const uint8_t *)text, strlen(text), told);
    expect(told[0] == 0 && told[1] == 0 && told[2] == 0, "the log over a cut table");
}

/* A mixer of one input and two outputs, and the bits of these. */
#define INPUTS_AT (1 + EGRIVUNDO_LABEL_BYTES)
#define OUTPUTS_AT (INPUTS_AT + 1)
static const uint8_t mixer[EGRIVUNDO_MIXER_RECORD_BYTES] = {
    [0] = EGRIVUNDO_STANDARD_MIXER, [1] = 'M', [INPUTS_AT] = 1, [OUTPUTS_AT] = 2};
static const int64_t one = INT64_C(0x80000000);
static const int64_t two = INT64_C(0x40000000);

/* Gives one line to the mixer, and compares its reply and its word. */
static void routed(const char *text, const char *reply, int64_t before, int64_t after)
{
    int64_t values[7] = {[6] = before};
    uint8_t port[EGRIVUNDO_PORT_BYTES] = {0};
    uint8_t buffer[EGRIVUNDO_REPLY_BYTES] = {0};
    uint64_t told[EGRIVUNDO_PORT_TOLD] = {0};
    uint8_t answer = egrivundo_port(mixer, sizeof mixer, values, 7, port, (const uint8_t *)text,
                                    strlen(text), buffer, sizeof buffer, told);
    expect(answer == EGRIVUNDO_OK && told[1] == strlen(reply), text);
    expect(memcmp(buffer, reply, strlen(reply)) == 0, text);
    expect(values[6] == after, text);
}

/* The list that takes the mixer's word from nothing to these outputs. */
static void rerouted(int64_t word, const char *list)
{
    const int64_t present[7] = {0};
    const int64_t wanted[7] = {[6] = word};
    const uint8_t selection[1] = {1};
    uint8_t buffer[64] = {0};
    uint64_t told[EGRIVUNDO_RESTORE_TOLD] = {9, 9};
    uint8_t answer = egrivundo_restore_size(mixer, sizeof mixer, present, 7, selection, 1, wanted,
                                            7, told);
    expect(answer == EGRIVUNDO_OK && told[0] == strlen(list) && told[1] == 1, list);
    answer = egrivundo_restore_write(mixer, sizeof mixer, present, 7, selection, 1, wanted, 7,
                                     buffer, told[0], told);
    expect(answer == EGRIVUNDO_OK && told[0] == strlen(list) && told[1] == 1, list);
    expect(memcmp(buffer, list, strlen(list)) == 0, list);
}

/* A size is 1 to 32. */
static void sizes(void)
{
    int size;
    for (size = 0; size < 256; size++) {
        uint8_t right = size >= 1 && size <= 32 ? EGRIVUNDO_OK : EGRIVUNDO_REFUSED_TABLE;
        uint8_t other[sizeof mixer];
        memcpy(other, mixer, sizeof mixer);
        other[INPUTS_AT] = (uint8_t)size;
        expect(egrivundo_table(other, sizeof other) == right, "a number of inputs");
        memcpy(other, mixer, sizeof mixer);
        other[OUTPUTS_AT] = (uint8_t)size;
        expect(egrivundo_table(other, sizeof other) == right, "a number of outputs");
    }
}

/* Turns a knob of a room where a SmartBass S stands before the mixer, whose label is #M; all values are 0. S has one
 * value, so that the value of a row stands at the sum of both numbers. */
static void turned(uint64_t owner, uint64_t row, int64_t value, uint8_t right, const char *notice)
{
    uint8_t room[EGRIVUNDO_RECORD_BYTES + sizeof mixer] = {EGRIVUNDO_SMARTBASS, 'S'};
    int64_t values[8] = {0};
    int64_t expected[8] = {0};
    uint8_t buffer[EGRIVUNDO_REPLY_BYTES] = {0};
    uint64_t told[EGRIVUNDO_PANEL_TOLD] = {9};
    uint8_t answer;
    memcpy(room + EGRIVUNDO_RECORD_BYTES, mixer, sizeof mixer);
    memcpy(room + EGRIVUNDO_RECORD_BYTES + 1, "#M", 2);
    answer = egrivundo_panel(room, sizeof room, values, 8, owner, row, value, buffer, 63, told);
    expect(answer == EGRIVUNDO_REFUSED_REPLY && told[0] == 0, "a panel's buffer of 63");
    told[0] = 9;
    answer = egrivundo_panel(room, sizeof room, values, 8, owner, row, value, buffer, 64, told);
    if (right == EGRIVUNDO_OK) {
        expected[owner + row] = value;
    }
    expect(answer == right && told[0] == strlen(notice), "what a panel is answered");
    expect(memcmp(values, expected, sizeof values) == 0, "what a panel sets");
    expect(memcmp(buffer, notice, strlen(notice)) == 0 && buffer[strlen(notice)] == 0,
           "what is told of a panel change");
}

/* Panels 2 and 5 are open, 7 is closed, and all three have sent a line: each turn serves the next that waits. */
static void turns(void)
{
    static const char waiting[] = "GA\"S\">1\r" "GA\"T\">1\r" "SA\"S\">1=O\r";
    const uint64_t counts[EGRIVUNDO_CONNECTIONS] = {[2] = 8, [5] = 8, [7] = 10};
    const uint64_t closed[EGRIVUNDO_CONNECTIONS] = {[7] = 10};
    const uint8_t *given = (const uint8_t *)waiting;
    size_t given_count = strlen(waiting);
    int64_t values[7] = {0};
    uint8_t row[EGRIVUNDO_CONNECTIONS_BYTES] = {0};
    uint8_t before[sizeof row], buffer[EGRIVUNDO_REPLY_BYTES] = {0};
    uint64_t told[EGRIVUNDO_TURN_TOLD] = {9, 9, 9, 9, 9, 9};
    uint64_t last = EGRIVUNDO_CONNECTIONS - 1;
    uint8_t answer;
    expect(egrivundo_open(row, sizeof row, 2) == EGRIVUNDO_OK, "a connection is opened");
    expect(egrivundo_open(row, sizeof row, 5) == EGRIVUNDO_OK, "another is opened");
    expect(egrivundo_open(row, sizeof row, 5) == EGRIVUNDO_REFUSED_CONNECTIONS, "an open one");
    expect(egrivundo_close(row, sizeof row, 7) == EGRIVUNDO_REFUSED_CONNECTIONS, "a closed one");
    memcpy(before, row, sizeof row);
    answer = egrivundo_turn(table, sizeof table, values, 7, row, sizeof row, last, given,
                            given_count, counts, EGRIVUNDO_CONNECTIONS, buffer, 64, told);
    expect(answer == EGRIVUNDO_OK && told[0] == 1 && told[1] == 2, "the first turn");
    expect(told[2] == 8 && told[3] == 10 && told[4] == 0 && told[5] == 0, "what it tells");
    expect(memcmp(buffer, "GA\"S\">1=F\r", 10) == 0, "its reply");
    last = told[1];
    answer = egrivundo_turn(table, sizeof table, values, 7, row, sizeof row, last, given,
                            given_count, counts, EGRIVUNDO_CONNECTIONS, buffer, 64, told);
    expect(answer == EGRIVUNDO_OK && told[0] == 1 && told[1] == 5, "the second turn");
    expect(memcmp(buffer, "GA\"T\">1=0\r", 10) == 0, "its reply");
    last = told[1];
    answer = egrivundo_turn(table, sizeof table, values, 7, row, sizeof row, last, given + 16, 10,
                            closed, EGRIVUNDO_CONNECTIONS, buffer, 64, told);
    expect(answer == EGRIVUNDO_OK && told[0] == 0 && told[1] == 0, "nobody waits");
    expect(told[2] == 0 && told[3] == 0 && values[6] == 0, "a closed one is passed over");
    answer = egrivundo_turn(table, sizeof table, values, 7, row, sizeof row, last, given, 16,
                            closed, EGRIVUNDO_CONNECTIONS, buffer, 64, told);
    expect(answer == EGRIVUNDO_REFUSED_CONNECTIONS, "counts that do not add up");
    expect(memcmp(row, before, sizeof row) == 0, "both ports are fresh again");
}

int main(void)
{
    table[0] = EGRIVUNDO_TONE_CONTROL_EQ;
    table[1] = 'T';
    table[EGRIVUNDO_RECORD_BYTES] = EGRIVUNDO_SMARTBASS;
    table[EGRIVUNDO_RECORD_BYTES + 1] = 'S';
    expect(egrivundo_table(table, sizeof table) == EGRIVUNDO_OK, "table A");
    expect(egrivundo_table(table, sizeof table - 1) == EGRIVUNDO_REFUSED_TABLE, "a cut table");
    line("SA\"T\">1=15\r", "\x06\r", 0, 150, 0, 0);
    line("SA\"T\">1=15.1\r", "\x15" "03\r", 0, 0, 0, 0);
    line("SA \"T\">01=-04\r", "\x06\r", 0, -40, 0, 0);
    line("SA\"T\">1=-0\r", "\x06\r", 0, 0, 0, 0);
    line("SA\"T\">1=.5\r", "\x15" "03\r", 0, 0, 0, 0);
    line("SA\"T\">2=T\r", "\x06\r", 1, 1, 0, 0);
    line("GA\"S\">1\r", "GA\"S\">1=F\r", 0, 0, 0, 0);
    line("GA\"T\">1\r", "GA\"T\">1=0\r", 0, 0, 0, 0);
    line("SA\"Q\">9=x\r", "\x15" "01\r", 0, 0, 0, 0);
    line("SA\"T\">9=x\r", "\x15" "02\r", 0, 0, 0, 0);
    line("SA\"T\">1>0=1\r", "\x15" "02\r", 0, 0, 0, 0);
    line("SA\"T\">1\r", "\x15" "99\r", 0, 0, EGRIVUNDO_FAULT_NO_EQUALS, 7);
    line("SA\"T\r", "\x15" "99\r", 0, 0, EGRIVUNDO_FAULT_NO_CLOSING_QUOTE, 4);
    line("SA \r", "\x15" "99\r", 0, 0, EGRIVUNDO_FAULT_NO_OPENING_QUOTE, 3);
    line("SA\r", "\x15" "99\r", 0, 0, EGRIVUNDO_FAULT_NO_OPENING_QUOTE, 2);
    line("S\r", "\x15" "99\r", 0, 0, EGRIVUNDO_FAULT_NO_VERB, 0);
    routed("SA\"M\">3>1=C0000000\r", "\x06\r", 0, one + two);
    routed("SA\"M\">3>1=20000000\r", "\x15" "03\r", one, one);
    routed("SA\"M\">4>(1,2)=O\r", "\x06\r", one, one + two);
    routed("SA\"M\">4>(1,1)=T\r", "\x06\r", one + two, two);
    routed("SA\"M\">4>(1,3)=O\r", "\x15" "02\r", 0, 0);
    routed("GA\"M\">3>1\r", "GA\"M\">3>1=40000000\r", two, two);
    routed("GA\"M\">04>(01,02)\r", "GA\"M\">4>(1,2)=O\r", two, two);
    rerouted(two, "SA\"M\">4>(1,2)=O\r");
    rerouted(one + two, "SA\"M\">3>1=C0000000\r");
    turned(0, 0, 1, EGRIVUNDO_OK, "");
    turned(1, 0, -605, EGRIVUNDO_OK, "GA\"#M\">1>1=-60.5\r");
    turned(1, 1, 1, EGRIVUNDO_OK, "GA\"#M\">1>2=O\r");
    turned(1, 6, two, EGRIVUNDO_OK, "GA\"#M\">3>1=40000000\r");
    turned(1, 6, 0, EGRIVUNDO_OK, "");
    turned(1, 6, 1, EGRIVUNDO_REFUSED_ROW, "");
    turned(1, 0, -603, EGRIVUNDO_REFUSED_ROW, "");
    turned(0, 1, 1, EGRIVUNDO_REFUSED_ROW, "");
    turned(1, 7, 0, EGRIVUNDO_REFUSED_ROW, "");
    turned(2, 0, 0, EGRIVUNDO_REFUSED_ROW, "");
    turned(UINT64_MAX, UINT64_MAX, 0, EGRIVUNDO_REFUSED_ROW, "");
    sizes();
    restores();
    turns();
    overrun();
    show();
    if (!wrong) {
        printf("ok\n");
    }
    return wrong;
}
