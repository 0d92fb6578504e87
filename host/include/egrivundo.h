/* The C interface of the sound box's control core.
 *
 * For x86-64, with the calling convention of Linux (System V). Link with
 * `pkg-config --cflags --libs egrivundo` after `make install`; in the
 * repository itself `make` leaves both libraries in target/c. They need
 * memcpy and nothing else.
 *
 * A lent slice is a pointer and a count, in this order; a count is a number
 * of elements and not of bytes. A block of fixed size is a pointer alone:
 * uint8_t port[66], uint64_t told[4]. Whatever stands in them, and whatever
 * is counted, every call gives one of its answers and returns. No function
 * keeps a pointer, allocates, or has a state of its own.
 *
 * The caller answers for what no function in C can test:
 *   - a pointer leads to as many elements as its count or its block has,
 *     aligned for them, and is not null even where the count is 0;
 *   - a slice or block without const overlaps no other of its call;
 *   - nothing else writes to what is lent before the call returns.
 */
#ifndef EGRIVUNDO_H
#define EGRIVUNDO_H

#if !defined(__x86_64__) || defined(__ILP32__) || defined(_WIN32)
#error "egrivundo is for x86-64 with the calling convention of Linux"
#endif

#include <stddef.h>
#include <stdint.h>

#ifdef __cplusplus
extern "C" {
#endif

/* The version. Another major or minor number may have other calls, or other
 * parameters in the same calls; the shared library's soname has both. */
#define EGRIVUNDO_VERSION "0.7.0"
#define EGRIVUNDO_VERSION_MAJOR 0
#define EGRIVUNDO_VERSION_MINOR 7
#define EGRIVUNDO_VERSION_PATCH 0

/* Limits. */
#define EGRIVUNDO_RECORD_BYTES 33       /* of a record of kinds 1 to 6: kind,
                                         * then label                         */
#define EGRIVUNDO_MIXER_RECORD_BYTES 35 /* of a mixer's record: kind, label,
                                         * inputs, outputs                    */
#define EGRIVUNDO_LABEL_BYTES 32        /* of a label, at most                */
#define EGRIVUNDO_MODULES 64            /* in a table, at most                */
#define EGRIVUNDO_TABLE_BYTES 2240      /* of a table, at most                */
#define EGRIVUNDO_ROWS 160              /* of a module, at most               */
#define EGRIVUNDO_VALUES 10240          /* of a table, at most                */
#define EGRIVUNDO_HELD_BYTES 64         /* of an unfinished line, at most     */
#define EGRIVUNDO_REPLY_BYTES 64        /* that a reply buffer must have      */
#define EGRIVUNDO_LIST_LINE_BYTES 51    /* of a restore list's line with its
                                         * 0x0D, at most                      */
#define EGRIVUNDO_PORT_BYTES 66         /* of a port: held count, overrun,
                                         * bytes                              */
#define EGRIVUNDO_CONNECTIONS 32        /* of a box, always                   */
#define EGRIVUNDO_CONNECTION_BYTES 67   /* of a connection: open, port        */
#define EGRIVUNDO_CONNECTIONS_BYTES 2144 /* of all 32                         */
#define EGRIVUNDO_PORT_TOLD 4           /* numbers told by the port call      */
#define EGRIVUNDO_TURN_TOLD 6           /* numbers told by a turn             */
#define EGRIVUNDO_PANEL_TOLD 1          /* numbers told by the panel call     */
#define EGRIVUNDO_RESTORE_TOLD 2        /* numbers told by each restore call  */
#define EGRIVUNDO_LOG_TOLD 3            /* numbers told by the log call       */
#define EGRIVUNDO_ROW_TOLD 7            /* numbers told of a row              */
#define EGRIVUNDO_REFUSAL_BYTES 64      /* of an answer's words               */

/* Kinds of a record. A mixer has M inputs and N outputs, each 1 to 32. */
#define EGRIVUNDO_TONE_CONTROL_EQ 1      /*  6 values          */
#define EGRIVUNDO_SMARTBASS 2            /*  1 value           */
#define EGRIVUNDO_DYNAMIC_EQ 3           /*  1 value           */
#define EGRIVUNDO_ROOM_COMBINER 4        /*  7 values          */
#define EGRIVUNDO_CONFERENCE_ROUTER 5    /* 33 values          */
#define EGRIVUNDO_FEEDBACK_SUPPRESSION 6 /*  2 values          */
#define EGRIVUNDO_STANDARD_MIXER 7       /*  3 M + 2 N values  */

/* The order of values: module by module as in the table, and in a module row
 * by row as here. Rows count from 0. A value is permitted from low to high in
 * whole steps from low; levels are in tenths of a dB. Lines and panels can set
 * a row unless it is read-only. "use" is what the protocol's manual calls it;
 * no call looks at that.
 *
 * kind row  indices  what      low    high  step  set        use
 *   1   0   1        level    -150     150     1  settable   low gain
 *   1   1   2        switch      0       1     1  settable   low bypass
 *   1   2   3        level    -150     150     1  settable   mid gain
 *   1   3   4        switch      0       1     1  settable   mid bypass
 *   1   4   5        level    -150     150     1  settable   high gain
 *   1   5   6        switch      0       1     1  settable   high bypass
 *   2   0   1        switch      0       1     1  settable   bypass
 *   3   0   1        switch      0       1     1  settable   bypass
 *   4   0   1>1      number      0       9     1  settable   music source
 *   4   1   1>2      level    -605     120     5  settable   music gain
 *   4   2   1>3      switch      0       1     1  settable   music mute
 *   4   3   1>4      level    -605     120     5  settable   input gain
 *   4   4   1>5      switch      0       1     1  settable   input mute
 *   4   5   1>6      level    -605     120     5  settable   output gain
 *   4   6   1>7      switch      0       1     1  settable   output mute
 *   5   0   0>1      number      0       8     1  read-only  far-end inputs
 *   5   1   0>2      number      0      32     1  read-only  mic inputs
 *   5   2   0>3      number      0      16     1  read-only  overhead outputs
 *   5   3   0>4      switch      0       1     1  read-only  in a room group
 *   5   4   0>5      number      0       6     1  read-only  room number
 *   5   5   0>8      level     -60     -30    10  read-only  mono attenuation
 *   5   6   1>1      level    -605     120     5  settable   master level
 *   5   7   1>2      switch      0       1     1  settable   master mute
 *   5   8   1>3      level    -605     120     5  settable   mic mix level
 *   5   9   1>4      switch      0       1     1  settable   mic mix mute
 *   5  10   1>5      level    -605     120     5  settable   other mix level
 *   5  11   1>6      switch      0       1     1  settable   other mix mute
 *   5  12   1>7      level    -605     120     5  settable   pre-AEC mix level
 *   5  13   1>8      switch      0       1     1  settable   pre-AEC mix mute
 *   5  14   1>9      number      1       6     1  settable   room group
 *   5  15   2>1      level    -605     120     5  settable   program level
 *   5  16   2>2      switch      0       1     1  settable   program mute
 *   5  17   2>3      level    -605     120     5  settable   far end 1 level
 *   5  18   2>4      switch      0       1     1  settable   far end 1 mute
 *   5  19   2>5      level    -605     120     5  settable   far end 2 level
 *   5  20   2>6      switch      0       1     1  settable   far end 2 mute
 *   5  21   2>7      level    -605     120     5  settable   far end 3 level
 *   5  22   2>8      switch      0       1     1  settable   far end 3 mute
 *   5  23   2>9      level    -605     120     5  settable   far end 4 level
 *   5  24   2>10     switch      0       1     1  settable   far end 4 mute
 *   5  25   2>11     level    -605     120     5  settable   far end 5 level
 *   5  26   2>12     switch      0       1     1  settable   far end 5 mute
 *   5  27   2>13     level    -605     120     5  settable   far end 6 level
 *   5  28   2>14     switch      0       1     1  settable   far end 6 mute
 *   5  29   2>15     level    -605     120     5  settable   far end 7 level
 *   5  30   2>16     switch      0       1     1  settable   far end 7 mute
 *   5  31   2>17     level    -605     120     5  settable   far end 8 level
 *   5  32   2>18     switch      0       1     1  settable   far end 8 mute
 *   6   0   0>2      switch      0       1     1  settable   detection bypass
 *   6   1   1>1      number      1   43200     1  settable   release seconds
 *
 * A mixer, kind 7, has for input i from 1 to M, for output o from 1 to N:
 *
 *   row         indices  what      low    high  step  set        use
 *   2i-2        1>2i-1   level    -605     120     5  settable   input level
 *   2i-1        1>2i     switch      0       1     1  settable   input mute
 *   2M+2o-2     2>2o-1   level    -605     120     5  settable   output level
 *   2M+2o-1     2>2o     switch      0       1     1  settable   output mute
 *   2M+2N+i-1   3>i      word        0   all N   bit  settable   routing word
 *
 * A routing word has a bit for each output: 0x80000000 for output 1, each next
 * one half of it; "all N" is the sum of the first N, "bit" the last of them.
 * Lines name one bit by 4>(i,o), which is no row and has no value of its own.
 */

/* Answers. With 1 to 10 the told numbers become 0 and nothing else changes;
 * where several apply, the first in its call's order is given. */
#define EGRIVUNDO_OK 0                /* accepted                             */
#define EGRIVUNDO_REFUSED_TABLE 1     /* the table is not sound               */
#define EGRIVUNDO_REFUSED_VALUES 2    /* values: wrong length, or one that is
                                       * not permitted                        */
#define EGRIVUNDO_REFUSED_REPLY 3     /* reply buffer under 64 bytes          */
#define EGRIVUNDO_REFUSED_PORT 4      /* port claims over 64 held bytes       */
#define EGRIVUNDO_REFUSED_SELECTION 5 /* selection: wrong length, or a byte
                                       * over 1                               */
#define EGRIVUNDO_REFUSED_WANTED 6    /* wanted: wrong length, or a chosen
                                       * module's entry is not permitted      */
#define EGRIVUNDO_REFUSED_REACH 7     /* a wanted change is on a read-only row
                                       * or on a label of several modules     */
#define EGRIVUNDO_REFUSED_LIST 8      /* the list does not fit its buffer     */
#define EGRIVUNDO_REFUSED_ROW 9       /* there is no such module or row; of a
                                       * change also: the row is read-only, or
                                       * the value is not permitted           */
#define EGRIVUNDO_REFUSED_CONNECTIONS 10 /* not the bytes of 32 connections;
                                       * not 32 counts, or they do not add up
                                       * to the bytes given; a number or last
                                       * served over 31; one to be opened is
                                       * open, one to be closed is closed     */

/* Why a line was answered with 99; the first that applies is told. The place
 * is the byte of the line where it shows, counted from 0, also where the line
 * came in several calls. */
#define EGRIVUNDO_FAULT_NONE 0
#define EGRIVUNDO_FAULT_OVERRUN 1          /* over 64 bytes; at 64            */
#define EGRIVUNDO_FAULT_NO_VERB 2          /* neither SA nor GA; at 0         */
#define EGRIVUNDO_FAULT_NO_OPENING_QUOTE 3 /* at 2, or 3 behind a space       */
#define EGRIVUNDO_FAULT_NO_CLOSING_QUOTE 4 /* at the line's end               */
#define EGRIVUNDO_FAULT_NO_EQUALS 5        /* of SA; at the line's end        */

/* Whether a table is sound.
 *   table  0 to 64 records, of 33 bytes or, a mixer's, of 35
 * Answers 0 (sound) or 1 (not sound). */
uint8_t egrivundo_table(const uint8_t *table, size_t table_count);

/* Finds the label that a line means, for a log.
 *   table  any bytes; over a table that is not sound the part is empty
 *   line   any bytes, of any length
 *   told   [0] 1 where the part stands in the table, 0 where it stands in
 *          the line, [1] its start there, [2] its length. The empty part at
 *          the line's start is 0, 0, 0 */
void egrivundo_log(const uint8_t *table, size_t table_count,
                   const uint8_t *line, size_t line_count,
                   uint64_t told[EGRIVUNDO_LOG_TOLD]);

/* One call on a port: takes the given bytes through the first 0x0D, or all
 * where there is none, and serves a line that it ends.
 *   table   a sound table
 *   values  one for each parameter: levels in tenths of a dB, switches 0 or
 *           1, numbers as they are, routing words as 0 to 4294967295, with
 *           0x80000000 for output 1 and only bits of outputs that the mixer
 *           has; a line that is acknowledged sets one, or one bit of a word
 *   port    [0] how many bytes are held (0 to 64), [1] overrun (0 no, any
 *           other byte yes), [2..] the held bytes. All zero is the fresh
 *           port. What stands past the held bytes, and the held bytes of an
 *           overrun port, mean nothing. An accepted call that is given
 *           bytes stores 0 or 1 at [1]; one that is given none, and a
 *           refused one, leave all 66 bytes as they were
 *   given   the bytes that have come
 *   reply   at least 64 bytes; the reply is put at its start, the rest stays.
 *           A get line is answered in the form asked, a routing word by index
 *           3 and one of its outputs by index 4, with the value as a restore
 *           list has it: whole decibels have no point
 *   told    [0] bytes consumed, [1] length of the reply (0: none), [2] why the
 *           line was answered with 99 (0 with any other reply, and without
 *           one), [3] its place (0 where there is no cause)
 * Answers 0, 1, 2, 3 or 4. */
uint8_t egrivundo_port(const uint8_t *table, size_t table_count,
                       int64_t *values, size_t values_count,
                       uint8_t port[EGRIVUNDO_PORT_BYTES],
                       const uint8_t *given, size_t given_count,
                       uint8_t *reply, size_t reply_count,
                       uint64_t told[EGRIVUNDO_PORT_TOLD]);

/* A turn over 32 connections, numbered from 0 to 31: makes one port call for
 * the connection whose turn it is, on the bytes that wait for it. The round
 * begins behind the last served, goes up to 31 and on from 0; the first in it
 * that is open and has bytes waiting is served.
 *   table   a sound table
 *   values  as in the port call; the values are one list for all connections
 *   row     the 32 connections one after the other, 67 bytes each: [0] open (0
 *           no, any other byte yes), [1..] its port, as in the port call. All
 *           zero is a fresh row: every connection is closed, every port fresh.
 *           A turn that serves a connection stores 1 at its [0] and its port
 *           behind it. All other bytes of the row stay as they were, and a
 *           refused turn and one with nobody waiting leave all of them
 *   last    the number of the last served, 31 with a fresh row. The caller
 *           keeps it: where told[0] is 1, told[1] is the new one, else the old
 *           one stays
 *   given   the bytes that wait for all connections, end to end by rising
 *           number
 *   counts  32 counts, how many of these bytes are for each. Those of a closed
 *           connection are passed over. The caller drops the bytes consumed
 *           from the part of the one served, and keeps the others
 *   reply   as in the port call; it is for the connection that was served
 *   told    [0] 1 where one was served, 0 where nobody waits, [1] its number,
 *           [2] bytes consumed of its part, [3] to [5] as the port call's [1]
 *           to [3]. All 0 with nobody waiting
 * Every test is made even where nobody waits; that for 4 looks at the ports of
 * closed connections too.
 * Answers 0, 10, 1, 2, 3 or 4; the first of 10, 1, 2, 3, 4 that applies. */
uint8_t egrivundo_turn(const uint8_t *table, size_t table_count,
                       int64_t *values, size_t values_count,
                       uint8_t *row, size_t row_count,
                       uint64_t last,
                       const uint8_t *given, size_t given_count,
                       const uint64_t *counts, size_t counts_count,
                       uint8_t *reply, size_t reply_count,
                       uint64_t told[EGRIVUNDO_TURN_TOLD]);

/* Opens a connection, and closes one. Either leaves it with a fresh port.
 *   row     as in a turn: the connection's [0] becomes 1, or 0 where it is
 *           closed, and its port's [0] and [1] become 0. All other bytes stay,
 *           and a refusal leaves all of them
 *   number  the connection's number, from 0
 * Answers 0, or 10: also where it is open (closed) already. */
uint8_t egrivundo_open(uint8_t *row, size_t row_count, uint64_t number);
uint8_t egrivundo_close(uint8_t *row, size_t row_count, uint64_t number);

/* A change at a wall panel, without a line: sets one value of the room.
 *   table   a sound table
 *   values  as in the port call; the one value is set, every other stays
 *   owner   the module's number, from 0, in table order; a module whose label
 *           another bears too is changed like any other
 *   row     the row's number, from 0, as in the table of rows above; a
 *           read-only row is refused, even with its present value
 *   value   what the row shall be; the present value is accepted
 *   reply   at least 64 bytes. Where the module's label begins with # and the
 *           value did change, the answer to a get line is put at its start, a
 *           routing word by index 3, and the rest stays. Else no byte changes
 *   told    [0] length of that answer (0: none)
 * Answers 0, 1, 2, 3 or 9. */
uint8_t egrivundo_panel(const uint8_t *table, size_t table_count,
                        int64_t *values, size_t values_count,
                        uint64_t owner, uint64_t row, int64_t value,
                        uint8_t *reply, size_t reply_count,
                        uint64_t told[EGRIVUNDO_PANEL_TOLD]);

/* How long the list is that egrivundo_restore_write writes: it needs no buffer,
 * and writes nothing but told.
 *   table      a sound table
 *   present    the present values
 *   selection  one byte for each module: 1 chosen, 0 not
 *   wanted     as many as present; only entries of chosen modules count
 *   told       [0] bytes of the list, [1] its lines
 * Given the same, the writing call refuses with the same number; where this one
 * is accepted, it takes every buffer of at least so many bytes, and refuses a
 * shorter one with 8.
 * Answers 0, 1, 2, 5, 6 or 7. */
uint8_t egrivundo_restore_size(const uint8_t *table, size_t table_count,
                               const int64_t *present, size_t present_count,
                               const uint8_t *selection, size_t selection_count,
                               const int64_t *wanted, size_t wanted_count,
                               uint64_t told[EGRIVUNDO_RESTORE_TOLD]);

/* Writes the shortest list of SA lines that brings the chosen modules from
 * the present values to the wanted ones and moves nothing else.
 *   table      a sound table
 *   present    the present values, only read
 *   selection  one byte for each module: 1 chosen, 0 not
 *   wanted     as many as present; only entries of chosen modules count
 *   list       the list is put at its start, the rest stays. A routing word
 *              in which one output differs is said by index 4, else by index 3
 *   told       [0] bytes written, [1] lines written
 * It tests everything again, whatever the size call has answered. The list is
 * for a room where no knob of a wall panel turns until it has been played.
 * Answers 0, 1, 2, 5, 6, 7 or 8. */
uint8_t egrivundo_restore_write(const uint8_t *table, size_t table_count,
                                const int64_t *present, size_t present_count,
                                const uint8_t *selection, size_t selection_count,
                                const int64_t *wanted, size_t wanted_count,
                                uint8_t *list, size_t list_count,
                                uint64_t told[EGRIVUNDO_RESTORE_TOLD]);

/* How many values a table has: the length of a value list.
 *   table  a sound table
 *   told   that number
 * Answers 0 or 1. */
uint8_t egrivundo_value_count(const uint8_t *table, size_t table_count,
                              uint64_t told[1]);

/* Fills a list with the values that a program starts with: 0 where the row
 * permits it, else the row's low.
 *   table   a sound table
 *   values  one for each parameter
 * Answers 0, 1, or 2 where the list has another length. */
uint8_t egrivundo_starts(const uint8_t *table, size_t table_count,
                         int64_t *values, size_t values_count);

/* Where the value of a row stands in the list.
 *   table  a sound table
 *   owner  the number of its module, from 0
 *   row    its number in the module, from 0
 *   told   its place, from 0
 * Answers 0, 1 or 9. */
uint8_t egrivundo_place(const uint8_t *table, size_t table_count,
                        uint64_t owner, uint64_t row, uint64_t told[1]);

/* What a row is.
 *   table, owner, row  as above
 *   told   [0] its first index, [1] its second or -1, [2] 0 level, 1 switch,
 *          2 number, 3 word, [3] low, [4] high, [5] step, [6] 1 where a line
 *          may set it, else 0
 * Answers 0, 1 or 9. */
uint8_t egrivundo_row(const uint8_t *table, size_t table_count,
                      uint64_t owner, uint64_t row,
                      int64_t told[EGRIVUNDO_ROW_TOLD]);

/* The words of an answer's number, for a log or a screen.
 *   number  an answer; of any other number the words say so
 *   text    the words in ASCII, and zero bytes behind them: a string in C */
void egrivundo_refusal(uint8_t number, uint8_t text[EGRIVUNDO_REFUSAL_BYTES]);

#ifdef __cplusplus
}
#endif

#endif
