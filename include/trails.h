/* Cart trails, for C.
 *
 * Link with libtrails, which './install PREFIX' puts below a folder with this page:
 *   cc cart.c $(pkg-config --cflags --libs trails)
 * or, in the source tree, with library/trails.c and the archive of the proved functions,
 * target/staticlib/libexport.a, which './build' makes. The functions allocate nothing,
 * keep nothing between calls, and may be called from several threads at once as long as
 * no buffer that one of them writes is lent to another at the same time.
 *
 * A buffer is a pointer and the number of its elements. The pointer isn't null
 * and is aligned for its elements, even where the number is 0; all the elements
 * may be read, and where they aren't const written too; and a buffer that isn't
 * const overlaps no other of the same call. Besides that a function asks nothing:
 * every content and every length has an answer, which this page gives.
 *
 * THE RECORD. Numbers are little-endian.
 *
 *   bytes   what
 *   0..3    length of the whole record
 *   4..5    kind: 1 is a trail in centimetres, 2 one in millimetres, 3 one in
 *           centimetres with silences
 *   6..7    mark: greatest tolerance applied so far,
 *           or 65,535 for a trail that was never thinned
 *   8..9    count of fixes, 1 to 4,096
 *   10..    for each fix its time (4, unsigned), x and y (2 each of kinds 1 and 3,
 *           and 4 of kind 2; in two's complement), and of kind 3 a silence byte:
 *           1 if a silence follows the fix, 0 if none does
 *
 *                           kind 1               kind 2                 kind 3
 *   all lengths are in      centimetres          millimetres            as kind 1
 *   bytes of a fix          8                    12                     9
 *   length                  10 + 8 * count       10 + 12 * count        10 + 9 * count
 *   an x, a y, also of a    -16,000 to 16,000    -160,000 to 160,000    as kind 1
 *   point, and a box's edge
 *   a tolerance, and a      0 to 32,000          0 to 60,000            as kind 1
 *   mark but 65,535
 *   a radius                0 to 32,000          0 to 320,000           as kind 1
 *
 * Times are in seconds. Places, marks, tolerances, boxes, points and radii are in the
 * record's own unit, and a call on a record takes and answers them so. A buffer may go on
 * after the record; those bytes are ignored by every reader and kept by every
 * writer.
 *
 * SILENCES. A cart that drops out for a while says nothing of where it is, and a
 * straight line through a wall would be wrong. A silence is the time strictly
 * between a fix whose silence byte is 1 and the next fix; these two are its ends,
 * and belong to the trail. A stretch is what lies between silences: it goes from
 * the first fix, or one after a silence, to the next fix before a silence, or the
 * last. Then
 *   - each stretch is thinned by itself, so that both ends of every silence are
 *     always kept, each with its byte;
 *   - no place is given inside a silence: TRAILS_IN_SILENCE;
 *   - for crossings and approaches a silence has its two ends and nothing between
 *     them, and a yes that it gives has a denominator of 1;
 *   - what is promised of an aged trail and its original holds at all times
 *     outside silences, and of the inside of a silence nothing is promised.
 * A record of kind 1 or 2 has no silence.
 *
 * TABLES. Aging by days takes its tolerance from a table, the built-in one or a
 * hall's own. A table has 1 to 32 rows of a day and a tolerance, and a row says: from
 * this day on, this tolerance. Days rise strictly from row to row, tolerances don't
 * fall, and none is above 32,000. They are in centimetres, whatever records they are
 * for. For an asked day the last row whose day isn't above it counts. It gives
 *   - of kinds 1 and 3 the row's tolerance as it is,
 *   - of kind 2, in millimetres, the lesser of ten times the row's and 60,000,
 * and before the first row nothing. The built-in table is
 *
 *   day    tolerance    so on days     kinds 1 and 3    kind 2
 *                       0 and 1        nothing          nothing
 *   2      10           2 to 6         10               100
 *   7      25           7 to 29        25               250
 *   30     100          30 to 89       100              1,000
 *   90     400          from 90        400              4,000
 *
 * trails_load makes a table of rows, and trails_built_in gives that one. A table is a
 * struct of 65 numbers and is handed over by value, so nobody can change it meanwhile.
 * Whoever made it, each call that takes one checks it as loading does, and looks at no
 * row past its count.
 *
 * ANCHORS. An anchor in the ceiling sends where a cart is, or how far it went from the
 * last place, in two floats of 32 bits and in centimetres. What is known of its cart
 * between two readings is its state: the last place, and whether there is one. It begins
 * with no place, {0, 0, 0}, and is handed over by value: each reading is given the state
 * that the one before left, and nobody else keeps it. Values are whole numbers of
 * sixteenths, and places are from -16,000 to 16,000, so that every sum is exact: after any
 * readings, from whatever state, of which one was an accepted absolute place, the state is
 * the last such place and the steps accepted since added up in sixteenths, with nothing
 * lost. A refused reading changes no state. An accepted one also gives the place rounded
 * to whole centimetres, as trails_write takes it, halves away from 0 as in trails_place.
 * Any bits are a state, and any are a reading:
 *   - -0.0 is 0, and an accepted absolute place is kept as it was sent, -0.0 too;
 *   - every finite value of 524,288 or more, on either side of 0, is a whole number of
 *     sixteenths, so it meets 19, or of a step maybe 18 before that, and not 17;
 *   - a refused reading gives back the state as it was. Of a NaN that is in it the proof
 *     says no more than that it is one, since its language has a single NaN; the functions
 *     only copy it, and in tests its bits come back. To see or to store the bits of a
 *     float, memcpy it to a uint32_t.
 *
 * REFUSALS. A refusal is one of the numbers below, and 0 is none. A call makes
 * those checks that its description names, in the order in which they stand below,
 * which isn't that of their numbers: 20, 22, 23 and 16 come directly after 9, and 21 after
 * 12. Each is made over the whole record, or the whole table, before the next, and the
 * first that fails is the answer. A refused call leaves all buffers as they were. The
 * limits are those of the record's kind, or of the kind that is written; 20 and 21 turn
 * away nothing of kinds 1 and 2, and a table's limits are the same for every kind. 17, 18
 * and 19 are an anchor's, and no call on a record makes them.
 */
#ifndef TRAILS_H
#define TRAILS_H

#include <stddef.h>
#include <stdint.h>

#ifdef __cplusplus
extern "C" {
#endif

/* The refusals in checking order, each with its number and its sentence: a program can make
 * tables of its own by handing over a macro of these three. A limit that not all kinds
 * share is that of centimetres, with the others after it. trails_sentence below tells the
 * sentences too. */
#define TRAILS_REFUSALS(ROW)                                                           \
    ROW(TRAILS_FEW_BYTES, 1, "The lent bytes are fewer than 10.")                      \
    ROW(TRAILS_OTHER_KIND, 2, "The kind isn't 1, 2 or 3.")                             \
    ROW(TRAILS_BAD_COUNT, 3, "The count is 0 or above 4,096.")                         \
    ROW(TRAILS_BAD_LENGTH, 4,                                                          \
        "The length field isn't 10 + 8 (in millimetres 12, with silences 9) times "    \
        "the count.")                                                                  \
    ROW(TRAILS_SHORT_RECORD, 5, "The lent bytes are fewer than the length field.")     \
    ROW(TRAILS_BAD_MARK, 6,                                                            \
        "The mark is above 32,000 (in millimetres 60,000) and isn't 65,535.")          \
    ROW(TRAILS_MISPLACED, 7,                                                           \
        "Some x or y is outside -16,000 to 16,000 (in millimetres -160,000 to "        \
        "160,000).")                                                                   \
    ROW(TRAILS_UNORDERED, 8, "Some fix's time isn't later than the time before it.")   \
    ROW(TRAILS_LONG_SPAN, 9, "The last time less the first is above 65,535.")          \
    ROW(TRAILS_BAD_SILENCE, 20,                                                        \
        "A silence byte is neither 0 nor 1, or the last fix has 1.")                   \
    ROW(TRAILS_BAD_ROW_COUNT, 22, "The table has no rows, or more than 32.")           \
    ROW(TRAILS_BAD_ROWS, 23,                                                           \
        "The table's days don't rise strictly, its tolerances fall, or one is above "  \
        "32,000.")                                                                     \
    ROW(TRAILS_BAD_POINT, 16,                                                          \
        "The point is outside -16,000 to 16,000 (in millimetres -160,000 to "          \
        "160,000), or the radius is above 32,000 (in millimetres 320,000).")           \
    ROW(TRAILS_HIGH_TOLERANCE, 10,                                                     \
        "The asked tolerance is above 32,000 (in millimetres 60,000).")                \
    ROW(TRAILS_BAD_THOUSANDTHS, 11, "The asked thousandths are above 999.")            \
    ROW(TRAILS_BAD_MOMENT, 12,                                                         \
        "The asked moment is before the first fix or after the last.")                 \
    ROW(TRAILS_IN_SILENCE, 21, "The moment is strictly inside a silence.")             \
    ROW(TRAILS_BAD_WINDOW, 13,                                                         \
        "The window's end is before its start, or either is outside the trail's "      \
        "times.")                                                                      \
    ROW(TRAILS_BAD_BOX, 14,                                                            \
        "A box edge is outside -16,000 to 16,000 (in millimetres -160,000 to "         \
        "160,000), or a low edge is above its high edge.")                             \
    ROW(TRAILS_SHORT_OUTPUT, 15,                                                       \
        "The output has fewer than 10 + 8n (in millimetres 10 + 12n, with silences "   \
        "10 + 9n) bytes.")                                                             \
    ROW(TRAILS_BAD_READING, 17,                                                        \
        "A value isn't finite, or isn't a whole number of sixteenths.")                \
    ROW(TRAILS_BAD_STATE, 18,                                                          \
        "A step comes with a state that has no place yet, or one that 17 or 19 would " \
        "turn away.")                                                                  \
    ROW(TRAILS_BAD_NEW_PLACE, 19, "The new place is outside -16,000 to 16,000.")

#define TRAILS_NUMBER(name, number, sentence) name = number,
enum {
    TRAILS_REFUSALS(TRAILS_NUMBER)
    TRAILS_ACCEPTED = 0 /* not refused */
};
#undef TRAILS_NUMBER

/* The version of this page. As long as the first number is 0, another second number may
 * have other structs and functions, so a library is for programs that were compiled with
 * its own first two numbers. trails_version below tells the library's. */
#define TRAILS_VERSION_MAJOR 0
#define TRAILS_VERSION_MINOR 1
#define TRAILS_VERSION_PATCH 0
#define TRAILS_VERSION "0.1.0"

/* The kinds. */
#define TRAILS_CENTIMETRES 1u
#define TRAILS_MILLIMETRES 2u
#define TRAILS_SILENCES 3u /* centimetres, with a silence byte after each fix */

/* The mark of a trail that was never thinned. */
#define TRAILS_NEVER 65535u

/* The most bytes that a record has, of whatever kind. */
#define TRAILS_LONGEST 49162u

/* Room for every listing: none has more bytes. */
#define TRAILS_TEXT 159765u

/* The most rows of a table. */
#define TRAILS_ROWS 32u

/* The numbers of a table, of 16 bits each, as lists of agings are lent them: its count,
 * and then day and tolerance of each of its 32 rows. */
#define TRAILS_TABLE_NUMBERS 65u

/* What a list of agings has for one by days: by the lent table k, counted from 0. Days are
 * from 0 to 65,535; of another number only the low 16 bits count, here and in
 * trails_age_by_days, so that -1 is day 65,535. */
#define TRAILS_BY_TABLE(k, days) ((((uint64_t)(k) + 1) << 16) + (uint16_t)(days))

/* What a record's head says. Where refusal isn't 0, all else is 0. */
struct trails_head {
    uint32_t refusal;
    uint32_t kind; /* TRAILS_CENTIMETRES, TRAILS_MILLIMETRES or TRAILS_SILENCES */
    uint32_t count;
    uint32_t mark;
};

/* found is 1 and the rest follows, or everything is 0: none is left. Where refusal
 * isn't 0, all else is 0. */
struct trails_step {
    uint32_t refusal;
    uint32_t found;
    uint32_t kind; /* the unit of x and y */
    uint32_t t;    /* seconds */
    int32_t x;
    int32_t y;
    uint32_t silence; /* 1 if a silence follows the fix, else 0 */
};

/* A refusal, or a value. Where refusal isn't 0, value is 0. */
struct trails_answer {
    uint32_t refusal;
    uint32_t value;
};

/* A row of a table: from this day on, this tolerance, in centimetres. */
struct trails_row {
    uint16_t day;
    uint16_t tolerance;
};

/* A table: the first count of the rows. Nothing stands between its 65 numbers, so an
 * array of tables, seen as numbers, is what a list of agings is lent. */
struct trails_table {
    uint16_t count;
    struct trails_row rows[TRAILS_ROWS];
};

/* A table that was loaded. Its rows from its count on are 0; where refusal isn't 0, all
 * else is 0. */
struct trails_loaded {
    uint32_t refusal;
    struct trails_table table;
};

/* What an aging by days applies: applies is 1 and tolerance is in the record's unit, or
 * both are 0: nothing. Where refusal isn't 0, all else is 0. */
struct trails_applied {
    uint32_t refusal;
    uint32_t applies;
    uint32_t tolerance;
};

/* What became of a list of agings. Where refusal isn't 0, nothing was done, and
 * turned_away is 0. */
struct trails_run {
    uint32_t refusal;
    size_t turned_away; /* how many of the list's calls were refused */
};

/* Where a cart was: x / denominator and y / denominator, and the same rounded to
 * whole numbers, halves away from 0: -0.5 is -1, so that a trail mirrored about
 * the middle aisle has the mirrored place. Both are in the record's unit. Where
 * refusal isn't 0, all else is 0. */
struct trails_place {
    uint32_t refusal;
    uint32_t denominator;
    int64_t x;
    int64_t y;
    int32_t whole_x;
    int32_t whole_y;
};

/* Whether a cart was in a box. crosses is 1 for yes and 0 for no. A yes has the
 * earliest time, numerator / denominator seconds after the first fix, with a
 * denominator from 1 to 32,000, or 320,000 of kind 2. The fraction isn't reduced. It
 * is of the first two neighbouring fixes between which the cart is in the box: its
 * denominator is 1 if the former of them or the window's start is just then, or if
 * there is a silence between them, of which only the two ends count; else how far, in
 * the record's unit, the cart goes from one to the other in the coordinate that comes
 * to the box last, in x if both come at once. So compare two by their value; but the
 * same trail and window at another time of the clock have the same numerator and
 * denominator. Of a no both are 0, and where refusal isn't 0 all else is. */
struct trails_crossing {
    uint32_t refusal;
    uint32_t crosses;
    uint64_t numerator;
    uint32_t denominator;
};

/* Whether a cart came near a point. approaches is 1 for yes and 0 for no. A yes has the
 * first leg that comes within the radius, and on it the earliest time at which the cart
 * is closest to the point, numerator / denominator seconds after the first fix. Leg k
 * goes from fix k to fix k + 1, counted from 0 and both ends included; a trail of one fix
 * has leg 0, at 0 / 1. The fraction isn't reduced. Let t1, x1, y1 and t2, x2, y2 be the
 * leg's two fixes, t0 the first fix's time, x, y the point, dx = x2 - x1, dy = y2 - y1 and
 *   s = (x - x1) * dx + (y - y1) * dy
 *   - Where s is at most 0, as it is wherever a leg is at rest, the cart is closest at
 *     the leg's start, at (t1 - t0) / 1; else, where s is at least dx * dx + dy * dy, at
 *     its end, at (t2 - t0) / 1.
 *   - Else it is closest between the two: denominator is dx * dx + dy * dy, and
 *       numerator = denominator * (t1 - t0) + s * (t2 - t1)
 *   - Of a silent leg, whatever s is, it is closest at the end that is nearer, and at the
 *     start if both are as near: at (t1 - t0) / 1 or (t2 - t0) / 1.
 * So the denominator is from 1 to 2,048,000,000, or to 204,800,000,000 of kind 2. Compare
 * two times by their value; but the same trail at another time of the clock has the same
 * numerator and denominator. Of a no, leg, numerator and denominator are 0, and where
 * refusal isn't 0 all else is. */
struct trails_approach {
    uint32_t refusal;
    uint32_t approaches;
    uint32_t leg;
    uint64_t numerator;
    uint64_t denominator;
};

/* An anchor's state: the last place, in centimetres, and whether there is one. */
struct trails_anchor_state {
    float x;
    float y;
    uint32_t seen; /* 0 if there is no place yet, and anything else if there is one */
};

/* What became of a reading. Where refusal is 0, x and y are the new place rounded to whole
 * centimetres, halves away from 0, and state is the new one, whose seen is 1. Else x and y
 * are 0, and state is the very one that was handed in, its seen too, whatever number. */
struct trails_anchored {
    uint32_t refusal;
    int32_t x;
    int32_t y;
    struct trails_anchor_state state;
};

/* The version of the linked library, like TRAILS_VERSION. */
const char *trails_version(void);

/* The sentence of a refusal, as TRAILS_REFUSALS has it. 0 has one too, and so has every
 * number that is no refusal: the answer is never null. It stays as long as the program
 * runs, is ASCII, and isn't to be freed. */
const char *trails_sentence(uint32_t refusal);

/* Whether the lent bytes begin with a record. Makes checks 1 to 9 and 20; where
 * none fails, refusal is 0, and kind, count and mark are the record's. */
struct trails_head trails_check(const uint8_t *record, size_t lent);

/* The fix at a position, counted from 0. Makes checks 1 to 9 and 20. Where none fails,
 * positions 0 to count - 1 have a fix, and at each later position none is left.
 * Each call checks the whole record; trails_read_all checks once for all fixes. */
struct trails_step trails_read(const uint8_t *record, size_t lent, size_t position);

/* Reads all fixes of the record: the inverse of the three writers of a list. Makes
 * checks 1 to 9 and 20. Where none fails, value is the record's count, and fix k goes to
 * t[k], x[k] and y[k], in the record's unit, which trails_check tells, and to silence[k],
 * which is 1 if a silence follows it and else 0. Each column, for itself, gets as many
 * as it holds, none if its number is 0, and its later elements are as before. */
struct trails_answer trails_read_all(const uint8_t *record, size_t lent,
                                     uint32_t *t, size_t t_count,
                                     int32_t *x, size_t x_count,
                                     int32_t *y, size_t y_count,
                                     uint8_t *silence, size_t silence_count);

/* Writes the record of a list of fixes in centimetres, marked never thinned: kind 1.
 * Fix k of the list is t[k], x[k], y[k]; the list is as long as the shortest of the
 * three columns. Makes checks 3, 7, 8, 9 and 15, in this order. Where none fails,
 * value is the record's length, the first value bytes of the output are the record,
 * and its later bytes are as before. The output may be of any length; a record of n
 * fixes needs 10 + 8 * n bytes. */
struct trails_answer trails_write(const uint32_t *t, size_t t_count,
                                  const int32_t *x, size_t x_count,
                                  const int32_t *y, size_t y_count,
                                  uint8_t *output, size_t output_bytes);

/* Does what trails_write does, of fixes in millimetres: kind 2. A record of n fixes
 * needs 10 + 12 * n bytes. */
struct trails_answer trails_write_millimetres(const uint32_t *t, size_t t_count,
                                              const int32_t *x, size_t x_count,
                                              const int32_t *y, size_t y_count,
                                              uint8_t *output, size_t output_bytes);

/* Does what trails_write does, of fixes in centimetres with silences: kind 3. silence[k]
 * is 1 if a silence follows fix k, and 0 if none does; the list is as long as the
 * shortest of the four columns. Makes checks 3, 7, 8, 9, 20 and 15, in this order. A
 * record of n fixes needs 10 + 9 * n bytes. */
struct trails_answer trails_write_silences(const uint32_t *t, size_t t_count,
                                           const int32_t *x, size_t x_count,
                                           const int32_t *y, size_t y_count,
                                           const uint8_t *silence, size_t silence_count,
                                           uint8_t *output, size_t output_bytes);

/* Writes the record of the dearest trail of n fixes, for sizing a controller. Aging it at
 * tolerance 1 measures (n - 1) * (n - 2) / 2 inner fixes, and no record of n fixes, of
 * whatever kind and at whatever tolerance, measures more; and its splits nest as deep as
 * any can. Every fix stays, so only the mark changes, and it can be aged so again. Its
 * fix i, counted from 0, is at second i, x 0, and y n - 1 - i for even i and minus that
 * for odd; its kind is 1, and it is marked never thinned. Makes checks 3 and 15, in this
 * order. Where none fails, value is the record's length, 10 + 8 * n, the first value
 * bytes of the output are the record, and its later bytes are as before. n may be any
 * number, and the output of any length. */
struct trails_answer trails_dearest(size_t n, uint8_t *output, size_t output_bytes);

/* The listing of the lent bytes, as text for people: "trail", the count and the
 * mark or "never"; a line "fix" with time, x and y for each fix, and "silence" where
 * one follows; and "end". Lengths are in the record's unit, which the text doesn't
 * name. Makes checks 1 to 9 and 20; where one fails, the text is one line, "refused"
 * and the number.
 * Every line ends with a line feed, and nothing follows the last. The answer is
 * the text's length, at most TRAILS_TEXT; the text stands at the output's start,
 * and the output's later bytes are as before. */
size_t trails_list(const uint8_t *record, size_t lent,
                   uint8_t output[TRAILS_TEXT]);

/* Ages the record by tolerance, in its own unit. A shift's first thinning and
 * each later one are this same call. Makes checks 1 to 9, 20 and 10. Where none
 * fails, each stretch between silences, of kinds 1 and 2 the whole trail, is thinned
 * by itself at the tolerance by Douglas-Peucker: of a span every inner fix is
 * measured from where the straight line in time between the span's two ends has the
 * cart at that fix's second; where all are at most the tolerance away only the ends
 * stay, and else the span is split at the furthest, the earliest of equals, and both
 * pieces are treated the same. Then
 *   - the kept fixes, with their silence bytes, close up at the record's start, and
 *     length and count follow; both ends of every silence are among them;
 *   - the mark becomes the tolerance if it was TRAILS_NEVER, and else the greater
 *     of the two, whoever wrote it;
 *   - the kind, and all bytes from the new length on, are as before the call:
 *     fixes that were thinned away may still be among these, so what is stored
 *     of the buffer is to end at the new length;
 *   - value is how many inner fixes were measured, one for each in each span, of all
 *     stretches together: at most (count - 1) * (count - 2) / 2 of the count before.
 * Where a check fails, no byte is changed.
 * STACK. The call has 4,096 bytes of marks, and calls itself one level deeper for
 * each split in a split, at most 4,095 levels: of a record with count fixes about
 * 5,000 + 192 * count bytes on x86-64, so 792,000 at most. A thread needs some
 * thousands more for itself: one of 798,720 bytes was seen to suffice for the trail of
 * 4,096 fixes that trails_dearest writes, which nests all these levels, and for the same
 * trail backwards, with silence bytes and in millimetres. */
struct trails_answer trails_age(uint8_t *record, size_t lent, uint16_t tolerance);

/* Loads a hall's own table. Row k is days[k] and tolerances[k], in centimetres; the
 * rows are as many as the shorter of the two columns has. Makes checks 22 and 23. Where
 * none fails, the table has just these rows. */
struct trails_loaded trails_load(const uint16_t *days, size_t day_count,
                                 const uint16_t *tolerances, size_t tolerance_count);

/* The built-in table, whose rows TABLES above has and loading accepts. */
struct trails_table trails_built_in(void);

/* Ages the record by days. Makes checks 1 to 9, 20, 22 and 23. Where none fails, it does
 * what trails_age does at the tolerance that the table has for these days and the
 * record's kind, which TABLES above gives; where the table has none for them, no byte
 * is changed, and value is 0. Where a check fails, no byte is changed. STACK: as
 * trails_age. */
struct trails_answer trails_age_by_days(uint8_t *record, size_t lent, uint16_t days,
                                        struct trails_table table);

/* What trails_age_by_days would apply to the record, which stays as it is. Makes the
 * same checks: 1 to 9, 20, 22 and 23. */
struct trails_applied trails_days_apply(const uint8_t *record, size_t lent, uint16_t days,
                                        struct trails_table table);

/* Where the cart was at a moment: a second, on the fixes' own clock, and so many
 * thousandths after it. Makes checks 1 to 9, 20, 11, 12 and 21: where the cart was
 * inside a silence isn't told, and at both its ends it is. Where none fails, the
 * leg is the first whose end isn't earlier than the moment (at the end of a silence
 * the silent one), and the place is on the straight line in time between its two
 * fixes: denominator is 1000 * D, with D the leg's seconds, and
 *   x = x1 * 1000 * D + (x2 - x1) * (1000 * (second - t1) + thousandths)
 * where t1, x1 and x2 are its first fix's time and the two fixes' x; y likewise.
 * The fraction isn't reduced. Of one fix, denominator is 1. */
struct trails_place trails_place(const uint8_t *record, size_t lent,
                                 uint32_t second, uint16_t thousandths);

/* Whether the cart was in a box: x from left to right and y from bottom to top,
 * in the record's unit, at some time, fractions of seconds too, from start to end,
 * seconds on the fixes' own clock; edges and both ends are included. Between two
 * fixes the cart is on the straight line in time, unless there is a silence between
 * them: of that only the two ends count, so that a window strictly inside a silence
 * has a no. Makes checks 1 to 9, 20, 13 and 14. */
struct trails_crossing trails_crosses(const uint8_t *record, size_t lent,
                                      uint32_t start, uint32_t end,
                                      int32_t left, int32_t right,
                                      int32_t bottom, int32_t top);

/* Whether the cart came within a radius of the point x, y, both in the record's unit, at
 * some time of the trail, fractions of seconds too: whether it was then at most the
 * radius away. Between two fixes the cart is on the straight line in time, unless there
 * is a silence between them, of which only the two ends count. A yes names the first leg
 * that comes that near, which needn't be the nearest one, and when the cart is closest on
 * it, which needn't be when it is first that near. Makes checks 1 to 9, 20 and 16. */
struct trails_approach trails_near(const uint8_t *record, size_t lent,
                                   int32_t x, int32_t y, uint32_t radius);

/* Makes all agings of a list, one after the other. A call below 65,536 is
 * trails_age at that tolerance, and one from there on, as TRAILS_BY_TABLE has it, is
 * trails_age_by_days at call % 65,536 days by the lent table call / 65,536 - 1, counted
 * from 0: so each may have another. The tables are lent one after the other, each as its
 * TRAILS_TABLE_NUMBERS numbers: table k is numbers 65 * k to 65 * k + 64, and
 * table_numbers is how many numbers there are, not how many tables. One of which not all
 * 65 are lent is a table without rows; a list without agings by days may be lent none.
 * Makes checks 1 to 9 and 20. Where none fails, each byte afterwards is what these calls
 * give one by one: those that are turned away, by 10, 22 or 23, change nothing, and the
 * calls after them are made. turned_away is how many they were. STACK: as trails_age. */
struct trails_run trails_run(uint8_t *record, size_t lent,
                             const uint64_t *calls, size_t call_count,
                             const uint16_t *tables, size_t table_numbers);

/* Makes all agings of a list, and then asks the crossing of what is left. Makes
 * checks 1 to 9, 20, 13 and 14, before any aging: thinning keeps the first fix and
 * the last, so afterwards they would say the same. Where none fails, each byte is
 * what trails_run leaves, and the answer is what trails_crosses then gives. STACK: as
 * trails_age.
 * Of a record marked TRAILS_NEVER, the original, let E be the greatest tolerance
 * applied, or 0 if none was. Then the fixes left are those that thinning the
 * original once at E keeps, or all where none was applied; the silences left are the
 * original's, with the same ends; and
 *   - at every time from the first fix to the last that isn't inside a silence,
 *     fractions of seconds too, the trail left is at most E from the original;
 *   - a yes means that at its time, which isn't inside a silence, the original is at
 *     most E from the box;
 *   - a no means that whenever the original is in the box within the window, and not
 *     inside a silence, its x is at most E from left or right, or its y from bottom
 *     or top.
 * Where the cart went inside a silence nobody knows, and nothing is promised of it. */
struct trails_crossing trails_crosses_after(uint8_t *record, size_t lent,
                                            const uint64_t *calls, size_t call_count,
                                            const uint16_t *tables, size_t table_numbers,
                                            uint32_t start, uint32_t end,
                                            int32_t left, int32_t right,
                                            int32_t bottom, int32_t top);

/* Makes all agings of a list, and then asks what is left whether the cart came near a
 * point. Makes checks 1 to 9, 20 and 16, before any aging. Where none fails, each byte is
 * what trails_run leaves, and the answer is what trails_near then gives: its leg is one
 * of the trail left. STACK: as trails_age.
 * Of a record marked TRAILS_NEVER, the original, and E as for trails_crosses_after,
 * where the fixes and the silences left and their distance from the original stand too:
 *   - a yes means that at its time, which isn't inside a silence, the original is at most
 *     radius + E from the point;
 *   - a no means, if the radius is at least E, that at no time outside silences the
 *     original is at most radius - E from the point. If the radius is below E, a no says
 *     nothing of the original. */
struct trails_approach trails_near_after(uint8_t *record, size_t lent,
                                         const uint64_t *calls, size_t call_count,
                                         const uint16_t *tables, size_t table_numbers,
                                         int32_t x, int32_t y, uint32_t radius);

/* Takes an absolute place that an anchor has sent, whatever the state. Makes checks 17 and
 * 19. Where none fails, the new state has x and y, bit for bit. */
struct trails_anchored trails_anchor_absolute(struct trails_anchor_state state, float x, float y);

/* Takes a step that an anchor has sent, from the state's place. Makes checks 17, 18 and 19.
 * Where none fails, the new state has state.x + dx and state.y + dy, which are exact. */
struct trails_anchored trails_anchor_step(struct trails_anchor_state state, float dx, float dy);

/* Takes a list of readings, each with the state that the one before left: reading k is
 * trails_anchor_absolute of x[k] and y[k] where step[k] is 0, and else trails_anchor_step.
 * The list is as long as the shortest of the three columns. Those that are turned away
 * change nothing, and those after them are taken. The answer is the state after all, whose
 * seen is 1 or 0. */
struct trails_anchor_state trails_anchor_all(struct trails_anchor_state state,
                                             const uint8_t *step, size_t step_count,
                                             const float *x, size_t x_count,
                                             const float *y, size_t y_count);

#ifdef __cplusplus
}
#endif

#endif
