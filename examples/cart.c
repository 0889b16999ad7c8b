/* One cart's trail from C: written, listed, aged over some days, by the built-in table
 * and by a hall's own, and asked about; the same with a silence in it; the same in
 * millimetres; a cart that an anchor in the ceiling sees; and the trail that costs most.
 *
 * After './install PREFIX', with PREFIX/lib/pkgconfig in PKG_CONFIG_PATH:
 *
 *   cc cart.c $(pkg-config --cflags --libs trails) -o cart && LD_LIBRARY_PATH=PREFIX/lib ./cart
 *
 * In the source tree:
 *
 *   ./build
 *   cc -I include examples/cart.c library/trails.c target/staticlib/libexport.a -o cart && ./cart
 */
#include <stdio.h>

#include "trails.h"

enum { FIXES = 6, ROWS = 2 };

/* A cart that goes 200 cm along a belt, waits, and goes on across the hall. */
static const uint32_t times[FIXES] = {1000, 1010, 1020, 1050, 1060, 1080};
static const int32_t xs[FIXES] = {0, 100, 200, 200, 195, 185};
static const int32_t ys[FIXES] = {0, 0, 3, 3, 120, 360};

/* It goes behind the cold store, and isn't heard of from second 1050 to 1060. */
static const uint8_t silences[FIXES] = {0, 0, 0, 1, 0, 0};

/* The same cart, seen in millimetres. */
static const int32_t fine_xs[FIXES] = {0, 1004, 1998, 2001, 1952, 1847};
static const int32_t fine_ys[FIXES] = {0, 2, 29, 31, 1203, 3598};

/* A hall's own table: two weeks as the carts reported, then 5 cm, and 50 from day 60 on. */
static const uint16_t row_days[ROWS] = {14, 60};
static const uint16_t row_tolerances[ROWS] = {5, 50};

/* a fix has 8 bytes in centimetres, 9 with silences, and 12 in millimetres */
static uint8_t record[10 + 12 * FIXES];
static uint8_t text[TRAILS_TEXT];

/* Prints why something is refused. */
static void refused(uint32_t refusal) {
    printf("refused %u: %s\n", (unsigned)refusal, trails_sentence(refusal));
}

/* Prints the record as text for people. */
static void list(void) {
    size_t length = trails_list(record, sizeof record, text);
    fwrite(text, 1, length, stdout);
}

/* Prints what an aging answered. */
static void aged(const char *what, struct trails_answer answer) {
    printf("%s: ", what);
    if (answer.refusal != TRAILS_ACCEPTED)
        refused(answer.refusal);
    else
        printf("%u fixes measured\n", (unsigned)answer.value);
}

/* The hall's own table. One that is refused has no rows, so what it is handed to is
 * refused too. */
static struct trails_table hall(void) {
    struct trails_loaded loaded = trails_load(row_days, ROWS, row_tolerances, ROWS);
    if (loaded.refusal != TRAILS_ACCEPTED)
        refused(loaded.refusal);
    return loaded.table;
}

/* Prints what the record is given on a day by the hall's own table. */
static void given(uint16_t days) {
    struct trails_applied a = trails_days_apply(record, sizeof record, days, hall());
    printf("day %u: ", (unsigned)days);
    if (a.refusal != TRAILS_ACCEPTED)
        refused(a.refusal);
    else if (a.applies)
        printf("tolerance %u\n", (unsigned)a.tolerance);
    else
        printf("no tolerance\n");
}

/* Makes a list of agings by two tables, and prints what became of it. */
static void run(const uint64_t *calls, size_t count) {
    const struct trails_table tables[] = {trails_built_in(), hall()};
    struct trails_run done =
        trails_run(record, sizeof record, calls, count, (const uint16_t *)tables,
                   2 * TRAILS_TABLE_NUMBERS);
    if (done.refusal != TRAILS_ACCEPTED)
        refused(done.refusal);
    else
        printf("list: %zu of %zu calls turned away\n", done.turned_away, count);
}

/* Reads all fixes, and prints the longest leg, the first of equals. What isn't wanted,
 * here the silences, is a column of no length. */
static void longest(void) {
    uint32_t t[FIXES];
    int32_t x[FIXES], y[FIXES];
    uint8_t unused;
    struct trails_answer read =
        trails_read_all(record, sizeof record, t, FIXES, x, FIXES, y, FIXES, &unused, 0);
    uint32_t end = 1;
    if (read.refusal != TRAILS_ACCEPTED || read.value < 2) {
        printf("no leg\n");
        return;
    }
    for (uint32_t k = 2; k < read.value; k++)
        if (t[k] - t[k - 1] > t[end] - t[end - 1])
            end = k;
    printf("longest of %u legs: %u s, from %d, %d to %d, %d\n", (unsigned)read.value - 1,
           (unsigned)(t[end] - t[end - 1]), (int)x[end - 1], (int)y[end - 1], (int)x[end],
           (int)y[end]);
}

/* Prints where the cart was, in the unit that the record's kind says. */
static void where(uint32_t second, uint16_t thousandths) {
    struct trails_head head = trails_check(record, sizeof record);
    const char *unit = head.kind == TRAILS_MILLIMETRES ? "mm" : "cm";
    struct trails_place p = trails_place(record, sizeof record, second, thousandths);
    printf("at %u.%03u: ", (unsigned)second, thousandths);
    if (p.refusal == TRAILS_IN_SILENCE)
        printf("in a silence, so nobody knows\n");
    else if (p.refusal != TRAILS_ACCEPTED)
        refused(p.refusal);
    else
        printf("%lld/%u, %lld/%u, so about %d, %d %s\n", (long long)p.x,
               (unsigned)p.denominator, (long long)p.y, (unsigned)p.denominator,
               (int)p.whole_x, (int)p.whole_y, unit);
}

/* Whether the cart was on the packing area, 150 to 250 by 100 to 200, in a window. */
static void packed(uint32_t start, uint32_t end) {
    struct trails_crossing c =
        trails_crosses(record, sizeof record, start, end, 150, 250, 100, 200);
    printf("from %u to %u: ", (unsigned)start, (unsigned)end);
    if (c.refusal != TRAILS_ACCEPTED)
        refused(c.refusal);
    else if (c.crosses)
        printf("packed, first %llu/%u s after the first fix\n",
               (unsigned long long)c.numerator, (unsigned)c.denominator);
    else
        printf("not packed\n");
}

/* Whether the cart came near the washer, on which leg first, and when it was closest
 * there. */
static void washed(int32_t x, int32_t y, uint32_t radius) {
    struct trails_approach a = trails_near(record, sizeof record, x, y, radius);
    printf("within %u of %d, %d: ", (unsigned)radius, (int)x, (int)y);
    if (a.refusal != TRAILS_ACCEPTED)
        refused(a.refusal);
    else if (a.approaches)
        printf("washed, on leg %u, closest %llu/%llu s after the first fix\n", (unsigned)a.leg,
               (unsigned long long)a.numerator, (unsigned long long)a.denominator);
    else
        printf("not washed\n");
}

/* The same trail with its silence: between the two ends nothing is said, and both stay. */
static void with_silences(void) {
    struct trails_answer written = trails_write_silences(
        times, FIXES, xs, FIXES, ys, FIXES, silences, FIXES, record, sizeof record);
    if (written.refusal != TRAILS_ACCEPTED) {
        refused(written.refusal);
        return;
    }
    where(1050, 0);
    where(1055, 0);
    packed(1000, 1080);
    packed(1051, 1059);
    washed(250, 60, 60);
    aged("90 days", trails_age_by_days(record, sizeof record, 90, trails_built_in()));
    list();
}

/* The same trail in millimetres: every length that goes in or comes out is in these. */
static void in_millimetres(void) {
    struct trails_answer written = trails_write_millimetres(
        times, FIXES, fine_xs, FIXES, fine_ys, FIXES, record, sizeof record);
    if (written.refusal != TRAILS_ACCEPTED) {
        refused(written.refusal);
        return;
    }
    where(1015, 500);
    washed(2500, 600, 600);
    /* a table is in centimetres, and what it gives is in the record's unit */
    given(13);
    given(60);
    aged("tolerance 50", trails_age(record, sizeof record, 50));
    /* above what centimetres may have, and still a tolerance */
    aged("tolerance 40000", trails_age(record, sizeof record, 40000));
    list();
}

/* Takes what an anchor has sent, and prints the place that a fix would have. The state is
 * for the next reading; a refused one leaves it as it was. */
static struct trails_anchor_state sent(const char *what, struct trails_anchored a) {
    printf("%s: ", what);
    if (a.refusal != TRAILS_ACCEPTED)
        refused(a.refusal);
    else
        printf("%.4f, %.4f, so about %d, %d cm\n", a.state.x, a.state.y, (int)a.x, (int)a.y);
    return a.state;
}

/* An anchor sends a place, and then how far the cart went, in centimetres: whole numbers of
 * sixteenths. */
static void anchored(void) {
    const uint8_t steps[] = {0, 1, 1};
    const float by_x[] = {185.5f, -0.0625f, 0.1f}, by_y[] = {360.0f, 0.5f, 0.0f};
    struct trails_anchor_state state = {0, 0, 0};
    state = sent("a step from nowhere", trails_anchor_step(state, 1, 1));
    state = sent("a place", trails_anchor_absolute(state, 185.5f, 360));
    state = sent("a step", trails_anchor_step(state, -0.0625f, 0.5f));
    state = sent("no sixteenths", trails_anchor_step(state, 0.1f, 0));
    state = sent("through a wall", trails_anchor_step(state, 0, 15640));
    sent("a step back", trails_anchor_step(state, 0.0625f, -0.5f));

    /* the place, the step and the one that is refused for its value, at once */
    state = trails_anchor_all(state, steps, 3, by_x, 3, by_y, 3);
    printf("three at once: %.4f, %.4f\n", state.x, state.y);
}

/* What a controller must be sized for, if its trails have so many fixes. Every fix stays,
 * so that it costs as much again. */
static void dearest(size_t n) {
    struct trails_answer written = trails_dearest(n, record, sizeof record);
    if (written.refusal != TRAILS_ACCEPTED) {
        printf("%zu fixes: ", n);
        refused(written.refusal);
        return;
    }
    aged("at most", trails_age(record, sizeof record, 1));
    aged("and again", trails_age(record, sizeof record, 1));
}

int main(void) {
    const uint64_t calls[] = {12, 32001, TRAILS_BY_TABLE(0, 7), TRAILS_BY_TABLE(1, 14)};
    struct trails_answer written =
        trails_write(times, FIXES, xs, FIXES, ys, FIXES, record, sizeof record);
    if (written.refusal != TRAILS_ACCEPTED) {
        refused(written.refusal);
        return 1;
    }
    list();
    longest();
    where(1015, 500);
    packed(1000, 1080);
    packed(1000, 1050);
    packed(1000, 2000);
    washed(250, 60, 60);
    washed(250, 60, 52);
    washed(250, 60, 32001);

    aged("tolerance 5", trails_age(record, sizeof record, 5));
    aged("tolerance 40000", trails_age(record, sizeof record, 40000));
    aged("1 day", trails_age_by_days(record, sizeof record, 1, trails_built_in()));
    list();

    /* tolerance 12, a refused one, 7 days, which is tolerance 25, and 14 by the hall's
     * own table, which is 5 */
    run(calls, sizeof calls / sizeof calls[0]);
    list();
    longest();
    where(1015, 500);
    packed(1000, 1080);

    with_silences();
    in_millimetres();
    anchored();
    dearest(FIXES);
    dearest(4097);
    return 0;
}
