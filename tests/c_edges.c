/* What a C caller can get wrong in columns and lengths, what the short forms pass on, how an array of structs lies, and the header's codes
   and limits. Prints what is not as it must be. */
#include "c_width.h"
#include <stddef.h>
#include <stdio.h>
#include <string.h>

#define ROOM 4
#define MANY (GUINEATWIRL_MAX_RANGES + 1)

static int failed = 0;

static void expect(const char *what, long long wanted, long long found) {
    if (wanted == found) return;
    printf("c_edges: %s: %s: %lld expected, %lld found\n", WIDTH, what, wanted, found);
    failed = 1;
}

/* List 0 is 1 to 6 at 100, list 1 is 5 to 9 at 20. */
static const point starts[] = {1, 5}, ends[] = {6, 9};
static const int32_t values[] = {100, 20};
static const uint32_t counts[] = {1, 1};

static point start[ROOM], end[ROOM];
static uint8_t kind[ROOM], list[ROOM], presence[ROOM];
static int32_t left[ROOM], right[ROOM];
static int64_t value[ROOM];
static uint64_t number;

static const OF(lists) in = {starts, ends, values, 2, counts, 2};
static const OF(events) events = {kind, start, list, left, ROOM};
static const OF(sides) sides = {start, end, left, right, presence, ROOM};
static const OF(pieces) pieces = {start, end, value, ROOM};

static void event(int i, int k, int p, int l, int v) {
    expect("kind", k, kind[i]);
    expect("point", p, (long long)start[i]);
    expect("list", l, list[i]);
    expect("value of an event", v, left[i]);
}

static void side(int i, int s, int e, int l, int r, int p) {
    expect("start of a side", s, (long long)start[i]);
    expect("end of a side", e, (long long)end[i]);
    expect("left", l, left[i]);
    expect("right", r, right[i]);
    expect("presence", p, presence[i]);
}

static void piece(int i, int s, int e, int v) {
    expect("start of a piece", s, (long long)start[i]);
    expect("end of a piece", e, (long long)end[i]);
    expect("value of a piece", v, (long long)value[i]);
}

static void done(const char *name, uint8_t code, int pieces_due) {
    expect(name, GUINEATWIRL_DONE, code);
    expect(name, pieces_due, (long long)number);
}

static void short_forms(void) {
    done("listing", OF(listing)(&in, &events, &number), 4);
    event(0, GUINEATWIRL_START, 1, 0, 100);
    event(1, GUINEATWIRL_START, 5, 1, 20);
    event(2, GUINEATWIRL_END, 6, 0, 0);
    event(3, GUINEATWIRL_END, 9, 1, 0);
    done("two_way_inner", OF(two_way_inner)(&in, &sides, &number), 1);
    side(0, 5, 6, 100, 20, GUINEATWIRL_LEFT | GUINEATWIRL_RIGHT);
    done("two_way_left", OF(two_way_left)(&in, &sides, &number), 2);
    side(0, 1, 4, 100, 0, GUINEATWIRL_LEFT);
    side(1, 5, 6, 100, 20, GUINEATWIRL_LEFT | GUINEATWIRL_RIGHT);
    done("two_way_full", OF(two_way_full)(&in, &sides, &number), 3);
    side(0, 1, 4, 100, 0, GUINEATWIRL_LEFT);
    side(1, 5, 6, 100, 20, GUINEATWIRL_LEFT | GUINEATWIRL_RIGHT);
    side(2, 7, 9, 0, 20, GUINEATWIRL_RIGHT);
    static const int combined[] = {120, 100, 20, 2, 60};
    for (uint8_t combiner = GUINEATWIRL_SUM; combiner <= GUINEATWIRL_MEAN; combiner++) {
        done("inner", OF(inner)(combiner, &in, &pieces, &number), 1);
        piece(0, 5, 6, combined[combiner - 1]);
    }
    done("full", OF(full)(GUINEATWIRL_SUM, &in, &pieces, &number), 3);
    piece(0, 1, 4, 100);
    piece(1, 5, 6, 120);
    piece(2, 7, 9, 20);
    done("union", OF(union)(&in, &pieces, &number), 2);
    piece(0, 1, 4, 100);
    piece(1, 5, 9, 20);
    done("symmetric_difference", OF(symmetric_difference)(&in, &pieces, &number), 2);
    piece(0, 1, 4, 100);
    piece(1, 7, 9, 20);
}

/* What is read of the pieces 1 to 4 at 100 and 7 to 9 at 20, at each point from 0 to 10: the prices due there. */
static const point points[] = {0, 1, 2, 3, 4, 5, 6, 7, 8, 9, 10};
static const int due[] = {0, 100, 100, 100, 100, 0, 0, 20, 20, 20, 0};
#define POINTS 11

static void priced(const char *name, int i, int there, long long price) {
    expect(name, due[i] != 0, there);
    expect(name, due[i], price);
}

static void readings(void) {
    int64_t price, prices[POINTS];
    uint8_t there[POINTS];
    const guineatwirl_prices out = {prices, there, POINTS};
    done("pieces to be read", OF(symmetric_difference)(&in, &pieces, &number), 2);
    for (int i = 0; i < POINTS; i++) {
        price = -1;
        int found = OF(price)(&pieces, 2, points[i], &price);
        priced("price", i, found, (long long)price);
    }
    done("prices", OF(prices)(&pieces, 2, points, POINTS, &out, &number), POINTS);
    for (int i = 0; i < POINTS; i++) priced("prices", i, there[i], (long long)prices[i]);
    const guineatwirl_prices too_short = {prices, there, POINTS - 1};
    prices[0] = 77;
    expect("prices without room", GUINEATWIRL_NO_ROOM, OF(prices)(&pieces, 2, points, POINTS, &too_short, &number));
    expect("prices without room", POINTS, (long long)number);
    expect("prices without room", 77, (long long)prices[0]);
    done("prices at no points", OF(prices_at)(start, ROOM, end, ROOM, value, ROOM, 2, NULL, 0, NULL, 0, NULL, 0, &number), 0);
    /* Each column cut to 0, 1 and 2 places, and so many pieces asked for: the places that all have are read. */
    for (size_t s = 0; s <= 2; s++) {
        for (size_t e = 0; e <= 2; e++) {
            for (size_t n = 0; n <= 3; n++) {
                size_t all = s < e ? s : e;
                if (n < all) all = n;
                expect("price at 1", all >= 1, OF(price_at)(s ? start : NULL, s, e ? end : NULL, e, value, 2, n, 1, &price));
                expect("price at 9", all >= 2, OF(price_at)(s ? start : NULL, s, end, 2, e ? value : NULL, e, n, 9, &price));
            }
        }
    }
    expect("price of as many pieces as can be named", 1, OF(price_at)(start, 2, end, 2, value, 2, SIZE_MAX, 9, &price));
}

/* Column number cut has length kept, and is NULL where that is 0; the others are whole. */
static int cut;
static size_t kept;
#define COLUMN(n, column, length) (cut == (n) && kept == 0 ? NULL : (column)), (cut == (n) ? kept : (size_t)(length))
#define LISTS COLUMN(0, starts, 2), COLUMN(1, ends, 2), COLUMN(2, values, 2), COLUMN(3, counts, 2)
#define EVENTS COLUMN(4, kind, ROOM), COLUMN(5, start, ROOM), COLUMN(6, list, ROOM), COLUMN(7, left, ROOM), &number
#define RANGE COLUMN(4, start, ROOM), COLUMN(5, end, ROOM)
#define SIDES RANGE, COLUMN(6, left, ROOM), COLUMN(7, right, ROOM), COLUMN(8, presence, ROOM), &number
#define PIECES RANGE, COLUMN(6, value, ROOM), &number

static uint8_t list_events(void) { return OF(list_events)(LISTS, EVENTS); }
static uint8_t two_way_inner_join(void) { return OF(two_way_inner_join)(LISTS, SIDES); }
static uint8_t two_way_left_join(void) { return OF(two_way_left_join)(LISTS, SIDES); }
static uint8_t two_way_full_join(void) { return OF(two_way_full_join)(LISTS, SIDES); }
static uint8_t inner_join(void) { return OF(multiway_inner_join)(GUINEATWIRL_SUM, LISTS, PIECES); }
static uint8_t full_join(void) { return OF(multiway_full_join)(GUINEATWIRL_SUM, LISTS, PIECES); }
static uint8_t selected(void) { return OF(multiway_union)(LISTS, PIECES); }
static uint8_t odd(void) { return OF(multiway_symmetric_difference)(LISTS, PIECES); }

static void long_form(const char *name, uint8_t (*call)(void), int columns, size_t pieces_due) {
    for (cut = 0; cut < columns; cut++) {
        size_t whole = cut < 4 ? 2 : ROOM;
        for (kept = 0; kept <= whole; kept++) {
            int code = GUINEATWIRL_DONE;
            if (cut < 4 && kept < whole) code = cut == 3 && columns == 9 ? GUINEATWIRL_NOT_TWO_LISTS : GUINEATWIRL_COLUMNS_DIFFER;
            if (cut >= 4 && kept < pieces_due) code = GUINEATWIRL_NO_ROOM;
            int due = code == GUINEATWIRL_DONE || code == GUINEATWIRL_NO_ROOM ? (int)pieces_due : 0;
            number = 99;
            expect(name, code, call());
            expect(name, due, (long long)number);
        }
    }
}

/* No column has a length, and every pointer is NULL; or counts alone, of two lists without ranges. */
static void nothing(size_t lists) {
    OF(lists) no_lists;
    OF(events) no_events;
    OF(sides) no_sides;
    OF(pieces) no_pieces;
    memset(&no_lists, 0, sizeof no_lists);
    memset(&no_events, 0, sizeof no_events);
    memset(&no_sides, 0, sizeof no_sides);
    memset(&no_pieces, 0, sizeof no_pieces);
    static const uint32_t none[] = {0, 0};
    no_lists.counts = lists == 0 ? NULL : none;
    no_lists.lists = lists;
    done("listing of nothing", OF(listing)(&no_lists, &no_events, &number), 0);
    int two_way = lists == 2 ? GUINEATWIRL_DONE : GUINEATWIRL_NOT_TWO_LISTS;
    expect("two_way_inner of nothing", two_way, OF(two_way_inner)(&no_lists, &no_sides, &number));
    expect("two_way_left of nothing", two_way, OF(two_way_left)(&no_lists, &no_sides, &number));
    expect("two_way_full of nothing", two_way, OF(two_way_full)(&no_lists, &no_sides, &number));
    done("full of nothing", OF(full)(GUINEATWIRL_SUM, &no_lists, &no_pieces, &number), 0);
    done("union of nothing", OF(union)(&no_lists, &no_pieces, &number), 0);
    done("symmetric_difference of nothing", OF(symmetric_difference)(&no_lists, &no_pieces, &number), 0);
    if (lists == 0) {
        /* All points, as one piece. */
        expect("inner of no lists", GUINEATWIRL_NO_ROOM, OF(inner)(GUINEATWIRL_SUM, &no_lists, &no_pieces, &number));
        expect("inner of no lists", 1, (long long)number);
        done("inner of no lists", OF(inner)(GUINEATWIRL_SUM, &no_lists, &pieces, &number), 1);
        expect("least and greatest point", -1, (long long)(int32_t)(start[0] ^ end[0]));
    } else {
        done("inner of empty lists", OF(inner)(GUINEATWIRL_SUM, &no_lists, &no_pieces, &number), 0);
    }
    no_lists.starts = starts;
    no_lists.ends = ends;
    no_lists.values = values;
    no_lists.ranges = 2;
    expect("ranges of no list", GUINEATWIRL_COLUMNS_DIFFER, OF(full)(GUINEATWIRL_SUM, &no_lists, &pieces, &number));
}

static void refused(const char *name, int code, int number_due, const OF(lists) *lists, uint8_t combiner) {
    expect(name, code, OF(full)(combiner, lists, &pieces, &number));
    expect(name, number_due, (long long)number);
}

/* Every code that a many-way join gives, by its name. */
static void refusals(void) {
    static point points[MANY];
    static int32_t prices[MANY];
    static uint32_t lengths[GUINEATWIRL_MAX_LISTS + 1];
    for (int i = 0; i < MANY; i++) points[i] = (point)(2 * i);
    /* Ranges of one point: one column is both starts and ends. */
    OF(lists) lists = {points, points, prices, 4, lengths, 1};
    lengths[0] = 4;
    done("one column lent twice", OF(full)(GUINEATWIRL_SUM, &lists, &pieces, &number), 4);
    lists.lists = GUINEATWIRL_MAX_LISTS;
    done("most lists", OF(full)(GUINEATWIRL_SUM, &lists, &pieces, &number), 4);
    lists.lists = 1;
    refused("combiner 0", GUINEATWIRL_UNKNOWN_COMBINER, 0, &lists, 0);
    refused("combiner 6", GUINEATWIRL_UNKNOWN_COMBINER, 0, &lists, GUINEATWIRL_MEAN + 1);
    lengths[0] = lists.ranges = 5;
    refused("five pieces", GUINEATWIRL_NO_ROOM, 5, &lists, GUINEATWIRL_SUM);
    lengths[0] = lists.ranges = MANY;
    refused("ranges", GUINEATWIRL_TOO_MANY_RANGES, 0, &lists, GUINEATWIRL_SUM);
    lists.lists = GUINEATWIRL_MAX_LISTS + 1;
    refused("lists", GUINEATWIRL_TOO_MANY_LISTS, 0, &lists, GUINEATWIRL_SUM);
    lists.lists = 1;
    lengths[0] = lists.ranges = GUINEATWIRL_MAX_RANGES;
    refused("most ranges", GUINEATWIRL_NO_ROOM, GUINEATWIRL_MAX_RANGES, &lists, GUINEATWIRL_SUM);
    points[3] = 4;
    refused("overlap", GUINEATWIRL_OVERLAP, 3, &lists, GUINEATWIRL_SUM);
    static const point early[] = {1, 4};
    static const uint32_t both[] = {2};
    const OF(lists) backward = {starts, early, values, 2, both, 1};
    refused("backward", GUINEATWIRL_BACKWARD, 1, &backward, GUINEATWIRL_SUM);
}

static void no_room(const char *name, uint8_t code, int pieces_due) {
    expect(name, GUINEATWIRL_NO_ROOM, code);
    expect(name, pieces_due, (long long)number);
}

/* The most ranges, each of which ends where one of the other list has begun: the most pieces and events. */
static void most(void) {
    static point from[GUINEATWIRL_MAX_RANGES], to[GUINEATWIRL_MAX_RANGES];
    static int32_t prices[GUINEATWIRL_MAX_RANGES];
    static const uint32_t halves[] = {GUINEATWIRL_MAX_RANGES / 2, GUINEATWIRL_MAX_RANGES / 2};
    const OF(lists) lists = {from, to, prices, GUINEATWIRL_MAX_RANGES, halves, 2};
    for (uint32_t i = 0; i < GUINEATWIRL_MAX_RANGES / 2; i++) {
        uint32_t other = i + GUINEATWIRL_MAX_RANGES / 2;
        from[i] = (point)(4 * i);
        from[other] = to[i] = (point)(4 * i + 2);
        to[other] = (point)(4 * i + 4);
    }
    no_room("listing", OF(listing)(&lists, &events, &number), GUINEATWIRL_MAX_EVENTS);
    no_room("two_way_inner", OF(two_way_inner)(&lists, &sides, &number), 2047);
    no_room("two_way_left", OF(two_way_left)(&lists, &sides, &number), 3071);
    no_room("two_way_full", OF(two_way_full)(&lists, &sides, &number), GUINEATWIRL_MAX_PIECES);
    no_room("inner", OF(inner)(GUINEATWIRL_COUNT, &lists, &pieces, &number), 2047);
    no_room("full", OF(full)(GUINEATWIRL_COUNT, &lists, &pieces, &number), GUINEATWIRL_MAX_PIECES);
    no_room("symmetric_difference", OF(symmetric_difference)(&lists, &pieces, &number), 2048);
    done("union", OF(union)(&lists, &pieces, &number), 1);
}

static void checked(const char *name, int code, int number_due, const OF(tariff) *list_typed, size_t length) {
    number = 99;
    expect(name, code, OF(check_list)(list_typed, length, &number));
    expect(name, number_due, (long long)number);
}

/* An array of structs lies as the library reads it: each field where it is expected, and no other room than at the end. */
static void typed(void) {
    expect("size of a tariff", 3 * POINT_SIZE, (long long)sizeof(OF(tariff)));
    expect("place of its start", 0, (long long)offsetof(OF(tariff), start));
    expect("place of its end", POINT_SIZE, (long long)offsetof(OF(tariff), end));
    expect("place of its value", 2 * POINT_SIZE, (long long)offsetof(OF(tariff), value));
    static OF(tariff) tariffs[MANY];
    for (int i = 0; i < MANY; i++) {
        tariffs[i].start = (point)(2 * i);
        tariffs[i].end = (point)(2 * i + 1);
        tariffs[i].value = -i;
    }
    checked("no ranges", GUINEATWIRL_DONE, 0, NULL, 0);
    checked("one range", GUINEATWIRL_DONE, 0, tariffs, 1);
    checked("ranges that touch, more than can be joined", GUINEATWIRL_DONE, 0, tariffs, MANY);
    tariffs[MANY - 1].start = (point)(2 * MANY - 3);
    checked("overlap at the last", GUINEATWIRL_OVERLAP, MANY - 1, tariffs, MANY);
    checked("overlap left out", GUINEATWIRL_DONE, 0, tariffs, MANY - 1);
    tariffs[7].end = tariffs[7].start;
    checked("one point", GUINEATWIRL_OVERLAP, MANY - 1, tariffs, MANY);
    tariffs[7].end = tariffs[6].start;
    checked("backward before overlap", GUINEATWIRL_BACKWARD, 7, tariffs, MANY);
    tariffs[3] = tariffs[2];
    checked("overlap before backward", GUINEATWIRL_OVERLAP, 3, tariffs, MANY);
    tariffs[0].start = 9;
    checked("backward at the first", GUINEATWIRL_BACKWARD, 0, tariffs, 1);
}

int main(void) {
    typed();
    short_forms();
    long_form("list_events", list_events, 8, 4);
    long_form("two_way_inner_join", two_way_inner_join, 9, 1);
    long_form("two_way_left_join", two_way_left_join, 9, 2);
    long_form("two_way_full_join", two_way_full_join, 9, 3);
    long_form("multiway_inner_join", inner_join, 7, 1);
    long_form("multiway_full_join", full_join, 7, 3);
    long_form("multiway_union", selected, 7, 2);
    long_form("multiway_symmetric_difference", odd, 7, 2);
    readings();
    nothing(0);
    nothing(2);
    refusals();
    most();
    return failed;
}
