/* Guineatwirl: joins of tariff lists and selections among them, over lent columns.

   A tariff list says which value, in whole pence, holds on which range of points: seats (uint32_t) or instants (int64_t). A range has
   both its start and its end: 1 to 20 are twenty seats. Within a list each range starts after the end of the one before.

   Lists are lent end to end in three columns, starts, ends and values: the ranges of list 0, then those of list 1, and so on. A fourth
   column, counts, says how many ranges each list has; its length is the number of lists. No lists, and lists without ranges, are
   allowed.

   Each function answers a code, and writes the code's number to *number: after GUINEATWIRL_DONE the pieces, events or prices that it
   wrote at the front of the output columns, whose later places keep their contents. A refusal leaves all output columns untouched. The
   rules stand in docs/RULES.md of the library's repository.

   n ranges have 2n events, and give at most 2n - 1 pieces; only the inner join of no lists gives a piece without a range. Room is the
   length of the shortest output column. Room for the pieces that there are is enough; room for 2n - 1 saves the pass that counts them.

   What a many-way join or a selection wrote is read by price_at, the price at a point, and prices_at, the prices at many: at each point
   the price is what the operation's rule says of the lists there.

   A column of length 0 may be NULL. No output column may overlap another column. number and price must not be NULL, nor lie within a
   column of the call. The functions hold no state and allocate nothing: any number of calls may run at once, each on output columns and
   a number or price of its own.

   Licensed under either of the MIT license or the Apache License, Version 2.0, at your option. */
#ifndef GUINEATWIRL_H
#define GUINEATWIRL_H

#include <stddef.h>
#include <stdint.h>

#ifdef __cplusplus
extern "C" {
#endif

#define GUINEATWIRL_VERSION_MAJOR 0
#define GUINEATWIRL_VERSION_MINOR 1
#define GUINEATWIRL_VERSION_PATCH 0

/* The most lists of one call, the most ranges of its lists together, and what these can give. */
#define GUINEATWIRL_MAX_LISTS 16
#define GUINEATWIRL_MAX_RANGES 2048
#define GUINEATWIRL_MAX_PIECES 4095
#define GUINEATWIRL_MAX_EVENTS 4096

/* Bytes of stack that are enough for a call, measured and rounded up: a check of one list, the event listing, a two-way join, a
   many-way join or selection, a reading of prices. */
#define GUINEATWIRL_STACK_CHECK 256
#define GUINEATWIRL_STACK_LISTING 2048
#define GUINEATWIRL_STACK_TWO_WAY 1024
#define GUINEATWIRL_STACK_MULTIWAY 4096
#define GUINEATWIRL_STACK_PRICES 256
#define GUINEATWIRL_STACK_FILE 262144 /* a tariff file, whose columns are on the stack */

/* The longest tariff file, and the longest text that one gives. */
#define GUINEATWIRL_MAX_FILE 45126
#define GUINEATWIRL_MAX_TEXT 249806

/* What a call answers. Where several are due, the first of 1, 2, 4, 3, 7, then the first range that is wrong (5 before 6), then 8. The
   number is 0 unless another is named. The place of a range is counted from 0 through all lists. */
enum guineatwirl_code {
    GUINEATWIRL_DONE = 0,             /* number: the pieces, events or prices written; 0 of a check */
    GUINEATWIRL_TOO_MANY_LISTS = 1,
    GUINEATWIRL_NOT_TWO_LISTS = 2,    /* of two-way joins only */
    GUINEATWIRL_TOO_MANY_RANGES = 3,
    GUINEATWIRL_COLUMNS_DIFFER = 4,   /* in length: starts, ends, values, and what counts add up to */
    GUINEATWIRL_BACKWARD = 5,         /* number: the place of a range that starts beyond its end */
    GUINEATWIRL_OVERLAP = 6,          /* number: the place of a range that starts no later than the end before it in its list */
    GUINEATWIRL_UNKNOWN_COMBINER = 7, /* of many-way joins, and of any file whose operation does not take it */
    GUINEATWIRL_NO_ROOM = 8           /* number: the pieces, events or prices that need room */
};

/* What the text of a tariff file can say beside 1, 2, 3, 5, 6 and 7. The number is the offset of the record, or of the first byte left
   over; so it is for 1, 2, 3 and 7 of a file. */
enum guineatwirl_file_code {
    GUINEATWIRL_FILE_TOO_LONG = 9, /* number: 45126 */
    GUINEATWIRL_WRONG_MARK = 10,
    GUINEATWIRL_CUT_SHORT = 11,
    GUINEATWIRL_LEFT_OVER = 12,
    GUINEATWIRL_UNKNOWN_OPERATION = 13
};

/* What a many-way join makes of the values of the lists present at a point; of no values each makes 0. */
enum guineatwirl_combiner {
    GUINEATWIRL_SUM = 1,
    GUINEATWIRL_LARGEST = 2,
    GUINEATWIRL_SMALLEST = 3,
    GUINEATWIRL_COUNT = 4, /* the number of lists present */
    GUINEATWIRL_MEAN = 5   /* cut toward zero */
};

/* The bits of a presence: which sides a piece of a two-way join has. A missing side has value 0. */
enum guineatwirl_presence {
    GUINEATWIRL_LEFT = 1,
    GUINEATWIRL_RIGHT = 2
};

/* The kinds of events. An end has value 0. */
enum guineatwirl_kind {
    GUINEATWIRL_START = 0,
    GUINEATWIRL_END = 1
};

/* A code in words. */
static inline const char *guineatwirl_words(uint8_t code) {
    switch (code) {
    case GUINEATWIRL_DONE: return "done";
    case GUINEATWIRL_TOO_MANY_LISTS: return "there are more than 16 lists";
    case GUINEATWIRL_NOT_TWO_LISTS: return "a two-way join takes two lists";
    case GUINEATWIRL_TOO_MANY_RANGES: return "there are more than 2048 ranges";
    case GUINEATWIRL_COLUMNS_DIFFER: return "the columns differ in length, or the counts do not add up to it";
    case GUINEATWIRL_BACKWARD: return "a range starts beyond its end";
    case GUINEATWIRL_OVERLAP: return "a range starts no later than the end before it";
    case GUINEATWIRL_UNKNOWN_COMBINER: return "the operation does not take this combiner";
    case GUINEATWIRL_NO_ROOM: return "the output columns are too short";
    case GUINEATWIRL_FILE_TOO_LONG: return "the file has more than 45126 bytes";
    case GUINEATWIRL_WRONG_MARK: return "a record of the file does not begin with its mark";
    case GUINEATWIRL_CUT_SHORT: return "the file ends within a record, or before one that is due";
    case GUINEATWIRL_LEFT_OVER: return "bytes are left over after the last record of the file";
    case GUINEATWIRL_UNKNOWN_OPERATION: return "no operation has this number";
    default: return "no code of this library";
    }
}

/* Each operation has two forms. The long one takes every column with a length of its own. The short one calls the long one, and takes
   columns of one length in structs; its name is the long one's without multiway_ and _join, and listing for list_events; price and
   prices are those of price_at and prices_at. */

/* The prices at some points. */
typedef struct {
    int64_t *value;    /* 0 where there is none */
    uint8_t *presence; /* 1 where there is a price, else 0 */
    size_t room;       /* the length of each column */
} guineatwirl_prices;

/* -- seats -- */

/* One range of a list with its value. An array of them takes 12 bytes for each. */
typedef struct {
    uint32_t start;
    uint32_t end;
    int32_t value;
} guineatwirl_seat_tariff;

/* Checks one list as it is typed, before any join: GUINEATWIRL_DONE, or what is wrong with its first faulty range, whose place is the
   number. The list may have any length; more than GUINEATWIRL_MAX_RANGES ranges cannot be joined. */
uint8_t guineatwirl_seat_check_list(const guineatwirl_seat_tariff *list, size_t list_len, uint64_t *number);

typedef struct {
    const uint32_t *starts;
    const uint32_t *ends;
    const int32_t *values;
    size_t ranges; /* the length of starts, ends and values */
    const uint32_t *counts;
    size_t lists; /* the length of counts */
} guineatwirl_seat_lists;

typedef struct {
    uint8_t *kind;
    uint32_t *point;
    uint8_t *list; /* from 0 */
    int32_t *value;
    size_t room; /* the length of each column */
} guineatwirl_seat_events;

typedef struct {
    uint32_t *start;
    uint32_t *end;
    int32_t *left;
    int32_t *right;
    uint8_t *presence;
    size_t room; /* the length of each column */
} guineatwirl_seat_sides;

typedef struct {
    uint32_t *start;
    uint32_t *end;
    int64_t *value;
    size_t room; /* the length of each column */
} guineatwirl_seat_pieces;

/* The starts and ends of all ranges in ascending order; at one point starts before ends, then the lower list first. */
uint8_t guineatwirl_seat_list_events(
    const uint32_t *starts, size_t starts_len, const uint32_t *ends, size_t ends_len,
    const int32_t *values, size_t values_len, const uint32_t *counts, size_t counts_len,
    uint8_t *out_kind, size_t out_kind_len, uint32_t *out_point, size_t out_point_len,
    uint8_t *out_list, size_t out_list_len, int32_t *out_value, size_t out_value_len,
    uint64_t *number);

static inline uint8_t guineatwirl_seat_listing(
    const guineatwirl_seat_lists *in, const guineatwirl_seat_events *out, uint64_t *number) {
    return guineatwirl_seat_list_events(
        in->starts, in->ranges, in->ends, in->ranges, in->values, in->ranges, in->counts, in->lists,
        out->kind, out->room, out->point, out->room, out->list, out->room, out->value, out->room, number);
}

/* A piece for every range of list 0 (left) and range of list 1 (right) that share a point: what they share. */
uint8_t guineatwirl_seat_two_way_inner_join(
    const uint32_t *starts, size_t starts_len, const uint32_t *ends, size_t ends_len,
    const int32_t *values, size_t values_len, const uint32_t *counts, size_t counts_len,
    uint32_t *out_start, size_t out_start_len, uint32_t *out_end, size_t out_end_len,
    int32_t *out_left, size_t out_left_len, int32_t *out_right, size_t out_right_len,
    uint8_t *out_presence, size_t out_presence_len, uint64_t *number);

static inline uint8_t guineatwirl_seat_two_way_inner(
    const guineatwirl_seat_lists *in, const guineatwirl_seat_sides *out, uint64_t *number) {
    return guineatwirl_seat_two_way_inner_join(
        in->starts, in->ranges, in->ends, in->ranges, in->values, in->ranges, in->counts, in->lists,
        out->start, out->room, out->end, out->room, out->left, out->room, out->right, out->room, out->presence, out->room, number);
}

/* The pieces that the left covers, cut wherever the range of either side changes. */
uint8_t guineatwirl_seat_two_way_left_join(
    const uint32_t *starts, size_t starts_len, const uint32_t *ends, size_t ends_len,
    const int32_t *values, size_t values_len, const uint32_t *counts, size_t counts_len,
    uint32_t *out_start, size_t out_start_len, uint32_t *out_end, size_t out_end_len,
    int32_t *out_left, size_t out_left_len, int32_t *out_right, size_t out_right_len,
    uint8_t *out_presence, size_t out_presence_len, uint64_t *number);

static inline uint8_t guineatwirl_seat_two_way_left(
    const guineatwirl_seat_lists *in, const guineatwirl_seat_sides *out, uint64_t *number) {
    return guineatwirl_seat_two_way_left_join(
        in->starts, in->ranges, in->ends, in->ranges, in->values, in->ranges, in->counts, in->lists,
        out->start, out->room, out->end, out->room, out->left, out->room, out->right, out->room, out->presence, out->room, number);
}

/* The pieces that at least one side covers, cut wherever the range of either side changes. */
uint8_t guineatwirl_seat_two_way_full_join(
    const uint32_t *starts, size_t starts_len, const uint32_t *ends, size_t ends_len,
    const int32_t *values, size_t values_len, const uint32_t *counts, size_t counts_len,
    uint32_t *out_start, size_t out_start_len, uint32_t *out_end, size_t out_end_len,
    int32_t *out_left, size_t out_left_len, int32_t *out_right, size_t out_right_len,
    uint8_t *out_presence, size_t out_presence_len, uint64_t *number);

static inline uint8_t guineatwirl_seat_two_way_full(
    const guineatwirl_seat_lists *in, const guineatwirl_seat_sides *out, uint64_t *number) {
    return guineatwirl_seat_two_way_full_join(
        in->starts, in->ranges, in->ends, in->ranges, in->values, in->ranges, in->counts, in->lists,
        out->start, out->room, out->end, out->room, out->left, out->room, out->right, out->room, out->presence, out->room, number);
}

/* The points of every list, with their values combined; over no lists all points. Pieces that touch with one value are one. */
uint8_t guineatwirl_seat_multiway_inner_join(
    uint8_t combiner,
    const uint32_t *starts, size_t starts_len, const uint32_t *ends, size_t ends_len,
    const int32_t *values, size_t values_len, const uint32_t *counts, size_t counts_len,
    uint32_t *out_start, size_t out_start_len, uint32_t *out_end, size_t out_end_len,
    int64_t *out_value, size_t out_value_len, uint64_t *number);

static inline uint8_t guineatwirl_seat_inner(
    uint8_t combiner, const guineatwirl_seat_lists *in, const guineatwirl_seat_pieces *out, uint64_t *number) {
    return guineatwirl_seat_multiway_inner_join(
        combiner, in->starts, in->ranges, in->ends, in->ranges, in->values, in->ranges, in->counts, in->lists,
        out->start, out->room, out->end, out->room, out->value, out->room, number);
}

/* The points of at least one list, with the values present combined. Pieces that touch with one value are one. */
uint8_t guineatwirl_seat_multiway_full_join(
    uint8_t combiner,
    const uint32_t *starts, size_t starts_len, const uint32_t *ends, size_t ends_len,
    const int32_t *values, size_t values_len, const uint32_t *counts, size_t counts_len,
    uint32_t *out_start, size_t out_start_len, uint32_t *out_end, size_t out_end_len,
    int64_t *out_value, size_t out_value_len, uint64_t *number);

static inline uint8_t guineatwirl_seat_full(
    uint8_t combiner, const guineatwirl_seat_lists *in, const guineatwirl_seat_pieces *out, uint64_t *number) {
    return guineatwirl_seat_multiway_full_join(
        combiner, in->starts, in->ranges, in->ends, in->ranges, in->values, in->ranges, in->counts, in->lists,
        out->start, out->room, out->end, out->room, out->value, out->room, number);
}

/* The points of at least one list, with the value of the last list that has them. Pieces that touch with one value are one. */
uint8_t guineatwirl_seat_multiway_union(
    const uint32_t *starts, size_t starts_len, const uint32_t *ends, size_t ends_len,
    const int32_t *values, size_t values_len, const uint32_t *counts, size_t counts_len,
    uint32_t *out_start, size_t out_start_len, uint32_t *out_end, size_t out_end_len,
    int64_t *out_value, size_t out_value_len, uint64_t *number);

static inline uint8_t guineatwirl_seat_union(
    const guineatwirl_seat_lists *in, const guineatwirl_seat_pieces *out, uint64_t *number) {
    return guineatwirl_seat_multiway_union(
        in->starts, in->ranges, in->ends, in->ranges, in->values, in->ranges, in->counts, in->lists,
        out->start, out->room, out->end, out->room, out->value, out->room, number);
}

/* The same for the points of an odd number of lists. */
uint8_t guineatwirl_seat_multiway_symmetric_difference(
    const uint32_t *starts, size_t starts_len, const uint32_t *ends, size_t ends_len,
    const int32_t *values, size_t values_len, const uint32_t *counts, size_t counts_len,
    uint32_t *out_start, size_t out_start_len, uint32_t *out_end, size_t out_end_len,
    int64_t *out_value, size_t out_value_len, uint64_t *number);

static inline uint8_t guineatwirl_seat_symmetric_difference(
    const guineatwirl_seat_lists *in, const guineatwirl_seat_pieces *out, uint64_t *number) {
    return guineatwirl_seat_multiway_symmetric_difference(
        in->starts, in->ranges, in->ends, in->ranges, in->values, in->ranges, in->counts, in->lists,
        out->start, out->room, out->end, out->room, out->value, out->room, number);
}

/* The price at a point: 1 comes back and *price is the value of the piece that has it, or 0 and *price is 0 where none does. The first
   places of the columns are read, pieces of them or as many as all columns have. The piece is found by halving, and from 16
   pieces on by counting at the end; where pieces do not ascend, the search goes on all the same, and the piece is that where it ends. */
uint8_t guineatwirl_seat_price_at(
    const uint32_t *start, size_t start_len, const uint32_t *end, size_t end_len, const int64_t *value, size_t value_len,
    size_t pieces, uint32_t point, int64_t *price);

static inline uint8_t guineatwirl_seat_price(const guineatwirl_seat_pieces *in, size_t pieces, uint32_t point, int64_t *price) {
    return guineatwirl_seat_price_at(in->start, in->room, in->end, in->room, in->value, in->room, pieces, point, price);
}

/* The prices at some points, a row for each. GUINEATWIRL_DONE, or GUINEATWIRL_NO_ROOM where an output column is shorter than points;
   the number is that of the points. */
uint8_t guineatwirl_seat_prices_at(
    const uint32_t *start, size_t start_len, const uint32_t *end, size_t end_len, const int64_t *value, size_t value_len,
    size_t pieces, const uint32_t *points, size_t points_len,
    int64_t *out_value, size_t out_value_len, uint8_t *out_presence, size_t out_presence_len, uint64_t *number);

static inline uint8_t guineatwirl_seat_prices(
    const guineatwirl_seat_pieces *in, size_t pieces, const uint32_t *points, size_t points_len, const guineatwirl_prices *out,
    uint64_t *number) {
    return guineatwirl_seat_prices_at(
        in->start, in->room, in->end, in->room, in->value, in->room, pieces, points, points_len,
        out->value, out->room, out->presence, out->room, number);
}

/* -- instants -- */

/* One range of a list with its value. An array of them takes 24 bytes for each. */
typedef struct {
    int64_t start;
    int64_t end;
    int32_t value;
} guineatwirl_instant_tariff;

/* Checks one list as it is typed, before any join: GUINEATWIRL_DONE, or what is wrong with its first faulty range, whose place is the
   number. The list may have any length; more than GUINEATWIRL_MAX_RANGES ranges cannot be joined. */
uint8_t guineatwirl_instant_check_list(const guineatwirl_instant_tariff *list, size_t list_len, uint64_t *number);

typedef struct {
    const int64_t *starts;
    const int64_t *ends;
    const int32_t *values;
    size_t ranges; /* the length of starts, ends and values */
    const uint32_t *counts;
    size_t lists; /* the length of counts */
} guineatwirl_instant_lists;

typedef struct {
    uint8_t *kind;
    int64_t *point;
    uint8_t *list; /* from 0 */
    int32_t *value;
    size_t room; /* the length of each column */
} guineatwirl_instant_events;

typedef struct {
    int64_t *start;
    int64_t *end;
    int32_t *left;
    int32_t *right;
    uint8_t *presence;
    size_t room; /* the length of each column */
} guineatwirl_instant_sides;

typedef struct {
    int64_t *start;
    int64_t *end;
    int64_t *value;
    size_t room; /* the length of each column */
} guineatwirl_instant_pieces;

/* The starts and ends of all ranges in ascending order; at one point starts before ends, then the lower list first. */
uint8_t guineatwirl_instant_list_events(
    const int64_t *starts, size_t starts_len, const int64_t *ends, size_t ends_len,
    const int32_t *values, size_t values_len, const uint32_t *counts, size_t counts_len,
    uint8_t *out_kind, size_t out_kind_len, int64_t *out_point, size_t out_point_len,
    uint8_t *out_list, size_t out_list_len, int32_t *out_value, size_t out_value_len,
    uint64_t *number);

static inline uint8_t guineatwirl_instant_listing(
    const guineatwirl_instant_lists *in, const guineatwirl_instant_events *out, uint64_t *number) {
    return guineatwirl_instant_list_events(
        in->starts, in->ranges, in->ends, in->ranges, in->values, in->ranges, in->counts, in->lists,
        out->kind, out->room, out->point, out->room, out->list, out->room, out->value, out->room, number);
}

/* A piece for every range of list 0 (left) and range of list 1 (right) that share a point: what they share. */
uint8_t guineatwirl_instant_two_way_inner_join(
    const int64_t *starts, size_t starts_len, const int64_t *ends, size_t ends_len,
    const int32_t *values, size_t values_len, const uint32_t *counts, size_t counts_len,
    int64_t *out_start, size_t out_start_len, int64_t *out_end, size_t out_end_len,
    int32_t *out_left, size_t out_left_len, int32_t *out_right, size_t out_right_len,
    uint8_t *out_presence, size_t out_presence_len, uint64_t *number);

static inline uint8_t guineatwirl_instant_two_way_inner(
    const guineatwirl_instant_lists *in, const guineatwirl_instant_sides *out, uint64_t *number) {
    return guineatwirl_instant_two_way_inner_join(
        in->starts, in->ranges, in->ends, in->ranges, in->values, in->ranges, in->counts, in->lists,
        out->start, out->room, out->end, out->room, out->left, out->room, out->right, out->room, out->presence, out->room, number);
}

/* The pieces that the left covers, cut wherever the range of either side changes. */
uint8_t guineatwirl_instant_two_way_left_join(
    const int64_t *starts, size_t starts_len, const int64_t *ends, size_t ends_len,
    const int32_t *values, size_t values_len, const uint32_t *counts, size_t counts_len,
    int64_t *out_start, size_t out_start_len, int64_t *out_end, size_t out_end_len,
    int32_t *out_left, size_t out_left_len, int32_t *out_right, size_t out_right_len,
    uint8_t *out_presence, size_t out_presence_len, uint64_t *number);

static inline uint8_t guineatwirl_instant_two_way_left(
    const guineatwirl_instant_lists *in, const guineatwirl_instant_sides *out, uint64_t *number) {
    return guineatwirl_instant_two_way_left_join(
        in->starts, in->ranges, in->ends, in->ranges, in->values, in->ranges, in->counts, in->lists,
        out->start, out->room, out->end, out->room, out->left, out->room, out->right, out->room, out->presence, out->room, number);
}

/* The pieces that at least one side covers, cut wherever the range of either side changes. */
uint8_t guineatwirl_instant_two_way_full_join(
    const int64_t *starts, size_t starts_len, const int64_t *ends, size_t ends_len,
    const int32_t *values, size_t values_len, const uint32_t *counts, size_t counts_len,
    int64_t *out_start, size_t out_start_len, int64_t *out_end, size_t out_end_len,
    int32_t *out_left, size_t out_left_len, int32_t *out_right, size_t out_right_len,
    uint8_t *out_presence, size_t out_presence_len, uint64_t *number);

static inline uint8_t guineatwirl_instant_two_way_full(
    const guineatwirl_instant_lists *in, const guineatwirl_instant_sides *out, uint64_t *number) {
    return guineatwirl_instant_two_way_full_join(
        in->starts, in->ranges, in->ends, in->ranges, in->values, in->ranges, in->counts, in->lists,
        out->start, out->room, out->end, out->room, out->left, out->room, out->right, out->room, out->presence, out->room, number);
}

/* The points of every list, with their values combined; over no lists all points. Pieces that touch with one value are one. */
uint8_t guineatwirl_instant_multiway_inner_join(
    uint8_t combiner,
    const int64_t *starts, size_t starts_len, const int64_t *ends, size_t ends_len,
    const int32_t *values, size_t values_len, const uint32_t *counts, size_t counts_len,
    int64_t *out_start, size_t out_start_len, int64_t *out_end, size_t out_end_len,
    int64_t *out_value, size_t out_value_len, uint64_t *number);

static inline uint8_t guineatwirl_instant_inner(
    uint8_t combiner, const guineatwirl_instant_lists *in, const guineatwirl_instant_pieces *out, uint64_t *number) {
    return guineatwirl_instant_multiway_inner_join(
        combiner, in->starts, in->ranges, in->ends, in->ranges, in->values, in->ranges, in->counts, in->lists,
        out->start, out->room, out->end, out->room, out->value, out->room, number);
}

/* The points of at least one list, with the values present combined. Pieces that touch with one value are one. */
uint8_t guineatwirl_instant_multiway_full_join(
    uint8_t combiner,
    const int64_t *starts, size_t starts_len, const int64_t *ends, size_t ends_len,
    const int32_t *values, size_t values_len, const uint32_t *counts, size_t counts_len,
    int64_t *out_start, size_t out_start_len, int64_t *out_end, size_t out_end_len,
    int64_t *out_value, size_t out_value_len, uint64_t *number);

static inline uint8_t guineatwirl_instant_full(
    uint8_t combiner, const guineatwirl_instant_lists *in, const guineatwirl_instant_pieces *out, uint64_t *number) {
    return guineatwirl_instant_multiway_full_join(
        combiner, in->starts, in->ranges, in->ends, in->ranges, in->values, in->ranges, in->counts, in->lists,
        out->start, out->room, out->end, out->room, out->value, out->room, number);
}

/* The points of at least one list, with the value of the last list that has them. Pieces that touch with one value are one. */
uint8_t guineatwirl_instant_multiway_union(
    const int64_t *starts, size_t starts_len, const int64_t *ends, size_t ends_len,
    const int32_t *values, size_t values_len, const uint32_t *counts, size_t counts_len,
    int64_t *out_start, size_t out_start_len, int64_t *out_end, size_t out_end_len,
    int64_t *out_value, size_t out_value_len, uint64_t *number);

static inline uint8_t guineatwirl_instant_union(
    const guineatwirl_instant_lists *in, const guineatwirl_instant_pieces *out, uint64_t *number) {
    return guineatwirl_instant_multiway_union(
        in->starts, in->ranges, in->ends, in->ranges, in->values, in->ranges, in->counts, in->lists,
        out->start, out->room, out->end, out->room, out->value, out->room, number);
}

/* The same for the points of an odd number of lists. */
uint8_t guineatwirl_instant_multiway_symmetric_difference(
    const int64_t *starts, size_t starts_len, const int64_t *ends, size_t ends_len,
    const int32_t *values, size_t values_len, const uint32_t *counts, size_t counts_len,
    int64_t *out_start, size_t out_start_len, int64_t *out_end, size_t out_end_len,
    int64_t *out_value, size_t out_value_len, uint64_t *number);

static inline uint8_t guineatwirl_instant_symmetric_difference(
    const guineatwirl_instant_lists *in, const guineatwirl_instant_pieces *out, uint64_t *number) {
    return guineatwirl_instant_multiway_symmetric_difference(
        in->starts, in->ranges, in->ends, in->ranges, in->values, in->ranges, in->counts, in->lists,
        out->start, out->room, out->end, out->room, out->value, out->room, number);
}

/* The price at a point: 1 comes back and *price is the value of the piece that has it, or 0 and *price is 0 where none does. The first
   places of the columns are read, pieces of them or as many as all columns have. The piece is found by halving, and from 16
   pieces on by counting at the end; where pieces do not ascend, the search goes on all the same, and the piece is that where it ends. */
uint8_t guineatwirl_instant_price_at(
    const int64_t *start, size_t start_len, const int64_t *end, size_t end_len, const int64_t *value, size_t value_len,
    size_t pieces, int64_t point, int64_t *price);

static inline uint8_t guineatwirl_instant_price(const guineatwirl_instant_pieces *in, size_t pieces, int64_t point, int64_t *price) {
    return guineatwirl_instant_price_at(in->start, in->room, in->end, in->room, in->value, in->room, pieces, point, price);
}

/* The prices at some points, a row for each. GUINEATWIRL_DONE, or GUINEATWIRL_NO_ROOM where an output column is shorter than points;
   the number is that of the points. */
uint8_t guineatwirl_instant_prices_at(
    const int64_t *start, size_t start_len, const int64_t *end, size_t end_len, const int64_t *value, size_t value_len,
    size_t pieces, const int64_t *points, size_t points_len,
    int64_t *out_value, size_t out_value_len, uint8_t *out_presence, size_t out_presence_len, uint64_t *number);

static inline uint8_t guineatwirl_instant_prices(
    const guineatwirl_instant_pieces *in, size_t pieces, const int64_t *points, size_t points_len, const guineatwirl_prices *out,
    uint64_t *number) {
    return guineatwirl_instant_prices_at(
        in->start, in->room, in->end, in->room, in->value, in->room, pieces, points, points_len,
        out->value, out->room, out->presence, out->room, number);
}

/* -- the tariff file -- */

/* Joins a tariff file, as docs/FILE.md of the library's repository describes it: any bytes in, the printed text at the front of the
   buffer, and its length back. What is wrong with a file is said in the text. Where the text does not fit, 0 comes back and the buffer
   is untouched; GUINEATWIRL_MAX_TEXT bytes are always enough. The two must not overlap; either may be NULL where its length is 0. */
size_t guineatwirl_join_file(const uint8_t *file, size_t file_len, uint8_t *text, size_t text_len);

#ifdef __cplusplus
}
#endif

#endif
