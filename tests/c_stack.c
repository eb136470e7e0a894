/* How deep each function goes into the stack, with 2,048 ranges in 16 lists, or 2 for two-way joins, or 1 for a check: no deeper than the
   header says.
   A thread gets a buffer as its stack. What is below the caller is painted; after the call the lowest place without paint tells. */
#define _XOPEN_SOURCE 600
#include "c_width.h"
#include <pthread.h>
#include <stdio.h>
#include <stdlib.h>

#define RANGES GUINEATWIRL_MAX_RANGES
#define ROOM GUINEATWIRL_MAX_EVENTS
#define STACK ((size_t)1 << 20)
#define PAINT 0x5A
#define OWN 256     /* the painter does not paint what it may use itself */
#define DEEP 16384  /* how far down it paints */

static volatile unsigned char *stack;
static point starts[RANGES], ends[RANGES];
static int32_t values[RANGES];
static uint32_t counts[GUINEATWIRL_MAX_LISTS];
static OF(tariff) tariffs[RANGES];
static OF(lists) in = {starts, ends, values, RANGES, counts, 0};

static point start[ROOM], end[ROOM];
static uint8_t kind[ROOM], list[ROOM];
static int32_t left[ROOM], right[ROOM];
static int64_t value[ROOM];
static OF(events) events = {kind, start, list, left, ROOM};
static OF(sides) sides = {start, end, left, right, kind, ROOM};
static OF(pieces) pieces = {start, end, value, ROOM};

static int64_t prices[RANGES];
static uint8_t there[RANGES];
static guineatwirl_prices priced = {prices, there, RANGES};

static uint8_t combiner;
static uint64_t number;

static uint8_t check_list(void) { return OF(check_list)(tariffs, RANGES, &number); }
static uint8_t listing(void) { return OF(listing)(&in, &events, &number); }
static uint8_t two_way_inner(void) { return OF(two_way_inner)(&in, &sides, &number); }
static uint8_t two_way_left(void) { return OF(two_way_left)(&in, &sides, &number); }
static uint8_t two_way_full(void) { return OF(two_way_full)(&in, &sides, &number); }
static uint8_t inner(void) { return OF(inner)(combiner, &in, &pieces, &number); }
static uint8_t full(void) { return OF(full)(combiner, &in, &pieces, &number); }
static uint8_t selected(void) { return OF(union)(&in, &pieces, &number); }
static uint8_t odd(void) { return OF(symmetric_difference)(&in, &pieces, &number); }
static uint8_t many_read(void) { return OF(prices)(&pieces, ROOM, starts, RANGES, &priced, &number); }
static uint8_t one_read(void) {
    OF(price)(&pieces, ROOM, starts[RANGES / 2], prices);
    return GUINEATWIRL_DONE;
}

static const struct {
    const char *name;
    uint8_t (*call)(void);
    uint32_t lists;
    size_t bound;
} functions[] = {
    {"check_list", check_list, 1, GUINEATWIRL_STACK_CHECK},
    {"listing", listing, 16, GUINEATWIRL_STACK_LISTING},
    {"two_way_inner", two_way_inner, 2, GUINEATWIRL_STACK_TWO_WAY},
    {"two_way_left", two_way_left, 2, GUINEATWIRL_STACK_TWO_WAY},
    {"two_way_full", two_way_full, 2, GUINEATWIRL_STACK_TWO_WAY},
    {"inner", inner, 16, GUINEATWIRL_STACK_MULTIWAY},
    {"full", full, 16, GUINEATWIRL_STACK_MULTIWAY},
    {"union", selected, 16, GUINEATWIRL_STACK_MULTIWAY},
    {"symmetric_difference", odd, 16, GUINEATWIRL_STACK_MULTIWAY},
    {"price", one_read, 16, GUINEATWIRL_STACK_PRICES},
    {"prices", many_read, 16, GUINEATWIRL_STACK_PRICES},
};

static int failed = 0;

/* Ranges of 3 points with gaps of 37; each list lies apart points before the one before it, so that events come in another order. */
static void lay(uint32_t lists, uint32_t apart) {
    uint32_t each = RANGES / lists;
    for (uint32_t l = 0; l < lists; l++) {
        counts[l] = each;
        for (uint32_t i = 0; i < each; i++) {
            starts[l * each + i] = (point)(1000 + 40 * i - apart * l);
            ends[l * each + i] = (point)(1002 + 40 * i - apart * l);
            values[l * each + i] = (int32_t)(i * 7 + l);
        }
    }
    for (uint32_t i = 0; lists == 1 && i < RANGES; i++) {
        tariffs[i].start = starts[i];
        tariffs[i].end = ends[i];
        tariffs[i].value = values[i];
    }
    in.lists = lists;
}

static size_t depth(uint8_t (*call)(void)) {
    volatile unsigned char here = 0;
    size_t mark = (size_t)((uintptr_t)&here - (uintptr_t)stack), place;
    for (place = mark - DEEP; place < mark - OWN; place++) stack[place] = PAINT;
    uint8_t code = call();
    if (code != GUINEATWIRL_DONE && code != GUINEATWIRL_NO_ROOM) {
        printf("c_stack: refused: %s\n", guineatwirl_words(code));
        failed = 1;
    }
    for (place = mark - DEEP; place < mark - OWN && stack[place] == PAINT; place++) {}
    return mark - place;
}

static void *measure(void *unused) {
    for (size_t f = 0; f < sizeof functions / sizeof functions[0]; f++) {
        size_t deepest = 0;
        for (uint32_t apart = 0; apart <= 3; apart++) {
            lay(functions[f].lists, apart);
            for (combiner = GUINEATWIRL_SUM; combiner <= GUINEATWIRL_MEAN; combiner++) {
                /* With room for all, and with so little that the pieces are counted. */
                for (size_t room = ROOM;; room = 0) {
                    events.room = sides.room = pieces.room = room;
                    size_t taken = depth(functions[f].call);
                    if (deepest < taken) deepest = taken;
                    if (room == 0) break;
                }
            }
        }
        printf("%s %s: %u bytes of stack, bound %u\n", WIDTH, functions[f].name, (unsigned)deepest, (unsigned)functions[f].bound);
        /* A call within OWN leaves all paint: its bound is OWN. */
        if (functions[f].bound < deepest || (deepest <= OWN && functions[f].bound > OWN)) failed = 1;
    }
    return unused;
}

int main(void) {
    void *buffer;
    pthread_attr_t attributes;
    pthread_t thread;
    if (posix_memalign(&buffer, 1 << 16, STACK) != 0) return 1;
    stack = (volatile unsigned char *)buffer;
    if (pthread_attr_init(&attributes) != 0 || pthread_attr_setstack(&attributes, buffer, STACK) != 0) return 1;
    if (pthread_create(&thread, &attributes, measure, NULL) != 0 || pthread_join(thread, NULL) != 0) return 1;
    free(buffer);
    return failed;
}
