/* What a house sells its seats for: base price, demand step and booking fee joined into one list; and its own prices over those of the
   group. */
#include <guineatwirl.h>
#include <stdio.h>

#define ROOM 16

static uint32_t start[ROOM], end[ROOM];
static int64_t pence[ROOM];
static const guineatwirl_seat_pieces pieces = {start, end, pence, ROOM};

static void print(const char *title, uint8_t code, uint64_t number) {
    if (code == GUINEATWIRL_BACKWARD || code == GUINEATWIRL_OVERLAP) {
        printf("%s: refused, %s: range %llu\n", title, guineatwirl_words(code), (unsigned long long)number);
        return;
    }
    if (code != GUINEATWIRL_DONE) {
        printf("%s: refused, %s\n", title, guineatwirl_words(code));
        return;
    }
    printf("%s: %llu ranges\n", title, (unsigned long long)number);
    for (uint64_t i = 0; i < number; i++) {
        printf("  seats %u to %u: %lld pence\n", (unsigned)start[i], (unsigned)end[i], (long long)pence[i]);
    }
}

static void join(const char *title, const uint32_t *starts, const uint32_t *ends, const int32_t *values) {
    /* The lists lie end to end: two ranges of base prices, one of the demand step, one of the booking fee. */
    static const uint32_t counts[] = {2, 1, 1};
    const guineatwirl_seat_lists lists = {starts, ends, values, 4, counts, 3};
    uint64_t number;
    uint8_t code = guineatwirl_seat_full(GUINEATWIRL_SUM, &lists, &pieces, &number);
    print(title, code, number);
}

/* The prices of the house over those of the group: where both have one, the list that comes later has its way. */
static void select_own(void) {
    static const uint32_t counts[] = {2, 2};
    static const uint32_t starts[] = {1, 101, 21, 171};
    static const uint32_t ends[] = {100, 180, 40, 190};
    static const int32_t values[] = {4500, 3000, 4200, 2500};
    const guineatwirl_seat_lists lists = {starts, ends, values, 4, counts, 2};
    uint64_t number;
    uint8_t code = guineatwirl_seat_union(&lists, &pieces, &number);
    print("own prices over the group's", code, number);
}

int main(void) {
    const uint32_t starts[] = {1, 101, 1, 1};
    const uint32_t ends[] = {100, 180, 20, 180};
    const int32_t values[] = {4500, 3000, 750, 250};
    join("prices", starts, ends, values);

    /* The circle is typed from seat 100 on, which the stalls have already: the range at place 1 overlaps. */
    const uint32_t typed[] = {1, 100, 1, 1};
    join("mistyped", typed, ends, values);

    select_own();
    return 0;
}
