#include <guineatwirl.h>
#include <stdio.h>
int main(void) {
    /* Two lists: seats 1 to 100 cost 4500 pence, and seats 1 to 20 are 750 dearer. */
    uint32_t starts[] = {1, 1}, ends[] = {100, 20}, counts[] = {1, 1}, start[3], end[3];
    int32_t values[] = {4500, 750};
    int64_t pence[3];
    guineatwirl_seat_lists lists = {starts, ends, values, 2, counts, 2};
    guineatwirl_seat_pieces pieces = {start, end, pence, 3};
    uint64_t number;
    uint8_t code = guineatwirl_seat_full(GUINEATWIRL_SUM, &lists, &pieces, &number);
    if (code != GUINEATWIRL_DONE) { puts(guineatwirl_words(code)); return 1; }
    for (uint64_t i = 0; i < number; i++) printf("%u to %u: %lld\n", (unsigned)start[i], (unsigned)end[i], (long long)pence[i]);
    return 0;
}
