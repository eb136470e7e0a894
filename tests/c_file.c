/* The tariff file from C: the text of a file in buffers of every length, files that are refused, and the stack that a call takes. */
#define _XOPEN_SOURCE 600
#include <guineatwirl.h>
#include <pthread.h>
#include <stdio.h>
#include <stdlib.h>
#include <string.h>

#define STACK ((size_t)1 << 20)
#define DEEP ((size_t)3 << 18) /* how far down is painted */
#define OWN 512                /* what the painter may use itself */
#define PAINT 0x5A

static const uint8_t file[58] = {
    0x4A, 0x48, 5, 1, 0, 2,
    0x4A, 0x4C, 0, 1, 0x4A, 0x52, 0, 0, 0, 0, 0, 0, 0, 1, 0, 0, 0, 0, 0, 0, 0, 5, 0, 0, 0, 100,
    0x4A, 0x4C, 0, 1, 0x4A, 0x52, 0, 0, 0, 0, 0, 0, 0, 5, 0, 0, 0, 0, 0, 0, 0, 9, 0, 0, 0, 20,
};
static const char joined[] = "join 5 1 2 3\n1 4 100\n5 5 120\n6 9 20\n";

static uint8_t large[GUINEATWIRL_MAX_FILE + 1];
static uint8_t text[GUINEATWIRL_MAX_TEXT];
static volatile unsigned char *stack;
static int failed = 0;

static void expect(int holds, const char *what) {
    if (holds) return;
    printf("c_file: %s\n", what);
    failed = 1;
}

static void says(const uint8_t *bytes, size_t length, const char *want, const char *what) {
    size_t n = guineatwirl_join_file(bytes, length, text, sizeof text);
    expect(n == strlen(want) && memcmp(text, want, n) == 0, what);
}

/* Each length of the buffer: all of the text, or nothing and 0; what is behind it stays. */
static void every_length(void) {
    size_t whole = strlen(joined);
    uint8_t buffer[64], before[64];
    memset(before, 0xA5, sizeof before);
    for (size_t room = 0; room <= whole + 1; room++) {
        memcpy(buffer, before, sizeof buffer);
        size_t n = guineatwirl_join_file(file, sizeof file, buffer, room);
        size_t written = room < whole ? 0 : whole;
        expect(n == written, "the length of the text is not answered");
        expect(memcmp(buffer, joined, written) == 0, "the text is not at the front of the buffer");
        expect(memcmp(buffer + written, before, sizeof buffer - written) == 0, "a byte behind the text is touched");
    }
    expect(guineatwirl_join_file(file, sizeof file, NULL, 0) == 0, "a buffer of length 0 may be NULL");
}

static void put(uint8_t *at, uint64_t number, int bytes) {
    for (int i = bytes - 1; i >= 0; i--, number >>= 8) at[i] = (uint8_t)number;
}

/* A file of 2,048 ranges in so many lists, each list a step after the one before it. */
static size_t longest(uint8_t operation, uint8_t combiner, uint32_t lists) {
    uint8_t *at = large;
    memcpy(at, "JH", 2);
    put(at + 2, operation, 1);
    put(at + 3, combiner, 1);
    put(at + 4, lists, 2);
    at += 6;
    for (uint32_t l = 0; l < lists; l++) {
        uint32_t each = GUINEATWIRL_MAX_RANGES / lists;
        memcpy(at, "JL", 2);
        put(at + 2, each, 2);
        at += 4;
        for (uint32_t i = 0; i < each; i++, at += 22) {
            memcpy(at, "JR", 2);
            put(at + 2, 40u * i + l, 8);
            put(at + 10, 40u * i + l + 20u, 8);
            put(at + 18, (uint32_t)-(int32_t)(i + l), 4);
        }
    }
    return (size_t)(at - large);
}

static size_t depth(size_t length) {
    volatile unsigned char here = 0;
    size_t mark = (size_t)((uintptr_t)&here - (uintptr_t)stack), place;
    for (place = mark - DEEP; place < mark - OWN; place++) stack[place] = PAINT;
    size_t n = guineatwirl_join_file(large, length, text, sizeof text);
    expect(n > 5 && memcmp(text, "join ", 5) == 0, "a file of 2,048 ranges is not joined");
    for (place = mark - DEEP; place < mark - OWN && stack[place] == PAINT; place++) {}
    return mark - place;
}

static void *measure(void *unused) {
    size_t deepest = 0;
    for (uint8_t operation = 1; operation <= 7; operation++) {
        size_t length = longest(operation, operation == 4 || operation == 5, operation < 4 ? 2 : 16);
        size_t taken = depth(length);
        if (deepest < taken) deepest = taken;
    }
    printf("join_file: %u bytes of stack, bound %u\n", (unsigned)deepest, (unsigned)GUINEATWIRL_STACK_FILE);
    expect(deepest <= GUINEATWIRL_STACK_FILE && OWN < deepest, "a call takes more stack than the header says");
    return unused;
}

int main(void) {
    void *buffer;
    pthread_attr_t attributes;
    pthread_t thread;
    every_length();
    says(file, sizeof file, joined, "the example is not joined");
    says(NULL, 0, "refused 11 0\n", "a file of no bytes is not cut short");
    says(file, 57, "refused 11 36\n", "a file is not cut short at its last record");
    says(large, sizeof large, "refused 9 45126\n", "a file that is too long is not refused");
    says(large, sizeof large - 1, "refused 10 0\n", "a wrong mark is not refused");
    if (posix_memalign(&buffer, 1 << 16, STACK) != 0) return 1;
    stack = (volatile unsigned char *)buffer;
    if (pthread_attr_init(&attributes) != 0 || pthread_attr_setstack(&attributes, buffer, STACK) != 0) return 1;
    if (pthread_create(&thread, &attributes, measure, NULL) != 0 || pthread_join(thread, NULL) != 0) return 1;
    free(buffer);
    return failed;
}
