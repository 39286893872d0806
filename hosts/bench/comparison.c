/* The stack that one comparison of labels takes: the stack below is painted, the comparison is made, and the paint that is
   gone is counted, less what an empty function takes in its place. Prints a line for each comparison. */
#include <inttypes.h>
#include <stdint.h>
#include <stdio.h>

uint64_t fwc_may_write(const uint8_t *t, uint64_t t_len, const uint8_t *o, uint64_t o_len);
uint64_t fwc_floor_flows(const uint8_t *x, uint64_t x_len, const uint8_t *y, uint64_t y_len, const uint8_t *z,
                         uint64_t z_len);

#define NOT_INLINED __attribute__((noinline))

enum {
    WORDS = 8,
    LABEL = 1 + WORDS * 8,
    PAINTED = 65536,
    LEFT_ALONE = 1024, /* frames of the painting itself */
    APART = 2048,      /* so far below them the comparison is called */
    PAINT = 0xC3
};

/* Eight pairs, in a label that flows to itself: so every word of every label is walked. */
static uint8_t label[LABEL];
static volatile uint64_t answer;

static void fill(void) {
    label[0] = 2;
    for (int i = 0; i < WORDS; i++) label[1 + 8 * i] = (uint8_t)(8 * (i + 1) + 3);
}

static NOT_INLINED void paint(uintptr_t top) {
    for (uintptr_t at = top - PAINTED; at < top - LEFT_ALONE; at++) *(volatile uint8_t *)at = PAINT;
}

static NOT_INLINED uintptr_t lowest_gone(uintptr_t top) {
    uintptr_t at = top - PAINTED;
    while (at < top - LEFT_ALONE && *(volatile uint8_t *)at == PAINT) at++;
    return at;
}

static NOT_INLINED void call_below(void (*call)(void)) {
    volatile uint8_t apart[APART];
    apart[0] = 1;
    call();
    apart[APART - 1] = apart[0];
}

static NOT_INLINED uintptr_t below(void (*call)(void)) {
    volatile uint8_t here = 0;
    uintptr_t top = (uintptr_t)&here;
    paint(top);
    call_below(call);
    return top - lowest_gone(top);
}

static NOT_INLINED uint64_t empty(const uint8_t *bytes) {
    return bytes[0];
}

static void nothing(void) { answer = empty(label); }
static void may_write(void) { answer = fwc_may_write(label, LABEL, label, LABEL); }
static void floor_flows(void) { answer = fwc_floor_flows(label, LABEL, label, LABEL, label, LABEL); }

/* Prints the bytes, with the return address, which the empty function has too; 1 if the comparison did not hold. */
static int print(const char *name, void (*call)(void)) {
    uintptr_t bytes = below(call) - below(nothing) + sizeof(void *);
    printf("%s, alone: %" PRIuPTR " bytes of stack.\n", name, bytes);
    call();
    return answer != 1;
}

int main(void) {
    fill();
    return print("One comparison of two labels (may write)", may_write) |
           print("One of three (floor flows)", floor_flows);
}
