/*
 * Measures the stack that the calls take: each runs on a stack of its own that was filled with one byte, and what is no
 * longer that byte was used. Prints the most of each group of calls, in the header's order. Arguments: files of models.
 */
#define _GNU_SOURCE
#include <stdio.h>
#include <stdlib.h>
#include <string.h>
#include <ucontext.h>

#include "scionwheel.h"

enum { STACK = 1 << 20, CLEAN = 0xA5, CLOCKS = 6, WORDS = SCIONWHEEL_RESULT(CLOCKS) };
enum { NOTHING, CONTAINS, INCLUDED, INTERSECT, DELAY, RESET, HULL, WALK, PRINT, REWRITE };

static uint8_t *stack;
static ucontext_t here, there;
static int call;
static int32_t list[WORDS], second[WORDS], half[2 * (CLOCKS + 1)], point[CLOCKS], out[WORDS], area[SCIONWHEEL_AREA];
static uint8_t model[SCIONWHEEL_LONGEST], bytes[SCIONWHEEL_LONGEST], text[SCIONWHEEL_TEXT];
static size_t length;
static uint64_t counts[3];

static void run(void) {
    switch (call) {
    case CONTAINS: scionwheel_contains(CLOCKS, list, WORDS, point, CLOCKS); break;
    case INCLUDED: scionwheel_included(CLOCKS, list, WORDS, second, WORDS); break;
    case INTERSECT: scionwheel_intersect(CLOCKS, list, WORDS, half, 2 * (CLOCKS + 1), out, WORDS); break;
    case DELAY: scionwheel_delay(CLOCKS, list, WORDS, out, WORDS); break;
    case RESET: scionwheel_reset(CLOCKS, list, WORDS, 0, 5, out, WORDS); break;
    case HULL: scionwheel_hull(CLOCKS, list, WORDS, second, WORDS, out, WORDS); break;
    case WALK: scionwheel_walk(model, length, area, SCIONWHEEL_AREA, counts); break;
    case PRINT: scionwheel_print(model, length, area, SCIONWHEEL_AREA, text); break;
    case REWRITE: scionwheel_rewrite(model, length, bytes, length - 1); break; /* by way of a local area */
    }
}

/* The bytes of stack that a call changes. */
static size_t used(int which) {
    size_t clean = 0;
    call = which;
    memset(stack, CLEAN, STACK);
    getcontext(&there);
    there.uc_stack.ss_sp = stack;
    there.uc_stack.ss_size = STACK;
    there.uc_link = &here;
    makecontext(&there, run, 0);
    swapcontext(&here, &there);
    while (clean < STACK && stack[clean] == CLEAN) clean++;
    return STACK - clean;
}

/* The most of these calls, without what it takes to call nothing. */
static size_t most(int first, int last) {
    size_t nothing = used(NOTHING), greatest = 0;
    for (int which = first; which <= last; which++) {
        size_t now = used(which) - nothing;
        if (greatest < now) greatest = now;
    }
    return greatest;
}

int main(int count, char **files) {
    size_t walk = 0, rewrite = 0;
    stack = malloc(STACK);
    for (int i = 0; i < WORDS; i++) {
        int clock = i % (CLOCKS + 1), vector = i / (CLOCKS + 1);
        list[i] = clock < CLOCKS ? (vector * 7 + clock * 13) % 50 : vector % 2 ? SCIONWHEEL_MARK : 0;
        second[i] = clock < CLOCKS ? (vector * 11 + clock * 5) % 60 : list[i];
    }
    for (int i = 0; i < 2 * (CLOCKS + 1); i++) half[i] = i * 17 % 23;
    printf("%zu\n%zu\n", most(CONTAINS, INCLUDED), most(INTERSECT, HULL));
    for (int i = 1; i < count; i++) {
        FILE *file = fopen(files[i], "rb");
        if (!file) return 1;
        length = fread(model, 1, sizeof model, file);
        fclose(file);
        size_t now = most(WALK, PRINT);
        if (walk < now) walk = now;
        now = most(REWRITE, REWRITE);
        if (rewrite < now) rewrite = now;
    }
    printf("%zu\n%zu\n", walk, rewrite);
    return 0;
}
