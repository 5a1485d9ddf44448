/* Asks, makes, walks, prints, and is refused once. bindings/run builds it and compares what it prints. */
#include "scionwheel.h"

#include <inttypes.h>
#include <stdio.h>

#define M SCIONWHEEL_MARK
#define WORDS(part) (sizeof(part) / sizeof((part)[0]))

/* Example 10 of docs/RULES.md. */
static const uint8_t MODEL[] = {
    0x02, 0x02, 0x02, 0x00, 0x01, 0x00, 0x00, 0x04, 0x01, 0x00, 0x01, 0x06, 0x00, 0x00, 0x01,
    0x01, 0x00, 0x02, 0x03, 0x00, 0x01, 0x00, 0x02, 0x01, 0x01, 0x01, 0x00, 0x0A, 0x08,
};

int main(void) {
    /* Points (0,0) and (5,0), the half-space clock 0 >= 2, the point (3,0). */
    const int32_t list[] = {0, 0, 0, 5, 0, 0};
    const int32_t half[] = {M, M, 2, 0, M, M};
    const int32_t point[] = {3, 0};
    int32_t out[SCIONWHEEL_RESULT(2)] = {0};
    printf("contains %" PRId64 "\n", scionwheel_contains(2, list, WORDS(list), point, WORDS(point)));
    int64_t count = scionwheel_intersect(2, list, WORDS(list), half, WORDS(half), out, WORDS(out));
    printf("intersect %" PRId64 ":", count);
    for (int64_t i = 0; i < 3 * count; i++) printf(" %" PRId32, out[i]);
    printf("\n");

    static int32_t area[SCIONWHEEL_AREA];
    uint64_t counts[3] = {0};
    int64_t verdict = scionwheel_walk(MODEL, sizeof MODEL, area, WORDS(area), counts);
    printf("walk %s: %" PRIu64 " %" PRIu64 " %" PRIu64 "\n", verdict == SCIONWHEEL_REACHED ? "reached" : "other",
           counts[0], counts[1], counts[2]);
    uint8_t text[SCIONWHEEL_TEXT] = {0};
    int64_t length = scionwheel_print(MODEL, sizeof MODEL, area, WORDS(area), text);
    fwrite(text, 1, (size_t)length, stdout);

    /* Without its last byte it is no model: a refusal, and the counts stay. */
    int64_t answer = scionwheel_walk(MODEL, sizeof MODEL - 1, area, WORDS(area), counts);
    printf("refused %s: %" PRIu64 " %" PRIu64 " %" PRIu64 "\n", answer == -SCIONWHEEL_BYTES ? "BYTES" : "otherwise",
           counts[0], counts[1], counts[2]);
    return 0;
}
