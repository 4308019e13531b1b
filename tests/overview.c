/* The C side of the overview's boundary: the layout of every struct of include/overview.h, with the numbers of
 * bindings/overview/src/calls.rs, and its calls made from C beside some of include/psg.h, in one program that both
 * archives are linked into; with ALONE defined, its own calls in one of its own archive alone. The smallest file
 * (crates/listing/stdin) comes on standard input. bindings/overview/tests/boundary.rs compiles, links and runs it. */
#include "overview.h"
#ifndef ALONE
#include "psg.h"
#endif
#include <stdio.h>
#include <string.h>

#define SIZE(name, size) _Static_assert(sizeof(struct name) == size && _Alignof(struct name) == 8, #name);
#define AT(name, field, at) _Static_assert(offsetof(struct name, field) == at, #name "." #field);

_Static_assert(sizeof(size_t) == 8, "positions and lengths are of 64 bits");

SIZE(psg_overview, 40)
AT(psg_overview, refusal, 0)
AT(psg_overview, position, 8)
AT(psg_overview, smallest, 16)
AT(psg_overview, largest, 24)
AT(psg_overview, count, 32)

SIZE(psg_overview_counted, 24)
AT(psg_overview_counted, refusal, 0)
AT(psg_overview_counted, position, 8)
AT(psg_overview_counted, count, 16)

static int failed;

static void expect(int holds, const char *what) {
    if (!holds) {
        printf("not so: %s\n", what);
        failed = 1;
    }
}

#define EXPECT(condition) expect(condition, #condition)

static int is_refused(struct psg_overview answer, uint32_t number, uint64_t position) {
    return answer.refusal == number && answer.position == position && answer.smallest == 0 && answer.largest == 0 &&
           answer.count == 0;
}

static int holds(struct psg_overview answer, int64_t smallest, int64_t largest, uint64_t count) {
    return answer.refusal == 0 && answer.position == 0 && answer.smallest == smallest && answer.largest == largest &&
           answer.count == count;
}

/* One epoch of the one sample; whatever is outside; the file before all else. */
static void single(const uint8_t *file, size_t n) {
    EXPECT(holds(psg_overview(file, n, 1, 1, 0), 32767, 32767, 1));
    EXPECT(is_refused(psg_overview(file, n, 1, 1, 1), 19, 0));
    EXPECT(is_refused(psg_overview(file, n, 1, 1, SIZE_MAX), 19, 0));
    EXPECT(is_refused(psg_overview(file, n, 1, 2, 0), 19, 0));
    EXPECT(is_refused(psg_overview(file, n, SIZE_MAX, 1, 0), 19, 0));
    EXPECT(is_refused(psg_overview(file, n - 1, 9, 9, 9), 10, 32));
    EXPECT(is_refused(psg_overview(file, 0, 1, 1, 0), 1, 0));
}

static void put(uint8_t *file, size_t at, uint32_t number) {
    for (int i = 0; i < 4; i++) file[at + i] = number >> 8 * i & 255;
}

/* The smallest file with three frames of 45 seconds, a sample each by its period: 7, -8 and 9. Returns its length. */
static size_t three_frames(const uint8_t *small, size_t n, uint8_t *file) {
    const uint32_t numbers[][2] = {{32, 582}, {488, 110}, {72, 3}, {504, 45}, {512, 3}, {228, 1}, {240, 45000000}};
    const int16_t samples[] = {7, -8, 9};
    memcpy(file, small, 520);
    for (int i = 0; i < 3; i++) {
        uint8_t *frame = file + 520 + 26 * i;
        memcpy(frame, small + 520, 26);
        put(frame, 8, i + 1);
        frame[24] = samples[i] & 255;
        frame[25] = samples[i] >> 8 & 255;
    }
    memcpy(file + 598, small + 546, n - 546);
    for (size_t i = 0; i < sizeof numbers / sizeof *numbers; i++) put(file, numbers[i][0], numbers[i][1]);
    return n + 52;
}

/* Five epochs, of which the third and the last have no frame's start: one by one, and as ranges, answered and
   refused. */
static void ranges(const uint8_t *small, size_t n) {
    static uint8_t file[1024];
    const int64_t whole[] = {7, 7, 1, -8, -8, 1, 0, 0, 0, 9, 9, 1, 0, 0, 0};
    int64_t out[17], before[17];
    n = three_frames(small, n, file);
#ifndef ALONE
    struct psg_facts facts = psg_facts(file, n, 1);
    EXPECT(facts.refusal == 0 && facts.channels == 1 && facts.frames == 3 && facts.seconds == 45);
#endif
    for (size_t i = 0; i < 5; i++)
        EXPECT(holds(psg_overview(file, n, 1, 1, i), whole[3 * i], whole[3 * i + 1], whole[3 * i + 2]));
    EXPECT(is_refused(psg_overview(file, n, 1, 1, 5), 19, 0));
    for (int i = 0; i < 17; i++) out[i] = before[i] = 70 + i;
    struct psg_overview_counted range = psg_overview_range(file, n, 1, 1, 0, 5, out, 14);
    EXPECT(range.refusal == 17 && range.position == 15 && range.count == 0);
    range = psg_overview_range(file, n, 1, 1, 0, 6, out, 0);
    EXPECT(range.refusal == 19 && range.position == 0 && range.count == 0);
    EXPECT(psg_overview_range(file, n, 1, 1, 1, SIZE_MAX, out, 17).refusal == 19);
    EXPECT(psg_overview_range(file, n, 1, 1, SIZE_MAX, 1, out, 17).refusal == 19);
    EXPECT(psg_overview_range(file, n, 1, 1, 5, 0, out, 17).refusal == 19);
    EXPECT(psg_overview_range(file, n - 1, 1, 1, 0, 5, out, 17).refusal == 10);
    range = psg_overview_range(file, n, 1, 1, 4, 0, out, 0);
    EXPECT(range.refusal == 0 && range.position == 0 && range.count == 0);
    EXPECT(memcmp(out, before, sizeof out) == 0);
    range = psg_overview_range(file, n, 1, 1, 1, 3, out, 17);
    EXPECT(range.refusal == 0 && range.count == 3);
    EXPECT(memcmp(out, whole + 3, 9 * sizeof *out) == 0 && memcmp(out + 9, before + 9, 8 * sizeof *out) == 0);
    range = psg_overview_range(file, n, 1, 1, 0, 5, out, 15);
    EXPECT(range.refusal == 0 && range.position == 0 && range.count == 5);
    EXPECT(memcmp(out, whole, sizeof whole) == 0 && memcmp(out + 15, before + 15, 2 * sizeof *out) == 0);
}

/* Floats are outside, even of a channel that is OFF and so has no samples: of 16 bits such a one is empty. */
static void without(const uint8_t *small, size_t n) {
    static uint8_t file[1024];
    const uint32_t numbers[][2] = {{32, 528}, {488, 56}, {508, 24}, {520, 24}, {232, 0}, {240, 0}};
    memcpy(file, small, 544);
    memcpy(file + 544, small + 546, n - 546);
    n -= 2;
    for (size_t i = 0; i < sizeof numbers / sizeof *numbers; i++) put(file, numbers[i][0], numbers[i][1]);
    EXPECT(holds(psg_overview(file, n, 1, 1, 0), 0, 0, 0));
    put(file, 236, 4);
    EXPECT(is_refused(psg_overview(file, n, 1, 1, 0), 19, 0));
#ifndef ALONE
    EXPECT(psg_judge(file, n).refusal == 0);
#endif
}

int main(void) {
    static uint8_t file[1024];
    size_t n = fread(file, 1, sizeof file, stdin);
    single(file, n);
    ranges(file, n);
    without(file, n);
    return failed;
}
