/* The C side of the boundary: the layout of every struct of include/psg.h, with the numbers of
 * bindings/rust/src/calls.rs, and each call made once from C on the smallest file (crates/listing/stdin, on standard
 * input). bindings/rust/tests/boundary.rs compiles, links and runs it. */
#include "psg.h"
#include <stdio.h>
#include <string.h>

#define SIZE(name, size) _Static_assert(sizeof(struct name) == size && _Alignof(struct name) == 8, #name);
#define AT(name, field, at) _Static_assert(offsetof(struct name, field) == at, #name "." #field);

_Static_assert(sizeof(size_t) == 8, "positions and lengths are of 64 bits");

SIZE(psg_counted, 24)
AT(psg_counted, refusal, 0)
AT(psg_counted, position, 8)
AT(psg_counted, count, 16)

SIZE(psg_header, 32)
AT(psg_header, refusal, 0)
AT(psg_header, position, 8)
AT(psg_header, order, 16)
AT(psg_header, script, 20)
AT(psg_header, recordings, 24)

SIZE(psg_heading, 40)
AT(psg_heading, refusal, 0)
AT(psg_heading, position, 8)
AT(psg_heading, spelling, 16)
AT(psg_heading, version, 20)
AT(psg_heading, form, 24)
AT(psg_heading, order, 28)
AT(psg_heading, script, 32)
AT(psg_heading, recordings, 36)

SIZE(psg_facts, 32)
AT(psg_facts, refusal, 0)
AT(psg_facts, position, 8)
AT(psg_facts, channels, 16)
AT(psg_facts, frames, 20)
AT(psg_facts, seconds, 24)

SIZE(psg_channel, 120)
AT(psg_channel, refusal, 0)
AT(psg_channel, position, 8)
AT(psg_channel, number, 16)
AT(psg_channel, flags, 20)
AT(psg_channel, kind, 24)
AT(psg_channel, format, 28)
AT(psg_channel, rate, 32)
AT(psg_channel, is_float, 36)
AT(psg_channel, cal, 40)
AT(psg_channel, cal_ad, 44)
AT(psg_channel, offset_ad, 48)
AT(psg_channel, offset_cal, 52)
AT(psg_channel, frequency, 56)
AT(psg_channel, low_cut, 60)
AT(psg_channel, high_cut, 64)
AT(psg_channel, sensitivity, 68)
AT(psg_channel, label, 72)
AT(psg_channel, label_length, 80)
AT(psg_channel, unit, 88)
AT(psg_channel, unit_length, 96)
AT(psg_channel, comment, 104)
AT(psg_channel, comment_length, 112)

SIZE(psg_montage, 128)
AT(psg_montage, channel, 0)
AT(psg_montage, g1, 120)
AT(psg_montage, g2, 124)

SIZE(psg_item, 40)
AT(psg_item, refusal, 0)
AT(psg_item, position, 8)
AT(psg_item, code, 16)
AT(psg_item, text, 24)
AT(psg_item, text_length, 32)

SIZE(psg_clock, 32)
AT(psg_clock, refusal, 0)
AT(psg_clock, position, 8)
AT(psg_clock, hour, 16)
AT(psg_clock, minute, 20)
AT(psg_clock, second, 24)

SIZE(psg_sample, 32)
AT(psg_sample, refusal, 0)
AT(psg_sample, position, 8)
AT(psg_sample, is_float, 16)
AT(psg_sample, value, 20)
AT(psg_sample, bits, 24)

SIZE(psg_place, 40)
AT(psg_place, refusal, 0)
AT(psg_place, position, 8)
AT(psg_place, start, 16)
AT(psg_place, width, 24)
AT(psg_place, count, 32)

SIZE(psg_track, 64)
AT(psg_track, refusal, 0)
AT(psg_track, position, 8)
AT(psg_track, order, 16)
AT(psg_track, format, 20)
AT(psg_track, start, 24)
AT(psg_track, width, 32)
AT(psg_track, count, 40)
AT(psg_track, step, 48)
AT(psg_track, frames, 56)
AT(psg_track, seconds, 60)

SIZE(psg_part, 16)
AT(psg_part, start, 0)
AT(psg_part, length, 8)

SIZE(psg_kind, 24)
AT(psg_kind, refusal, 0)
AT(psg_kind, position, 8)
AT(psg_kind, kind, 16)

static int failed;

static void expect(int holds, const char *what) {
    if (!holds) {
        printf("not so: %s\n", what);
        failed = 1;
    }
}

#define EXPECT(condition) expect(condition, #condition)

/* The calls that write, with room and with none. */
static void writing(const uint8_t *file, size_t n) {
    static int64_t rows[64];
    static uint8_t out[1024], back[1024];
    struct psg_counted table = psg_table(file, n, rows, 64);
    EXPECT(table.refusal == 0 && table.count == 8);
    EXPECT(rows[12] == 208 && rows[13] == 256 && rows[14] == 125 && rows[15] == 1);
    struct psg_counted turn = psg_turn(file, n, out, sizeof out);
    EXPECT(turn.refusal == 0 && turn.count == n && out[16] == 'B');
    struct psg_counted again = psg_turn(out, n, back, sizeof back);
    EXPECT(again.refusal == 0 && memcmp(back, file, n) == 0);
    struct psg_counted rewrite = psg_rewrite(file, n, 'B', back, sizeof back);
    EXPECT(rewrite.refusal == 0 && rewrite.count == n && back[16] == 'B');
    struct psg_counted letter = psg_rewrite(file, n, 'l', back, sizeof back);
    EXPECT(letter.refusal == 19 && letter.position == 0 && letter.count == 0);
    struct psg_counted reserved = psg_rewrite_room(file, n);
    EXPECT(reserved.refusal == 0 && reserved.count == n + 254);
    EXPECT(psg_rewrite(file, n, 'L', back, reserved.count).refusal == 0);
    reserved = psg_rewrite_room(file, n - 1);
    EXPECT(reserved.refusal == 10 && reserved.position == 32 && reserved.count == 0);
    /* A length of 0 goes with any pointer that is not null. */
    table = psg_table(file, n, rows, 0);
    EXPECT(table.refusal == 17 && table.position == 32 && table.count == 0);
    turn = psg_turn(file, n, out, 0);
    EXPECT(turn.refusal == 17 && turn.position == n);
    turn = psg_turn(file, 0, out, 0);
    EXPECT(turn.refusal == 1 && turn.position == 0);
}

/* The header's values by either spelling, and the refusal where neither stands there. */
static void spellings(uint8_t *file, size_t n) {
    struct psg_heading heading = psg_header(file, n);
    EXPECT(heading.refusal == 0 && heading.spelling == 0 && heading.version == 300 && heading.form == 0);
    EXPECT(heading.order == 'L' && heading.script == 'S' && heading.recordings == 1);
    memcpy(file, "JSSR-PSG", 8);
    heading = psg_header(file, n);
    EXPECT(heading.refusal == 0 && heading.spelling == 1 && heading.version == 300 && heading.form == 0);
    EXPECT(heading.order == 'L' && heading.script == 'S' && heading.recordings == 1);
    memcpy(file, "JSSR-PPG", 8);
    heading = psg_header(file, n);
    EXPECT(heading.refusal == 2 && heading.position == 0 && heading.version == 0 && heading.order == 0);
    memcpy(file, "JSSR-SPG", 8);
    EXPECT(psg_header(file, n - 1).refusal == 10);
}

static void questions(const uint8_t *file, size_t n) {
    struct psg_facts facts = psg_facts(file, n, 1);
    EXPECT(facts.refusal == 0 && facts.channels == 1 && facts.frames == 1 && facts.seconds == 1);
    struct psg_channel channel = psg_channel(file, n, 1, 1);
    EXPECT(channel.refusal == 0 && channel.format == 1 && channel.rate == 1 && channel.is_float == 0);
    EXPECT(channel.label == 280 && channel.label_length == 16 && channel.comment == 404 && channel.comment_length == 60);
    EXPECT(psg_channel(file, n, 1, 2).refusal == 19);
    struct psg_counted montage_count = psg_montage_count(file, n, 1);
    EXPECT(montage_count.refusal == 0 && montage_count.count == 0);
    EXPECT(psg_montage_count(file, n, 2).refusal == 19);
    struct psg_montage montage = psg_montage(file, n, 1, 1);
    EXPECT(montage.channel.refusal == 19 && montage.channel.position == 0 && montage.g1 == 0 && montage.g2 == 0);
    EXPECT(psg_patient_item(file, n, 1, 1).refusal == 19);
    EXPECT(psg_event_item(file, n, 1, 1).refusal == 19);
    EXPECT(psg_clock(file, n, 1, 1).refusal == 0);
    struct psg_sample sample = psg_sample(file, n, 1, 1, 1, 0);
    EXPECT(sample.refusal == 0 && sample.is_float == 0 && sample.value == (int16_t)(file[544] | file[545] << 8));
}

static void put(uint8_t *file, size_t at, uint32_t number) {
    for (int i = 0; i < 4; i++) file[at + i] = number >> 8 * i & 255;
}

/* Numbers, each at its place. */
static void put_all(uint8_t *file, const uint32_t (*numbers)[2], size_t count) {
    for (size_t i = 0; i < count; i++) put(file, numbers[i][0], numbers[i][1]);
}

/* The place of the one sample and the part that it is, refusals, and the place that a sample would take: the smallest
   file with its channel OFF, two bytes shorter. */
static void places(const uint8_t *small, size_t n) {
    static uint8_t file[1024];
    const uint32_t numbers[][2] = {{32, 528}, {488, 56}, {508, 24}, {520, 24}, {232, 0}, {240, 0}};
    struct psg_place place = psg_place(small, n, 1, 1, 1);
    EXPECT(place.refusal == 0 && place.position == 0 && place.start == 544 && place.width == 2 && place.count == 1);
    struct psg_part part = psg_part(n, place.start, place.width, place.count);
    EXPECT(part.start == 544 && part.length == 2);
    place = psg_place(small, n, 1, 1, 2);
    EXPECT(place.refusal == 19 && place.position == 0 && place.start == 0 && place.width == 0 && place.count == 0);
    EXPECT(psg_place(small, n, 1, 0, 1).refusal == 19 && psg_place(small, n, SIZE_MAX, 1, 1).refusal == 19);
    place = psg_place(small, n - 1, 1, 1, 1);
    EXPECT(place.refusal == 10 && place.position == 32 && place.start == 0 && place.width == 0 && place.count == 0);
    memcpy(file, small, 544);
    memcpy(file + 544, small + 546, n - 546);
    n -= 2;
    put_all(file, numbers, sizeof numbers / sizeof *numbers);
    place = psg_place(file, n, 1, 1, 1);
    EXPECT(place.refusal == 0 && place.start == 544 && place.width == 2 && place.count == 0);
    part = psg_part(n, place.start, place.width, place.count);
    EXPECT(part.start == 544 && part.length == 0);
}

/* Where the one sample stands in the one frame, in both orders, and refusals, which say nothing else. */
static void tracks(const uint8_t *file, size_t n) {
    static uint8_t out[1024];
    struct psg_track track = psg_track(file, n, 1, 1);
    EXPECT(track.refusal == 0 && track.position == 0 && track.order == 'L' && track.format == 1);
    EXPECT(track.start == 544 && track.width == 2 && track.count == 1);
    EXPECT(track.step == 26 && track.frames == 1 && track.seconds == 1);
    EXPECT(psg_turn(file, n, out, sizeof out).refusal == 0 && psg_track(out, n, 1, 1).order == 'B');
    track = psg_track(file, n, 1, 2);
    EXPECT(track.refusal == 19 && track.position == 0 && track.order == 0 && track.format == 0 && track.start == 0);
    EXPECT(track.width == 0 && track.count == 0 && track.step == 0 && track.frames == 0 && track.seconds == 0);
    EXPECT(psg_track(file, n, 0, 1).refusal == 19 && psg_track(file, n, SIZE_MAX, 1).refusal == 19);
    track = psg_track(file, n - 1, 1, 2);
    EXPECT(track.refusal == 10 && track.position == 32 && track.order == 0);
}

/* Length, position, width and count, and the part: the bytes, all of them or none; no bytes at the position, or behind
   the file; and numbers whose product or sum 64 bits do not hold. */
static void parts(void) {
    const size_t most = SIZE_MAX, half = SIZE_MAX / 2;
    const size_t cuts[][6] = {
        {562, 0, 1, 562, 0, 562},
        {562, 544, 3, 6, 544, 18},
        {562, 545, 3, 6, 562, 0},
        {561, 544, 3, 6, 561, 0},
        {562, 562, 2, 0, 562, 0},
        {562, 563, 2, 0, 562, 0},
        {562, 561, 0, most, 561, 0},
        {562, 0, most, 0, 0, 0},
        {562, most, 0, 0, 562, 0},
        {0, 0, 0, 0, 0, 0},
        {0, 0, 2, 1, 0, 0},
        {562, 544, (size_t)1 << 32, (size_t)1 << 32, 562, 0},
        {562, 544, most, most, 562, 0},
        {562, 544, 3, most / 3 + 1, 562, 0},
        {562, most, 1, 1, 562, 0},
        {562, most, 1, 545, 562, 0},
        {half, 1, 2, half / 2, 1, half - 1},
        {half, 2, 2, half / 2, half, 0},
    };
    for (size_t i = 0; i < sizeof cuts / sizeof *cuts; i++) {
        struct psg_part part = psg_part(cuts[i][0], cuts[i][1], cuts[i][2], cuts[i][3]);
        EXPECT(part.start == cuts[i][4] && part.length == cuts[i][5]);
    }
}

/* A run of the one sample: with room to spare, none at the end, and refused, with the buffer as it was. */
static void runs(const uint8_t *file, size_t n) {
    int64_t samples[2] = {7, 7};
    uint32_t bits[2] = {7, 7};
    struct psg_counted run = psg_run(file, n, 1, 1, 1, 0, 1, samples, 2);
    EXPECT(run.refusal == 0 && run.count == 1 && samples[1] == 7);
    EXPECT(samples[0] == psg_sample(file, n, 1, 1, 1, 0).value);
    samples[0] = 7;
    run = psg_run(file, n, 1, 1, 1, 1, 0, samples, 0);
    EXPECT(run.refusal == 0 && run.count == 0);
    run = psg_run(file, n, 1, 1, 1, 0, 1, samples, 0);
    EXPECT(run.refusal == 17 && run.position == 1 && run.count == 0);
    EXPECT(psg_run(file, n, 1, 1, 1, SIZE_MAX, 1, samples, 2).refusal == 19);
    EXPECT(psg_run(file, n, 1, 1, 1, 1, SIZE_MAX, samples, 0).refusal == 19);
    EXPECT(psg_run(file, n, 1, 1, 1, 2, 0, samples, 2).refusal == 19);
    EXPECT(psg_run(file, n - 1, 1, 1, 1, 2, 0, samples, 2).refusal == 10);
    run = psg_run_floats(file, n, 1, 1, 1, 0, 0, bits, 2);
    EXPECT(run.refusal == 19 && run.position == 0 && run.count == 0);
    EXPECT(samples[0] == 7 && samples[1] == 7 && bits[0] == 7 && bits[1] == 7);
}

/* The smallest file with a float in the place of its sample, two bytes longer: read as one, and a NaN with its bits. */
static void floats(const uint8_t *small, size_t n) {
    static uint8_t file[1024];
    const uint32_t numbers[][2] = {{32, 532}, {488, 60}, {508, 28}, {520, 28}, {236, 4}, {544, 0x3fc00000}};
    int64_t samples[1] = {7};
    uint32_t bits[2] = {7, 7};
    float value;
    memcpy(file, small, 544);
    memcpy(file + 548, small + 546, n - 546);
    n += 2;
    put_all(file, numbers, sizeof numbers / sizeof *numbers);
    struct psg_counted run = psg_run_floats(file, n, 1, 1, 1, 0, 1, bits, 2);
    EXPECT(run.refusal == 0 && run.count == 1 && bits[1] == 7);
    memcpy(&value, &bits[0], 4);
    EXPECT(value == 1.5f);
    put(file, 544, 0xffbfffff);
    EXPECT(psg_run_floats(file, n, 1, 1, 1, 0, 1, bits, 1).refusal == 0 && bits[0] == 0xffbfffff);
    run = psg_run_floats(file, n, 1, 1, 1, 0, 1, bits, 0);
    EXPECT(run.refusal == 17 && run.position == 1 && run.count == 0 && bits[0] == 0xffbfffff);
    EXPECT(psg_run(file, n, 1, 1, 1, 1, 0, samples, 1).refusal == 19 && samples[0] == 7);
}

/* The smallest file with its channel as one of events: its sample is the one entry, its code unsigned. It is none where
   the type is another, and where it is 0. */
static void events(const uint8_t *small, size_t n) {
    static uint8_t file[1024];
    int64_t entries[7] = {7, 7, 7, 7, 7, 7, 7};
    memcpy(file, small, n);
    struct psg_counted index = psg_index(file, n, entries, 0);
    EXPECT(index.refusal == 0 && index.count == 0);
    put(file, 232, 1);
    index = psg_index(file, n, entries, 0);
    EXPECT(index.refusal == 17 && index.position == 5 && index.count == 0);
    index = psg_index(file, n, entries, 4);
    EXPECT(index.refusal == 17 && index.position == 5 && index.count == 0);
    EXPECT(psg_index(file, n - 1, entries, 7).refusal == 10);
    for (int i = 0; i < 7; i++) EXPECT(entries[i] == 7);
    index = psg_index(file, n, entries, 7);
    EXPECT(index.refusal == 0 && index.count == 1);
    EXPECT(entries[0] == 1 && entries[1] == 1 && entries[2] == 1 && entries[3] == 0 && entries[4] == 0x7fff);
    EXPECT(entries[5] == 7 && entries[6] == 7);
    file[544] = 6;
    file[545] = 0xf0;
    EXPECT(psg_index(file, n, entries, 5).count == 1 && entries[4] == 0xf006);
    file[544] = file[545] = 0;
    index = psg_index(file, n, entries, 5);
    EXPECT(index.refusal == 0 && index.count == 0 && entries[4] == 0xf006);
}

/* Every published code; at 0006h and 8 the hexadecimal number decides. Then a user's own, and others. */
static void kinds(void) {
    const uint32_t codes[][2] = {
        {0x0000, PSG_EVENT_NONE},
        {0x0003, PSG_EVENT_RECORDING_START},
        {0x0002, PSG_EVENT_RECORDING_END},
        {0x0005, PSG_EVENT_CALIBRATION_START},
        {0x0004, PSG_EVENT_CALIBRATION_END},
        {0x0007, PSG_EVENT_INST_START},
        {0x0006, PSG_EVENT_INST_END},
        {0x0102, PSG_EVENT_SLEEP_ALLOWED},
        {0x0104, PSG_EVENT_WAKE_CALL},
        {0x0106, PSG_EVENT_LIGHTS_OUT},
        {0x0108, PSG_EVENT_LIGHTS_ON},
        {0x010a, PSG_EVENT_MEASUREMENT_STOPPED},
        {0x010c, PSG_EVENT_MEASUREMENT_RESUMED},
        {0x1000, PSG_EVENT_USER},
        {0xffff, PSG_EVENT_USER},
        {0x0008, PSG_EVENT_RESERVED},
        {0x2000, PSG_EVENT_RESERVED},
        {0xefff, PSG_EVENT_RESERVED},
    };
    for (size_t i = 0; i < sizeof codes / sizeof *codes; i++) {
        struct psg_kind kind = psg_event_kind(codes[i][0]);
        EXPECT(kind.refusal == 0 && kind.position == 0 && kind.kind == codes[i][1]);
    }
    struct psg_kind outside = psg_event_kind(0x10000);
    EXPECT(outside.refusal == 19 && outside.position == 0 && outside.kind == 0);
    EXPECT(psg_event_kind(UINT64_MAX).refusal == 19);
}

/* The smallest file as one of electrodes, with a montage: its channel's first input is electrode 1, the second a sum. A 325
   has no frequency at 52 and no sensitivity at 64, a 355 has both. */
static void electrodes(const uint8_t *small, size_t n) {
    static uint8_t file[1024], out[1024], back[1024];
    int64_t entries[5] = {0};
    const uint32_t numbers[][2] = {
        {32, 818},  {180, 320}, {212, 325}, {260, 7},   {272, 9},  {488, 288}, {492, 350}, {504, 1},
        {508, 256}, {520, 256}, {524, 355}, {528, 1},   {572, 11}, {584, 13},  {624, 1},   {628, 65536},
    };
    memcpy(file, small, 488);
    memcpy(file + 776, small + 488, n - 488);
    n += 288;
    file[15] = '1';
    put_all(file, numbers, sizeof numbers / sizeof *numbers);
    struct psg_heading heading = psg_header(file, n);
    EXPECT(heading.refusal == 0 && heading.form == 1);
    struct psg_channel electrode = psg_channel(file, n, 1, 1);
    EXPECT(electrode.refusal == 0 && electrode.frequency == 0 && electrode.sensitivity == 0 && electrode.label == 280);
    struct psg_counted count = psg_montage_count(file, n, 1);
    EXPECT(count.refusal == 0 && count.count == 1);
    struct psg_montage montage = psg_montage(file, n, 1, 1);
    EXPECT(montage.channel.refusal == 0 && montage.channel.frequency == 11 && montage.channel.sensitivity == 13);
    EXPECT(montage.channel.label == 592 && montage.channel.comment == 716 && montage.g1 == 1 && montage.g2 == 65536);
    EXPECT(psg_montage(file, n, 1, 2).channel.refusal == 19);
    EXPECT(psg_turn(file, n, out, sizeof out).count == n && psg_turn(out, n, back, sizeof back).count == n);
    EXPECT(memcmp(back, file, n) == 0 && psg_montage(out, n, 1, 1).g1 == 1);
    put(file, 232, 1);
    EXPECT(psg_index(file, n, entries, 5).count == 1 && entries[2] == 1 && entries[4] == 0x7fff);
    put(file, 624, 2);
    montage = psg_montage(file, n, 1, 1);
    EXPECT(montage.channel.refusal == 13 && montage.channel.position == 624 && montage.g1 == 0 && montage.g2 == 0);
}

int main(void) {
    static uint8_t file[1024];
    size_t n = fread(file, 1, sizeof file, stdin);
    struct psg_header header = psg_judge(file, n);
    EXPECT(header.refusal == 0 && header.order == 'L' && header.script == 'S' && header.recordings == 1);
    header = psg_judge(file, n - 1);
    EXPECT(header.refusal == 10 && header.position == 32 && header.order == 0);
    header = psg_judge(file, 0);
    EXPECT(header.refusal == 1 && header.position == 0);
    spellings(file, n);
    writing(file, n);
    questions(file, n);
    places(file, n);
    tracks(file, n);
    parts();
    runs(file, n);
    floats(file, n);
    events(file, n);
    kinds();
    electrodes(file, n);
    return failed;
}
