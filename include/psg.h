/* The proved library for recordings in the JSSR PSG common format, versions 1.00 to 3.00. Link libpsg.a, which
 * `tools/build.sh psg` builds.
 *
 * A file and a buffer are lent as pointer and length for the time of a call; nothing is kept. Every call judges the file
 * itself, and every file and every argument is answered. An answer begins with the refusal: its number (document 01,
 * 1 to 19), or 0 where there is an answer, and its position in the file (17: the length needed; 19: 0). What a refusal
 * does not say is 0. A refused call leaves the buffer as it was; an answered one writes only what it says.
 * psg_event_kind and psg_part are lent no file, and psg_part is never refused.
 * Recordings, channels, items and frames are asked for from 1, samples from 0. Texts, places and parts are positions in
 * the file.
 *
 * What the caller sees to. The proofs take it as given; no call can test it, and where it does not hold nothing is
 * promised:
 * - file points to length bytes, out to room bytes, rows, samples, bits and entries to room numbers, all within one
 *   object each, and each of them holds a value: a buffer that was never written is cleared first (calloc, not malloc).
 * - No pointer is null, not even where length or room is 0; there any pointer to an object of its type serves. rows,
 *   samples and entries are aligned as an int64_t is, bits as a uint32_t is.
 * - The file and the buffer do not overlap, not even in part: nothing is turned or rewritten in place.
 * - Until the call returns, nothing changes the file, and nothing else reads or changes the buffer: no other thread, no
 *   signal handler, and, where the bytes are a mapped file's, no other process, which may not shorten it either. Calls
 *   at the same time may share a file, but no buffer.
 * - length and room are below 2^63 bytes each, so the room of rows, samples and entries below 2^60 numbers, that of bits
 *   below 2^61.
 * - The program is compiled for x86-64 Linux, for which the library is. */
#ifndef PSG_H
#define PSG_H

#include <stddef.h>
#include <stdint.h>

#ifdef __cplusplus
extern "C" {
#endif

/* How many rows, bytes, samples, entries or montage channels. */
struct psg_counted {
    uint32_t refusal;
    uint64_t position;
    uint64_t count;
};

/* The file header: the letter of the byte order, 'L' or 'B', and of the script, 'S', 'J', 'E' or 'U'; K. */
struct psg_header {
    uint32_t refusal;
    uint64_t position;
    uint32_t order;
    uint32_t script;
    uint32_t recordings;
};

/* All that the file header says: the spelling, 0 where the file begins with JSSR-SPG and 1 where it begins with
   JSSR-PSG; the version as a number, 100, 110, 200 or 300, and the form, 0 for channels and 1 for electrodes; then as
   above. */
struct psg_heading {
    uint32_t refusal;
    uint64_t position;
    uint32_t spelling;
    uint32_t version;
    uint32_t form;
    uint32_t order;
    uint32_t script;
    uint32_t recordings;
};

/* M, F and T. */
struct psg_facts {
    uint32_t refusal;
    uint64_t position;
    uint32_t channels;
    uint32_t frames;
    uint32_t seconds;
};

/* Record 125, or 325: an electrode has no calibration frequency and no sensitivity, and both are 0. The four calibration
   numbers are 32 bits each: floats where is_float is 1, else signed numbers. */
struct psg_channel {
    uint32_t refusal;
    uint64_t position;
    int32_t number;
    int32_t flags;
    int32_t kind;
    int32_t format;
    int32_t rate;
    uint32_t is_float;
    uint32_t cal;
    uint32_t cal_ad;
    uint32_t offset_ad;
    uint32_t offset_cal;
    int32_t frequency;
    int32_t low_cut;
    int32_t high_cut;
    int32_t sensitivity;
    uint64_t label;
    uint64_t label_length;
    uint64_t unit;
    uint64_t unit_length;
    uint64_t comment;
    uint64_t comment_length;
};

/* Record 355: the refusal and the fields as a channel has them, of any value, then the inputs G1 and G2. The high 16 bits
   of an input say what it is, 0 to 3; where they are 0, the low 16 bits are the serial of an electrode, or 0 for earth. */
struct psg_montage {
    struct psg_channel channel;
    int32_t g1;
    int32_t g2;
};

/* An item of a 130 or a 200. */
struct psg_item {
    uint32_t refusal;
    uint64_t position;
    int32_t code;
    uint64_t text;
    uint64_t text_length;
};

struct psg_clock {
    uint32_t refusal;
    uint64_t position;
    uint32_t hour;
    uint32_t minute;
    uint32_t second;
};

/* A whole number, or the 32 bits of a float where is_float is 1. */
struct psg_sample {
    uint32_t refusal;
    uint64_t position;
    uint32_t is_float;
    int32_t value;
    uint32_t bits;
};

/* Where samples stand: where the first of them starts in the file, how many bytes each has (2, 3 or 4), and how many
   there are. Without samples, start is where they would stand. */
struct psg_place {
    uint32_t refusal;
    uint64_t position;
    uint64_t start;
    uint64_t width;
    uint64_t count;
};

/* Where the samples of a channel stand in every frame of a recording: the letter of the byte order, 'L' or 'B'; the
   format, 1 to 4; the place of those in frame 1, as above; the bytes from one frame's samples to the next frame's; F
   and T. */
struct psg_track {
    uint32_t refusal;
    uint64_t position;
    uint32_t order;
    uint32_t format;
    uint64_t start;
    uint64_t width;
    uint64_t count;
    uint64_t step;
    uint32_t frames;
    uint32_t seconds;
};

/* A part of the file. */
struct psg_part {
    uint64_t start;
    uint64_t length;
};

/* What an event's code stands for, as one of the numbers below. */
struct psg_kind {
    uint32_t refusal;
    uint64_t position;
    uint32_t kind;
};

/* The kinds of codes: those that the standard publishes, then a user's own, which have bit 12 set, and all others. */
enum {
    PSG_EVENT_NONE = 0,
    PSG_EVENT_RECORDING_START = 1,
    PSG_EVENT_RECORDING_END = 2,
    PSG_EVENT_CALIBRATION_START = 3,
    PSG_EVENT_CALIBRATION_END = 4,
    PSG_EVENT_INST_START = 5,
    PSG_EVENT_INST_END = 6,
    PSG_EVENT_SLEEP_ALLOWED = 7,
    PSG_EVENT_WAKE_CALL = 8,
    PSG_EVENT_LIGHTS_OUT = 9,
    PSG_EVENT_LIGHTS_ON = 10,
    PSG_EVENT_MEASUREMENT_STOPPED = 11,
    PSG_EVENT_MEASUREMENT_RESUMED = 12,
    PSG_EVENT_USER = 13,
    PSG_EVENT_RESERVED = 14
};

/* Judges the file, and no more: what its header says where it is accepted. The other calls judge it themselves. */
struct psg_header psg_judge(const uint8_t *file, size_t length);

/* Lists the records: four numbers a row (position, length, code, serial), by position. The count is of rows, the room of numbers. */
struct psg_counted psg_table(const uint8_t *file, size_t length, int64_t *rows, size_t room);

/* Writes the file in the other byte order: how many bytes. 18 where a maker's record stands in the way. */
struct psg_counted psg_turn(const uint8_t *file, size_t length, uint8_t *out, size_t room);

/* Writes the canonical form of the file in the byte order that the letter names, 'L' or 'B': how many bytes. 19 for another
   letter; 18 where a maker's record stands in the way and the order is not the file's. */
struct psg_counted psg_rewrite(const uint8_t *file, size_t length, uint8_t order, uint8_t *out, size_t room);

/* Room that is enough for psg_rewrite of this file, in either order: so many bytes, by the file's length and K alone. With
   it psg_rewrite never answers 17. Only the file can be refused. */
struct psg_counted psg_rewrite_room(const uint8_t *file, size_t length);

/* What the file header says. Only the file can be refused. */
struct psg_heading psg_header(const uint8_t *file, size_t length);

/* How many channels and frames a recording has, and the seconds of a frame. */
struct psg_facts psg_facts(const uint8_t *file, size_t length, size_t recording);

/* A channel that holds for a recording, or an electrode, its own or taken over. */
struct psg_channel psg_channel(const uint8_t *file, size_t length, size_t recording, size_t channel);

/* How many channels a recording's own montage has: 0 where it has none. One of them; 19 where there is no montage. */
struct psg_counted psg_montage_count(const uint8_t *file, size_t length, size_t recording);
struct psg_montage psg_montage(const uint8_t *file, size_t length, size_t recording, size_t channel);

/* An item of the 130 that holds for a recording; of the recording's own 200. */
struct psg_item psg_patient_item(const uint8_t *file, size_t length, size_t recording, size_t item);
struct psg_item psg_event_item(const uint8_t *file, size_t length, size_t recording, size_t item);

/* The clock time of a frame. */
struct psg_clock psg_clock(const uint8_t *file, size_t length, size_t recording, size_t frame);

/* Where the samples of a channel stand in a frame, how wide they are and how many. */
struct psg_place psg_place(const uint8_t *file, size_t length, size_t recording, size_t frame, size_t channel);

/* Where the samples of a channel stand in every frame of a recording: those in frame j, of 1 to frames, begin at
   start + step * (j - 1), and have the same width and count in each. It is what psg_place answers frame by frame, for
   one judging; psg_part cuts each. 19 for a recording or a channel outside. */
struct psg_track psg_track(const uint8_t *file, size_t length, size_t recording, size_t channel);

/* The part of a file of length bytes that a place tells, with its start as the position: the bytes if all of them lie
   inside the file, else the empty part at the file's end. A width or a count of 0, with a position of at most length,
   is the empty part at the position. Any numbers are answered. Cut from the same bytes that psg_place judged: in
   another file the part lies inside too, but the bytes are of that file. */
struct psg_part psg_part(size_t length, size_t position, size_t width, size_t count);

/* One sample of a channel in a frame. */
struct psg_sample psg_sample(const uint8_t *file, size_t length, size_t recording, size_t frame, size_t channel, size_t sample);

/* A run of samples of a channel in a frame, number of them from the sample first on: what psg_sample answers for each,
   in order. The count is of samples written, the room of numbers. psg_run is for the formats 1 to 3, psg_run_floats for
   4; the other of the two is 19, even for 0 samples. So is a run that is not inside the channel; one of 0 samples is
   inside where first is at most the channel's count. 17 has the number asked for. A float is its 32 bits, and a NaN
   keeps them: float value; memcpy(&value, &bits[i], sizeof value); */
struct psg_counted psg_run(const uint8_t *file, size_t length, size_t recording, size_t frame, size_t channel,
                           size_t first, size_t number, int64_t *samples, size_t room);
struct psg_counted psg_run_floats(const uint8_t *file, size_t length, size_t recording, size_t frame, size_t channel,
                                  size_t first, size_t number, uint32_t *bits, size_t room);

/* The index of night events: five numbers an entry (recording, frame, channel, place in the frame from 0, code), by
   recording, frame, channel and place. An entry is a sample of a channel of type 1 and format 1, an electrode's too,
   whose code is not 0 and is not that of the sample before it in the channel; that is looked for in the frame before
   too, but not in another recording: the first sample of one comes behind 0. A code is 1 to 65535. The count is of
   entries, the room of numbers; 17 has the numbers needed. */
struct psg_counted psg_index(const uint8_t *file, size_t length, int64_t *entries, size_t room);

/* What an event's code stands for. It asks for no file; 19 above 65535. */
struct psg_kind psg_event_kind(uint64_t code);

#ifdef __cplusplus
}
#endif

#endif
