/* The thirty-second overview of recordings in the JSSR PSG common format, versions 1.00 to 3.00: the smallest and the
 * largest sample of a channel, and how many there are, epoch by epoch. It is a proved library above the one of psg.h
 * and has an archive of its own: link liboverview.a, which `tools/build.sh overview` builds. It needs neither psg.h nor
 * libpsg.a, and goes into one program with them.
 *
 * Epochs are asked for from 0, recordings and channels from 1. Epoch e has the frames that start in it: those whose
 * number less one, times T, lies from 30 * e up to but not including 30 * e + 30, T being the seconds of a frame. An
 * epoch is empty where no frame starts in it, or where the channel has no samples. The last epoch is the last that
 * starts before F times T, F being how many frames the recording has; it may be empty too.
 *
 * A file and a buffer are lent as pointer and length for the time of a call; nothing is kept. Each call judges the file
 * once, and every file and every argument is answered. An answer begins with the refusal: its number, or 0 where there
 * is an answer, and its position. What a refusal does not say is 0. In order:
 * - 1 to 16, the file's, at a position in the file;
 * - 19 at 0: a recording or a channel that is not there; a channel of format 4, floats, even one without samples; an
 *   epoch that starts at or after F times T;
 * - 17, of psg_overview_range alone: the buffer is too short, and the position is how many numbers are needed.
 * A refused call leaves the buffer as it was; an answered one writes only what it says.
 *
 * What the caller sees to, as for psg.h. The proofs take it as given, and where it does not hold nothing is promised:
 * - file points to length bytes, out to room numbers, within one object each, and each of them holds a value: a buffer
 *   that was never written is cleared first (calloc, not malloc).
 * - No pointer is null, not even where length or room is 0. out is aligned as an int64_t is.
 * - The file and the buffer do not overlap, not even in part.
 * - Until the call returns, nothing changes the file, a mapped one's length included, and nothing else reads or changes
 *   the buffer. Calls at the same time may share a file, but no buffer.
 * - length is below 2^63 and room below 2^60.
 * - The program is compiled for x86-64 Linux, for which the library is. */
#ifndef PSG_OVERVIEW_H
#define PSG_OVERVIEW_H

#include <stddef.h>
#include <stdint.h>

#ifdef __cplusplus
extern "C" {
#endif

/* The samples of an epoch: the smallest and the largest, and how many. All three are 0 of an empty one; of any other
   the count is 1 or more. */
struct psg_overview {
    uint32_t refusal;
    uint64_t position;
    int64_t smallest;
    int64_t largest;
    uint64_t count;
};

/* How many epochs. */
struct psg_overview_counted {
    uint32_t refusal;
    uint64_t position;
    uint64_t count;
};

/* One epoch of a channel of format 1, 2 or 3. */
struct psg_overview psg_overview(const uint8_t *file, size_t length, size_t recording, size_t channel, size_t epoch);

/* Several epochs, number of them from the epoch first on: three numbers an epoch (smallest, largest, count), 0 0 0 of
   an empty one, as psg_overview answers each. The count is of epochs, the room of numbers. 19 where any epoch asked for
   starts at or after F times T; none is asked for where number is 0, and then the first may start at F times T, but not
   after it. 17 has the numbers needed, three an epoch. */
struct psg_overview_counted psg_overview_range(const uint8_t *file, size_t length, size_t recording, size_t channel,
                                               size_t first, size_t number, int64_t *out, size_t room);

#ifdef __cplusplus
}
#endif

#endif
