/*
 * Reading and writing the frames that a feeder's posts send. Link with libradio.a (x86-64).
 *
 * A frame is exactly 12 bytes. Numbers stand high byte first:
 *
 *   offset  bytes  field
 *      0      3    mark: 46 50 4D ("FPM")
 *      3      2    version: 1
 *      5      1    feeder: 0 to 255
 *      6      1    kind: 1 take, 2 return, 3 acknowledgment
 *      7      1    sender: the number of the sending post, 0 to 15
 *      8      4    counter: 1 to 4294967295
 *
 * Feeder 7, take, post 0, counter 1 is 46 50 4D 00 01 07 01 00 00 00 00 01.
 *
 * For both functions:
 * - The result is FPM_DONE or the number of a refusal. Where several refusals apply, the one that
 *   stands first in the function's list is given.
 * - All memory is the caller's. It is used during the call only, and no pointer is kept.
 * - No pointer may be null, also not where len is 0. A frame or buffer must have all len bytes.
 * - What two pointers of one call point to must not overlap. Frames and buffers need no alignment;
 *   counter needs that of a uint32_t.
 * - Nothing is kept from one call to the next, nothing is allocated, no lock is taken and no other
 *   function is called: both functions are reentrant, and may be called from any thread.
 * - Every call that keeps these rules returns. Whether feeder and sender are ones that the board
 *   deals with is for the caller to test.
 */
#ifndef FPM_H
#define FPM_H

#include <stddef.h>
#include <stdint.h>

#ifdef __cplusplus
extern "C" {
#endif

/* the length of every frame, in bytes */
enum { FPM_FRAME_LEN = 12 };

/* kinds */
enum { FPM_TAKE = 1, FPM_RETURN = 2, FPM_ACK = 3 };

/* numbers given back; no other number is */
enum {
    FPM_DONE = 0,
    FPM_BUFFER_SHORT = 2, /* writing: len is below 12 */
    FPM_LENGTH = 3,       /* reading: len is not 12 */
    FPM_MARK = 4,         /* reading: the mark is wrong */
    FPM_VERSION = 5,      /* reading: the version is not 1 */
    FPM_KIND = 7,         /* both: the kind is not 1 to 3 */
    FPM_SENDER = 8,       /* both: the sender is above 15 */
    FPM_COUNTER = 9       /* both: the counter is 0 */
};

/*
 * Reads the frame of len bytes at frame, which stays as it is.
 * Done: the four results are what the frame says.
 * Refused: FPM_LENGTH, FPM_MARK, FPM_VERSION, FPM_KIND, FPM_SENDER, FPM_COUNTER, in this order;
 * the four results are all 0.
 * The results are set in every case; what they held before does not matter.
 */
uint8_t fpm_read(const uint8_t *frame, size_t len, uint8_t *feeder, uint8_t *kind, uint8_t *sender,
                 uint32_t *counter);

/*
 * Writes a frame to the buffer of len bytes at buf; len may be more than 12.
 * Done: the first 12 bytes are the frame, and later bytes stay as they are.
 * Refused: FPM_BUFFER_SHORT, FPM_KIND, FPM_SENDER, FPM_COUNTER, in this order; every byte of the
 * buffer stays as it is.
 */
uint8_t fpm_write(uint8_t *buf, size_t len, uint8_t feeder, uint8_t kind, uint8_t sender,
                  uint32_t counter);

#ifdef __cplusplus
}
#endif

#endif
