/* The fibre camera's frame opening, for a host written in C. Link with the archive that `tools/archive opening` makes. */
#ifndef FIBRE_H
#define FIBRE_H

#include <stddef.h>
#include <stdint.h>

#ifdef __cplusplus
extern "C" {
#endif

/* Opens a grey frame with a line segment: what is long and bright in one direction stays, the rest goes dark.
 *
 * A frame is a block of bytes: pixel (x, y) is the byte at y * stride + x, x counts to the right and y downward.
 *
 *   src, src_bytes           the frame; it needs (height - 1) * stride + width bytes and may be longer
 *   width, height            in pixels, 1 to 4096 each
 *   stride                   bytes from one row to the next, width to 65535; source and destination share it
 *   p, q                     the direction: p columns to the right for q rows down, each -255 to 255, not both 0
 *   length                   of the segment, as measured along a row, 1 to 4096
 *   dst, dst_bytes           the destination, of the same shape; bytes between rows and after the last pixel never change
 *   scratch, scratch_bytes   8 * max(width, height) bytes to work in; what they hold afterwards is not settled
 *
 * Along a slanted line pixels lie further apart than along a row, so a length may mean fewer of them: the fewest that are at least as long, which is the
 * smallest count k from 1 up with (k - 1)^2 * (p^2 + q^2) >= (length - 1)^2 * m^2, m the greater of |p| and |q|. A length of 21 means 16 pixels at (1, 1),
 * 17 at (4, 3), and 21 along and across.
 *
 * Returns 0 when the work is done. Else nothing has been written, in no buffer, and the result is
 *
 *   (number << 32) + figure
 *
 * where number is that of the first rule broken, checked in this order:
 *
 *   1   width, height or stride out of its range                  figure 0
 *   2   the direction out of its range                            figure 0
 *   3   length 0 or above 4096                                    figure 0
 *   5   the source too short                                      figure: the bytes it needs
 *   6   the destination too short                                 figure: the bytes it needs
 *   7   the scratch too short                                     figure: the bytes it needs
 *
 * The three blocks must not overlap, and no pointer may be null, not even for a block of no bytes. Nothing is kept after the call, and no memory is taken
 * but less than 16 kilobytes of stack. A call takes some 9: 8,192 bytes are levels, for lines that go down the rows, or hold a row of 4,096 marks, for
 * shallow ones. The first call takes some 3 more where the system's loader looks up memcpy and memset only as they are called.
 */
uint64_t fibre_open_frame(const uint8_t *src, size_t src_bytes, size_t width, size_t height, size_t stride, int64_t p, int64_t q, size_t length,
                          uint8_t *dst, size_t dst_bytes, uint8_t *scratch, size_t scratch_bytes);

#ifdef __cplusplus
}
#endif

#endif
