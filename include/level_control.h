/* The level side of the Level Control cluster, played from records of 20 bytes. docs/BOARDS.md is for whoever links it, and says
 * what of the call is proved and what is only run.
 *
 * Plays the records, settings first, then up to 255 events, and puts the sheet, a line for each event, at the front of
 * out. Returns the bytes written, or minus the number of the refusal, and then no byte of out has changed:
 *
 *     -1   a length that is not 20 to 5,120 in twenties, or a wrong settings record
 *     -2   MAX above 254
 *     -3   MIN above MAX
 *     -4   MIN 0 with lighting
 *    -16   out is too short for the sheet
 *
 * A wrong event record is one refused line. Bytes past the sheet stay. 48,195 bytes are room for every sheet, and 189 for each
 * event spare the pass that measures.
 *
 * Neither the bytes of the records nor the lengths need a check before the call: whatever they are, it ends, with a sheet or a
 * refusal. The caller answers for the memory: each slice has its whole length, both do not overlap, and nobody
 * else writes the records or touches out meanwhile; and for the stack and the processor's set-up (docs/BOARDS.md has it all).
 * A slice of length 0 may be NULL. With slices that overlap nothing is promised.
 *
 *     uint8_t out[1024];
 *     int32_t n = level_control_play(records, length, out, sizeof out);
 *     if (n < 0) report(-n); else show(out, (size_t)n);
 *
 * `tests/build sheet_c` writes the archives to link: target/staticlib/libsheet.a for x86-64, and
 * target/staticlib/aarch64/libsheet.a for 64-bit ARM.
 */
#ifndef LEVEL_CONTROL_H
#define LEVEL_CONTROL_H

#include <stddef.h>
#include <stdint.h>

#ifdef __cplusplus
extern "C" {
#endif

int32_t level_control_play(const uint8_t *records, size_t records_length, uint8_t *out, size_t out_length);

#ifdef __cplusplus
}
#endif

#endif
