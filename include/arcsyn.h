/*
 * arcsyn: action lists for safety displays, for a host in C.
 *
 * The report of a text is described in docs/REPORT.md, the text in docs/SHEETS.md.
 */
#ifndef ARCSYN_H
#define ARCSYN_H

#include <stddef.h>
#include <stdint.h>

#ifdef __cplusplus
extern "C" {
#endif

/* The answer where the output is too short for the report. */
#define ARCSYN_OUTPUT_TOO_SHORT (-26)

/*
 * Writes the report of `text` to the front of `out` and answers how many bytes it wrote, or ARCSYN_OUTPUT_TOO_SHORT; then
 * `out` keeps what it held. Bytes of `out` behind the report keep what they held. Every other refusal is a line of the report,
 * `refused N at P`. Formulas are judged in `store`, whose bytes may have any values before and are free afterwards; a formula
 * that needs more than `store_len` bytes is refused by 21.
 *
 * The call allocates nothing, keeps no pointer, never reads or writes outside the three buffers, and always returns.
 *
 * The host owes this, and nothing else:
 *  - each pointer is valid for the length that goes with it: `text` for reading, `store` and `out` for reading and writing;
 *  - the bytes of the three buffers have been given values, whichever they are (memory fresh from malloc has not);
 *  - the three buffers do not overlap;
 *  - with length 0 a pointer is not followed: a null pointer will do.
 *
 * Covered are 64-bit targets only.
 */
int64_t arcsyn_report(const uint8_t *text, size_t text_len, uint8_t *store, size_t store_len, uint8_t *out, size_t out_len);

#ifdef __cplusplus
}
#endif

#endif
