// The frame check sequence (FCS-16 of RFC 1662 and ISO/IEC 13239) over a list of bytes.
//
// Both functions read the `length` bytes from `bytes` on, which must be readable and stay unchanged during the call. They write nothing, keep no
// state and allocate nothing, so they may be called from any thread. Any length is fine, and `bytes` needs no alignment.
// Where `length` is 0 nothing is read, and `bytes` may be NULL.
#ifndef FCS_H
#define FCS_H

#include <stddef.h>
#include <stdint.h>

// The check sequence of the bytes. It is sent after them, low byte first (0 if there are none).
uint16_t fcs_check_sequence(const uint8_t *bytes, size_t length);

// 1 if the bytes match, and 0 if not: they leave the check register at F0B8 hex. Bytes followed by their check sequence, low byte first, match;
// with errors inside sixteen neighbouring bits they no longer do. An empty list does not match.
uint8_t fcs_matches(const uint8_t *bytes, size_t length);

#endif
