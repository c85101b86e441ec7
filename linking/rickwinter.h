/* What C links of the codec: the functions of crates/ffi, over numbers and slices of numbers.
 *
 * A slice is a pointer and a length. What is proved of these functions is proved of callers that keep to this:
 *   - a pointer is valid for as many elements as its length says, and aligned; it is not null, even where the length is 0;
 *   - what is lent to be written overlaps nothing else that is lent, and nobody else looks at it during the call;
 *   - what is lent to be read isn't changed by anybody during the call; such slices may overlap, and may be the same one or
 *     empty: a caller without edits passes its datagram's pointer and the length 0 for the edit store;
 *   - a bool is 0 or 1, as C's own bool is;
 *   - the declarations below are those that the archive was made with.
 * Nothing is asked of the contents. Nothing is kept after a call, nothing is allocated, and calls may run at the same time.
 *
 * A packet is in its flat form: version, type, code byte, id, home, start and length of the token, home, start and length of
 * the payload, count of options, and then number, home, start and length of each option. Home, start and length are those of
 * a range: home 0 is the datagram, 1 the edit store, and any other is refused (11). Every range of a packet that was read is
 * one of the datagram.
 *
 * What takes or gives the flat form has the form's version in its name: a program that was made for another form does not
 * link, instead of being misread.
 */
#ifndef RICKWINTER_H
#define RICKWINTER_H

#include <stdbool.h>
#include <stddef.h>
#include <stdint.h>

#ifdef __cplusplus
extern "C" {
#endif

/* The version of the flat form, as rickwinter_version() answers it. */
#define RICKWINTER_VERSION 2

/* As many numbers as the largest flat form has: that of 128 options. */
#define RICKWINTER_MOST_NUMBERS (11 + 4 * 128)

/* An answer of rickwinter_v2_write and rickwinter_copy from here on is a refusal: this and its number. */
#define RICKWINTER_REFUSED (UINT64_C(1) << 32)

/* The version of the flat form that the archive was made with. */
uint32_t rickwinter_version(void);

/* Reads a datagram. 0: the packet's flat form stands at the start of `out`. Else the refusal's number, and `out` is as it
 * was; 12 where it is too short. */
uint32_t rickwinter_v2_read(bool strict, const uint8_t *datagram, size_t length, uint32_t *out, size_t room);

/* Writes the packet of a flat form, which may stand at the start of a longer slice, over its two stores and without a limit.
 * The length of what stands at the start of `out`; or a refusal, and `out` is as it was. A store over 70,000 bytes, either of
 * them, is refused (10) before the numbers are looked at, and then what is no flat form (11). */
uint64_t rickwinter_v2_write(bool strict, const uint32_t *packet, size_t numbers, const uint8_t *datagram, size_t length,
                             const uint8_t *edits, size_t edited, uint8_t *out, size_t room);

/* Reads a datagram and writes its packet again, without a limit: as the two in turn, with no flat form between. */
uint64_t rickwinter_copy(bool strict, const uint8_t *datagram, size_t length, uint8_t *out, size_t room);

#ifdef __cplusplus
}
#endif

#endif
