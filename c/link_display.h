/* The display's side of the link: opening a sealed sector.
 *
 * The function is in the static library libdisplay.a (rt lib in crates/display).
 */
#ifndef LINK_DISPLAY_H
#define LINK_DISPLAY_H

#include <stddef.h>
#include <stdint.h>

#ifdef __cplusplus
extern "C" {
#endif

/* What link_display_open answers. */
#define LINK_DISPLAY_OPENED 0u      /* the bytes are opened */
#define LINK_DISPLAY_BAD_LETTER 5u  /* the letter is neither 'A' nor 'S' */
#define LINK_DISPLAY_BAD_KEY 7u     /* the key has not 16 bytes */
#define LINK_DISPLAY_BAD_LENGTH 11u /* there are 0 bytes or more than 4096 */

/* Opens a sealed sector in place, as the display's end does when it is fitted to the letter's octic and holds the key.
 *
 * letter     a character's code: 'A' for AES-128 (octic 11B), 'S' for SM4 (octic 1F5). Every other number is refused, however
 *            large: 321, which is 256 + 'A', is no letter.
 * key        key_len bytes; a key has 16.
 * name       the name of the end that sealed the sector.
 * number     the number under which it was sealed; all 64 bits count.
 * bytes      bytes_len bytes, 1 to 4096: the sealed sector on the way in, the opened one on the way out.
 *
 * Answers 0, or the first of 5, 7 and 11 whose condition holds, tried in this order. On any answer but 0 the bytes are as they
 * were.
 *
 * Seal no two sectors under one key, name and number: who has both learns the exclusive or of their bytes. An end that is made again
 * with the same key and name, as after a power cut, repeats its numbers unless its first number was never reached and lies above
 * every number that was drawn before.
 *
 * The sector is worked in counter mode. A wrong key, name or number is not found out: the answer is 0, and the bytes are
 * opened wrongly. Opening a sector twice gives the sealed bytes again.
 *
 * The caller sees to it that
 *   - key and bytes are not null, not even where their length is 0;
 *   - key_len bytes can be read at key, and bytes_len bytes can be read and written at bytes;
 *   - the two do not overlap, and nobody else writes to either during the call.
 *
 * The function keeps nothing from call to call and allocates nothing, and several threads may call it at once. It does not clear
 * the stack that it used: copies of the key may stay there.
 */
uint32_t link_display_open(uint32_t letter, const uint8_t *key, size_t key_len, uint16_t name, uint64_t number,
                           uint8_t *bytes, size_t bytes_len);

#ifdef __cplusplus
}
#endif

#endif
