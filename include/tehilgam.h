/* The two entries of libloader.a, the archive that `rt lib` writes in crates/loader for x86-64 Linux.
 *
 * Both are pure: they keep no state, call nothing, allocate nothing, write no memory of the caller's, and may be called from
 * several threads at once. They read exactly the bytes that they are given and return for every content and every length.
 *
 * The pointer must be good for `length` bytes. With length 0 it is never read through, so any pointer will do, a null pointer
 * too.
 */
#ifndef TEHILGAM_H
#define TEHILGAM_H

#include <stddef.h>
#include <stdint.h>

#ifdef __cplusplus
extern "C" {
#endif

/* The SMBus packet error code of some bytes: CRC-8, polynomial x^8 + x^2 + x + 1, start 0, high bit first, nothing inverted.
 * The code of no bytes is 0. For a write, pass address, command and data; for a read, the write address, the command, the
 * read address and the bytes read before the code. "123456789" gives 0xF4.
 */
uint8_t tehilgam_pec(const uint8_t *bytes, size_t length);

/* The refusal number of a HEX file, 0 if it is accepted (docs/NUMBERS.md lists the numbers, 1 to 11 and 13). The text is the whole
 * file as it stands, of any length; no text at all is 7, a file with too few lines. It is the number alone: `bin/tehilgam show` prints the
 * line and the place in it too.
 */
uint8_t tehilgam_refusal(const uint8_t *text, size_t length);

#ifdef __cplusplus
}
#endif

#endif
