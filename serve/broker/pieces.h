/* Bytes as a session writes them: words of hexadecimal pairs, and `00*N` for a run of N zeros. */
#ifndef PIECES_H
#define PIECES_H

#include <stddef.h>

/* Room for the text of so many bytes, its end included: at most two digits and a blank for each. */
#define PIECES_ROOM(bytes) (3 * (bytes) + 8)

/* Writes the text of the bytes, ended by a zero: runs of at least eight zeros as `00*N`, or all as pairs where that
 * would be too many words for a line; no bytes as `-`. `text` has
 * PIECES_ROOM(length) bytes. The text's length. */
size_t pieces_write(char *text, const unsigned char *bytes, size_t length);

/* Reads a line of pieces, up to its end or 0x0A. At most `room` bytes are written; how many, or -1 where the text isn't
 * of this form or has more bytes than that. */
long pieces_read(const char *text, unsigned char *bytes, size_t room);

#endif
