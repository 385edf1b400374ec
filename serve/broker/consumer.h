/* The consumer of a request, as text. */
#ifndef CONSUMER_H
#define CONSUMER_H

#include "../uapi.h"

/* Room for a consumer's text, its end included: up to four signs for each byte. */
#define CONSUMER_ROOM (4 * UAPI_NAME + 1)

/* Writes the consumer of UAPI_NAME bytes as one word: a byte that isn't printable ASCII, a blank and the backslash as
 * `\xHH`. No consumer is no text. */
void consumer_write(char text[CONSUMER_ROOM], const unsigned char *bytes);

#endif
