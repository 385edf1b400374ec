#include "consumer.h"

#include <stdio.h>
#include <string.h>

void consumer_write(char text[CONSUMER_ROOM], const unsigned char *bytes) {
    size_t length = strnlen((const char *)bytes, UAPI_NAME - 1), out = 0;
    for (size_t i = 0; i < length; i++) {
        if (bytes[i] < '!' || bytes[i] > '~' || bytes[i] == '\\')
            out += (size_t)sprintf(text + out, "\\x%02x", bytes[i]);
        else
            text[out++] = (char)bytes[i];
    }
    text[out] = 0;
}
