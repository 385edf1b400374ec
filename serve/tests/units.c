/* Bytes as text and back, and items as text: without a broker. */
#include <stdio.h>
#include <stdlib.h>
#include <string.h>

#include "../broker/items.h"
#include "../broker/pieces.h"
#include "units.h"

static unsigned passed, failed;

void count(int good, const char *name) {
    printf("%s %s\n", good ? "ok" : "FAILED", name);
    *(good ? &passed : &failed) += 1;
}

/* Bytes, and the one text that they have. */
static int has_text(const char *bytes, size_t length, const char *text) {
    char written[256];
    unsigned char read[128];
    size_t count_of = pieces_write(written, (const unsigned char *)bytes, length);
    return count_of == strlen(text) && strcmp(written, text) == 0 &&
           pieces_read(written, read, sizeof read) == (long)length && memcmp(read, bytes, length) == 0;
}

static void test_texts(void) {
    count(has_text("", 0, "-"), "no bytes are `-`");
    count(has_text("\x12\xab", 2, "12ab"), "bytes are pairs");
    count(has_text("\0\0\0\0\0\0\0", 7, "00000000000000"), "seven zeros are pairs");
    count(has_text("\0\0\0\0\0\0\0\0", 8, "00*8"), "eight zeros are a run");
    count(has_text("\1\0\0\0\0\0\0\0\0\2\0", 11, "01 00*8 0200"), "a run stands between words");
    count(has_text("\0\0\0\0\0\0\0\0\1", 9, "00*8 01"), "a run stands at the start");
}

static void test_many_runs(void) {
    unsigned char bytes[1024] = {0}, read[1024];
    char text[PIECES_ROOM(1024)];
    size_t words = 1;
    for (size_t i = 0; i < sizeof bytes; i += 9)
        bytes[i] = 1;
    pieces_write(text, bytes, sizeof bytes);
    for (const char *at = text; (at = strchr(at, ' ')); at++)
        words++;
    count(words == 2 && pieces_read(text, read, sizeof read) == 1024 && memcmp(read, bytes, sizeof read) == 0,
        "runs that would be too many words for a line are pairs");
}

static void test_refused(void) {
    static const char *const bad[] = {"1", "1g", "12*", "12*0", "12*9999999", "12 3", "AB", "--", "12-", "00*17"};
    unsigned char read[16];
    int good = 1;
    for (size_t i = 0; i < sizeof bad / sizeof *bad; i++)
        good = good && pieces_read(bad[i], read, sizeof read) < 0;
    count(good, "texts of another form, or of more bytes than there is room for, are refused");
}

static unsigned next_random(void) {
    static unsigned state = 2463534242u;
    state ^= state << 13;
    state ^= state >> 17;
    state ^= state << 5;
    return state;
}

static void test_round_trip(void) {
    unsigned char bytes[1024], read[1024];
    char text[PIECES_ROOM(1024)];
    int good = 1;
    for (int turn = 0; turn < 20000; turn++) {
        size_t length = next_random() % (sizeof bytes + 1);
        unsigned zeros = next_random() % 100;
        for (size_t i = 0; i < length; i++)
            bytes[i] = next_random() % 100 < zeros ? 0 : (unsigned char)next_random();
        size_t written = pieces_write(text, bytes, length);
        good = good && written < sizeof text && strlen(text) == written &&
               pieces_read(text, read, length) == (long)length && memcmp(read, bytes, length) == 0 &&
               (length == 0 || pieces_read(text, read, length - 1) < 0);
    }
    count(good, "20,000 buffers come back from their texts");
}

static void test_items(void) {
    unsigned char event[48] = {5, [8] = 2, [12] = 3, [16] = 7, [20] = 4}, change[288] = {0}, old[64];
    char *text = NULL;
    size_t length;
    FILE *out = open_memstream(&text, &length);
    change[64] = 3;
    change[72] = 9;
    change[256] = 6;
    change[264] = 2;
    if (out) {
        items_print_events(out, event, sizeof event);
        items_print_changes(out, change, sizeof change);
        items_print_events(out, event, 47);
        fclose(out);
    }
    count(out && strcmp(text, "5 falling 3 7 4\n6 released 3 0x9\n") == 0,
        "events and changes are printed as a session prints them");
    free(text);
    length = items_read_events1("258 rising\n3 falling\n4 rising\n", old, 40);
    count(length == 32 && old[0] == 2 && old[1] == 1 && old[8] == 1 && old[16] == 3 && old[24] == 2,
        "events of version 1 are made of what is printed, as many as there is room for");
}

int main(void) {
    test_texts();
    test_many_runs();
    test_refused();
    test_round_trip();
    test_items();
    test_known();
    test_names_of_hardware();
    printf("%u passed, %u failed\n", passed, failed);
    return failed != 0;
}
