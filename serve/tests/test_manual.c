/* The clock that statements alone move. */
#include <poll.h>
#include <unistd.h>

#include "check.h"

void test_manual(void) {
    struct gpio_v2_line_event event;
    int held = request_debounced(1, 5000);
    test("a clock that is moved by statements moves nothing else");
    CHECK(say("clock 1000000 0") && pull(1, true) && values(held, 1) == 0);
    CHECK(polled(held, 50) == 0);
    CHECK(say("clock 5999999 0") && polled(held, 0) == 0);
    CHECK(say("clock 6000000 0") && polled(held, 0) == POLLIN && values(held, 1) == 1);
    CHECK(read(held, &event, sizeof event) == sizeof event && event.timestamp_ns == 6000000);
    CHECK(!say("clock 1 0"));
    close(held);
}
