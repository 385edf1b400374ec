/* What a client is told of what it says, and what the transcript says of the client. */
#include <string.h>
#include <sys/prctl.h>
#include <unistd.h>

#include "check.h"

static void test_refusals(void) {
    int held = request(5, GPIO_V2_LINE_FLAG_OUTPUT);
    test("a statement that is none is told from one that the machine refused");
    CHECK(!say("pull 3 up") && said_none() && strncmp(said(), "refused ", 8) == 0);
    CHECK(!say("data chip.1 48") && said_none());
    CHECK(!say("write gpiochip0/sim_gpio999/pull pull-up") && !said_none() && strcmp(said(), "EINVAL\n") == 0);
    CHECK(!say("unplug gpiochip60") && !said_none() && strcmp(said(), "ENOENT\n") == 0);
    test("a tool that the machine refuses is an error");
    CHECK(!say("gpioset -c 0 5=on") && !said_none() && strcmp(said(), "gpioset: EBUSY\n") == 0);
    CHECK(!say("gpioset") && !said_none() && strcmp(said(), "gpioset: usage\n") == 0);
    CHECK(say("gpioinfo -c 0") && !said_none());
    close(held);
}

static int say_by_name(int number) {
    static const char *const names[] = {"a\nprobe wrong 1", "\xc3\xa4\xff", ""};
    if (prctl(PR_SET_NAME, names[number]))
        return 1;
    return !say("read gpiochip0/sim_gpio1/value");
}

/* (That the transcript is a session with these names is tried by running it again.) */
static void test_names(void) {
    test("a program may have any name");
    for (int number = 0; number < 3; number++)
        CHECK(end_of(run_child(say_by_name, number)) == 0);
}

void test_saying(void) {
    test_refusals();
    test_names();
}
