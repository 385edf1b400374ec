"""python3-libgpiod 1.6 as its users use it: a line is found, watched for a press, and another one driven."""
import subprocess
import sys

import gpiod


def main() -> int:
    """Runs it under gpioserve, on serve/tests/board; the argument is gpiosay."""
    say = sys.argv[1]
    names = [chip.name() for chip in gpiod.ChipIter()]
    chip = gpiod.Chip("soc-gpio")
    button, led = chip.find_line("BUTTON"), chip.find_line("LED")
    led.request(consumer="python", type=gpiod.LINE_REQ_DIR_OUT, default_vals=[0])
    button.request(consumer="python", type=gpiod.LINE_REQ_EV_BOTH_EDGES)
    waits = button.event_wait(sec=0)
    subprocess.run([say, "write gpiochip1/sim_gpio3/pull pull-up"], check=True)
    comes = button.event_wait(sec=5)
    event = button.event_read()
    led.set_value(1)
    print(names, waits, comes, event.type == gpiod.LineEvent.RISING_EDGE, led.get_value(), button.consumer())
    return 0


if __name__ == "__main__":
    sys.exit(main())
