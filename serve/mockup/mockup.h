/* The library `libgpiomockup` of libgpiod 1.6, by which its tests make chips, over statements in place of the module
 * gpio-mockup: the same names, for the machine that gpioserve runs. Calls that fail give -1 or NULL, with errno. */
#ifndef MOCKUP_H
#define MOCKUP_H

/* Lines have the names `gpio-mockup-A-0` and on. */
#define MOCKUP_NAMED_LINES 1

struct gpio_mockup;

/* A context without chips, with one reference, of which the last one frees it and removes its chips. */
struct gpio_mockup *gpio_mockup_new(void);
void gpio_mockup_ref(struct gpio_mockup *mockup);
void gpio_mockup_unref(struct gpio_mockup *mockup);

/* Makes chips with so many lines each: EBUSY where the context has some, EINVAL for none or more than there are letters
 * for. */
int gpio_mockup_probe(struct gpio_mockup *mockup, unsigned count, const unsigned *sizes, int flags);

/* Removes them: ENODEV where there are none. */
int gpio_mockup_remove(struct gpio_mockup *mockup);

/* Of one of the chips; EINVAL for another number. The texts are the context's. */
const char *gpio_mockup_chip_name(struct gpio_mockup *mockup, unsigned index);
const char *gpio_mockup_chip_path(struct gpio_mockup *mockup, unsigned index);
int gpio_mockup_chip_num(struct gpio_mockup *mockup, unsigned index);

/* The level of a line, and its pull: up unless `pull` is 0. */
int gpio_mockup_get_value(struct gpio_mockup *mockup, unsigned index, unsigned offset);
int gpio_mockup_set_pull(struct gpio_mockup *mockup, unsigned index, unsigned offset, int pull);

#endif
