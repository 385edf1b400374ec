/* What `gpioserve --version` prints. */
#ifndef VERSION_H
#define VERSION_H

/* Prints the version, and what the record beside the program that answers says of it: whether it is proved, what it was
 * made from, and by which toolchain. The record counts where it has the program's sum. `served` may be NULL. */
void version_print(const char *served);

#endif
