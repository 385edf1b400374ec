/* What the tests without a broker share. */
#ifndef UNITS_H
#define UNITS_H

/* Counts a check by its name, and whether it went well. */
void count(int good, const char *name);

/* Tests that stand in files of their own. */
void test_known(void);
void test_names_of_hardware(void);

#endif
