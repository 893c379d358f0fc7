/* What the tests are made of. A test is named by the sentence of docs/LINES.md that it tries, or, where `is_of_lines`
 * is false, by what of IEC 62386-101 or of the firmware it tries. */
#ifndef TESTS_H
#define TESTS_H

#include <stdbool.h>
#include <stdint.h>

struct test {
    bool is_of_lines;
    const char *name;
    void (*run)(void);
};

extern const struct test LINE_TESTS[], BUS_TESTS[], TIMES_TESTS[];
extern const int LINE_TEST_COUNT, BUS_TEST_COUNT, TIMES_TEST_COUNT;

/* Notes that a test found something otherwise. */
void expect(bool is_so, const char *what);
void expect_number(int64_t came, int64_t wanted, const char *what);
void expect_within(int64_t came, int64_t least, int64_t most, const char *what);

/* Writes this, lets half a second pass, and compares all that was said meanwhile. */
void exchange(const char *request, const char *wanted);

/* Begins anew, with the greeting done. */
void begin(void);

#endif
