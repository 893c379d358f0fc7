/* Runs the tests, or with --names prints their names: those of sentences of docs/LINES.md alone. Ends with 1 where
 * something was otherwise. */
#include "tests.h"

#include <stdio.h>
#include <string.h>

#include "world.h"

static int found;

void expect(bool is_so, const char *what)
{
    if (is_so)
        return;
    found++;
    printf("    otherwise: %s\n", what);
}

void expect_number(int64_t came, int64_t wanted, const char *what)
{
    expect_within(came, wanted, wanted, what);
}

void expect_within(int64_t came, int64_t least, int64_t most, const char *what)
{
    if (came >= least && came <= most)
        return;
    found++;
    printf("    otherwise: %s: %lld, not %lld to %lld\n", what, (long long)came, (long long)least, (long long)most);
}

void exchange(const char *request, const char *wanted)
{
    world_forget_said();
    world_say(request);
    world_run(500000);
    if (strcmp(world_said(), wanted) == 0)
        return;
    found++;
    printf("    otherwise: '%s': '%s', not '%s'\n", request, world_said(), wanted);
}

void begin(void)
{
    world_begin(0);
    exchange("gushewa 2 1\n", "gushewa 2 hears 1\n");
}

static void run_all(const struct test *tests, int count)
{
    for (int number = 0; number < count; number++) {
        const int before = found;
        tests[number].run();
        printf("%-10s %s\n", found == before ? "ok" : "otherwise", tests[number].name);
    }
}

static void print_names(const struct test *tests, int count)
{
    for (int number = 0; number < count; number++)
        if (tests[number].is_of_lines)
            puts(tests[number].name);
}

int main(int count, char **words)
{
    void (*const each)(const struct test *, int) =
        count > 1 && strcmp(words[1], "--names") == 0 ? print_names : run_all;
    each(LINE_TESTS, LINE_TEST_COUNT);
    each(BUS_TESTS, BUS_TEST_COUNT);
    each(TIMES_TESTS, TIMES_TEST_COUNT);
    return found > 0;
}
