/*
 * declared - the carbon dioxide value of a type approval
 *
 *     declared VALUE TEST [TEST [TEST]]
 *     declared -h
 *
 * VALUE is what the manufacturer declares, each TEST a result of the same vehicle, in the order in
 * which the tests were run; all in whole thousandths of g/km. Prints one of these lines, and
 * rounds nothing:
 *
 *     another test
 *     approval value 100000: the declared value stands
 *     approval value 298001 / 3: the mean of three tests
 *
 * EXIT STATUS
 *
 *     0  there is an approval value
 *     1  another test is to be run
 *     2  wrong usage, values that are refused, or an I/O error: see standard error
 *
 * Only the library says whether the values are acceptable and whether the declared value stands.
 */
#include <conformity.h>

#include "number.h"

#include <stdio.h>

enum outcome { HELPED = 0, APPROVED = 0, ANOTHER_TEST = 1, TROUBLE = 2 };

static const char USAGE[] = "usage: declared VALUE TEST [TEST [TEST]]";

static const char HELP[] =
    "\n"
    "VALUE is the declared carbon dioxide value, each TEST a result of the same vehicle, in the\n"
    "order in which the tests were run; all in whole thousandths of g/km.\n"
    "\n"
    "exit status:\n"
    "  0  there is an approval value\n"
    "  1  another test is to be run\n"
    "  2  wrong usage, values that are refused, or an I/O error: see standard error\n";

static enum outcome trouble(const char *why)
{
    fprintf(stderr, "declared: %s\n", why);
    return TROUBLE;
}

/* One test more than there may be has a place, so that the library sees it and refuses them. */
struct values {
    uint32_t declared;
    uint32_t tests[CONFORMITY_TESTS_MAX + 1];
    size_t count;
};

/* Answers what is wrong with the words, or NULL. */
static const char *read_values(char **words, size_t count, struct values *values)
{
    const char *fault = read_number(words[0], &values->declared);
    size_t i;
    values->count = 0;
    for (i = 1; i < count && i <= CONFORMITY_TESTS_MAX + 1 && fault == NULL; i++) {
        fault = read_number(words[i], &values->tests[values->count]);
        values->count++;
    }
    return fault;
}

static enum outcome approve(const struct values *values)
{
    uint32_t sum = 0, divisor = 0;
    uint32_t code = conformity_declared(values->declared, values->tests, values->count, &sum,
                                        &divisor);
    if (code != 0) {
        fprintf(stderr, "declared: refused %u: %s\n", (unsigned)conformity_refusal_number(code),
                conformity_refusal_text(conformity_refusal_number(code)));
        return TROUBLE;
    }
    if (divisor == 0) {
        puts("another test");
        return ANOTHER_TEST;
    }
    if (divisor == 1) {
        printf("approval value %u: the declared value stands\n", (unsigned)sum);
    } else {
        printf("approval value %u / %u: the mean of three tests\n", (unsigned)sum,
               (unsigned)divisor);
    }
    return APPROVED;
}

static enum outcome run(int argc, char **argv)
{
    struct values values;
    const char *fault;
    if (argc == 2 && strcmp(argv[1], "-h") == 0) {
        printf("%s\n%s", USAGE, HELP);
        return HELPED;
    }
    if (argc < 2) {
        return trouble(USAGE);
    }
    fault = read_values(argv + 1, (size_t)argc - 1, &values);
    return fault != NULL ? trouble(fault) : approve(&values);
}

int main(int argc, char **argv)
{
    enum outcome outcome = run(argc, argv);
    if (fflush(stdout) != 0 || ferror(stdout)) {
        outcome = trouble("standard output: not every line could be written");
    }
    return (int)outcome;
}
