/*
 * For the examples: reading a number that stands in text.
 */
#ifndef EXAMPLES_NUMBER_H
#define EXAMPLES_NUMBER_H

#include <errno.h>
#include <stdint.h>
#include <stdlib.h>
#include <string.h>

/* Answers what is wrong with the text, or NULL where it is a number. */
static inline const char *read_number(const char *text, uint32_t *number)
{
    const char *end = text + strspn(text, "0123456789");
    unsigned long long value;
    if (*text == '\0') {
        return "a number is missing";
    }
    if (*text == '+' || *text == '-') {
        return "a number has a sign";
    }
    if (*end == '.' || *end == ',') {
        return "a decimal point or comma: numbers are whole, values in thousandths";
    }
    if (*end != '\0') {
        return "a number has other characters than digits";
    }
    errno = 0;
    value = strtoull(text, NULL, 10);
    if (errno != 0 || value > UINT32_MAX) {
        return "a number is too large";
    }
    *number = (uint32_t)value;
    return NULL;
}

#endif
