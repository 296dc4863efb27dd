/* said.h: what the two C programs share, written without a header of the C library, so that they also build where there is none. */
#ifndef SAID_H
#define SAID_H

#include "linkbox.h"

/* C lets this be declared without its header. */
int putchar(int octet);

/* Text as it stands. */
static inline void print_text(const char *text) {
    for (; *text != '\0'; text++) putchar(*text);
}

/* A number in decimal. */
static inline void print_decimal(uint64_t number) {
    char digits[20];
    size_t count = 0;
    do {
        digits[count++] = (char)('0' + (int)(number % 10));
        number /= 10;
    } while (number != 0 && count < sizeof digits);
    while (count > 0) putchar(digits[--count]);
}

/* Tells whether two places hold the same octets. */
static inline int same_octets(const void *one, const void *other, size_t octets) {
    const uint8_t *left = one, *right = other;
    for (size_t i = 0; i < octets; i++) {
        if (left[i] != right[i]) return 0;
    }
    return 1;
}

#endif
