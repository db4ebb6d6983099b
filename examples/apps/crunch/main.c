// Computes without end, as a measure of speed. Each round makes numbers of the checksum of the round before, rounds
// them down to multiples of the primes that a sieve finds, multiplies them as a matrix by itself, sorts what comes out,
// and takes its CRC-32, which is the next checksum. After round 1, 2, 4, 8 and so on it prints that.

#include "console.h"
#include <string.h>

enum { SIDE = 8, COUNT = SIDE * SIDE, LIMIT = 1000 };

static uint32_t numbers[COUNT], products[COUNT];
static uint8_t is_composite[LIMIT];

// Merge sort; the lower half of what it merges is copied to where the numbers stood.
static void sort(uint32_t *first, uint32_t *end)
{
    if (end - first > 1) {
        uint32_t *upper = first + (end - first) / 2, *lower = numbers, *lower_end = numbers + (upper - first);
        sort(first, upper);
        sort(upper, end);
        memcpy(lower, first, (upper - first) * sizeof *first);
        while (lower < lower_end) {
            *first++ = upper < end && *upper < *lower ? *upper++ : *lower++;
        }
    }
}

static uint32_t next_checksum(uint32_t checksum)
{
    for (int i = 0; i < COUNT; i++) {
        numbers[i] = checksum = checksum * 1664525 + 1013904223;
    }
    memset(is_composite, false, sizeof is_composite);
    for (uint32_t prime = 2, found = 0; prime < LIMIT; prime++) {
        if (!is_composite[prime]) {
            uint32_t *number = &numbers[found++ % COUNT]; // there are more primes than numbers
            *number -= *number % prime;
            for (uint32_t multiple = prime * prime; multiple < LIMIT; multiple += prime) {
                is_composite[multiple] = true;
            }
        }
    }
    for (int i = 0; i < COUNT; i++) {
        products[i] = 0;
        for (int k = 0; k < SIDE; k++) {
            products[i] += numbers[i / SIDE * SIDE + k] * numbers[k * SIDE + i % SIDE];
        }
    }
    sort(products, products + COUNT);
    checksum = ~0;
    for (int i = 0; i < COUNT; i++) { // four bytes at once, the lowest first
        checksum ^= products[i];
        for (int bit = 0; bit < 32; bit++) {
            checksum = checksum >> 1 ^ (checksum & 1 ? 0xEDB88320 : 0);
        }
    }
    return ~checksum;
}

int main(void)
{
    static char line[] = "00000000\n";
    for (uint32_t round = 1, checksum = 1;; round++) {
        checksum = next_checksum(checksum);
        if ((round & (round - 1)) == 0) {
            for (int digit = 0; digit < 8; digit++) {
                line[digit] = "0123456789abcdef"[checksum >> (28 - 4 * digit) & 15];
            }
            console_print(line);
        }
    }
}
