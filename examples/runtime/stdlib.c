// What there is of C's stdlib.h. What is not called is not linked.

#include <limits.h>
#include <stdlib.h>
#include <string.h>
#include <libtock/tock.h>

void exit(int code)
{
    tock_exit(code);
}

void abort(void)
{
    tock_exit(134);
}

int abs(int number)
{
    return number < 0 ? -number : number;
}

long labs(long number)
{
    return number < 0 ? -number : number;
}

// What a letter is worth as a digit; 36 where it is none.
static int digit(char letter)
{
    if (letter >= '0' && letter <= '9') {
        return letter - '0';
    }
    letter |= 0x20;
    return letter >= 'a' && letter <= 'z' ? letter - 'a' + 10 : 36;
}

// Passes blanks and a sign, and tells whether it is a minus.
static bool read_sign(const char **text)
{
    *text += strspn(*text, " \t\n\v\f\r");
    bool is_negative = **text == '-';
    *text += is_negative || **text == '+';
    return is_negative;
}

// Passes 0x, where a hexadecimal digit follows, and tells the base; 0 asks for the one that the text has.
static int read_base(const char **text, int base)
{
    bool is_hexadecimal = (*text)[0] == '0' && ((*text)[1] | 0x20) == 'x' && digit((*text)[2]) < 16;
    if (is_hexadecimal && (base == 0 || base == 16)) {
        *text += 2;
        return 16;
    }
    return base != 0 ? base : (*text)[0] == '0' ? 8 : 10;
}

// The value of digits in a base.
struct number {
    unsigned long value;
    bool is_large;      // it is more than it may be
    const char *end;
};

static struct number read_digits(const char *text, int base, unsigned long most)
{
    struct number number = {0, false, text};
    for (; digit(*number.end) < base; number.end++) {
        number.is_large |= number.value > (most - digit(*number.end)) / base;
        number.value = number.value * base + digit(*number.end);
    }
    return number;
}

// The digits behind blanks, a sign and 0x; where there are none the end is the text.
static struct number read_number(const char *text, int base, bool is_signed, bool *is_negative)
{
    const char *digits = text;
    *is_negative = read_sign(&digits);
    base = read_base(&digits, base);
    struct number number = read_digits(digits, base, is_signed ? (unsigned long)LONG_MAX + *is_negative : ULONG_MAX);
    number.end = number.end == digits ? text : number.end;
    return number;
}

unsigned long strtoul(const char *restrict text, char **restrict end, int base)
{
    bool is_negative;
    struct number number = read_number(text, base, false, &is_negative);
    if (end != NULL) {
        *end = (char *)number.end;
    }
    return number.is_large ? ULONG_MAX : is_negative ? -number.value : number.value;
}

long strtol(const char *restrict text, char **restrict end, int base)
{
    bool is_negative;
    struct number number = read_number(text, base, true, &is_negative);
    if (end != NULL) {
        *end = (char *)number.end;
    }
    if (number.is_large) {
        return is_negative ? LONG_MIN : LONG_MAX;
    }
    return (long)(is_negative ? -number.value : number.value);
}

long atol(const char *text)
{
    return strtol(text, NULL, 10);
}

int atoi(const char *text)
{
    return (int)atol(text);
}

static void exchange(char *one, char *other, size_t size)
{
    for (; size > 0; size--, one++, other++) {
        char byte = *one;
        *one = *other;
        *other = byte;
    }
}

// What is sorted.
struct items {
    char *bytes;
    size_t size;
    int (*compare)(const void *, const void *);
};

// Lets an item of a heap sink below those that are larger; the heap has so many.
static void sink(const struct items *items, size_t place, size_t count)
{
    for (size_t child = 2 * place + 1; child < count; child = 2 * place + 1) {
        char *larger = items->bytes + child * items->size, *item = items->bytes + place * items->size;
        if (child + 1 < count && items->compare(larger, larger + items->size) < 0) {
            larger += items->size;
            child++;
        }
        if (items->compare(item, larger) >= 0) {
            return;
        }
        exchange(item, larger, items->size);
        place = child;
    }
}

// Makes a heap, in which no item is smaller than the two below it.
static void make_heap(const struct items *items, size_t count)
{
    for (size_t place = count / 2; place > 0; place--) {
        sink(items, place - 1, count);
    }
}

// Heapsort.
void qsort(void *bytes, size_t count, size_t size, int (*compare)(const void *, const void *))
{
    struct items items = {bytes, size, compare};
    make_heap(&items, count);
    for (size_t last = count; last > 1; last--) {
        exchange(items.bytes, items.bytes + (last - 1) * size, size);
        sink(&items, 0, last - 1);
    }
}

void *bsearch(const void *key, const void *items, size_t count, size_t size,
              int (*compare)(const void *, const void *))
{
    const char *first = items;
    while (count > 0) {
        const char *middle = first + count / 2 * size;
        int order = compare(key, middle);
        if (order == 0) {
            return (void *)middle;
        }
        if (order > 0) {
            first = middle + size;
            count--;
        }
        count /= 2;
    }
    return NULL;
}
