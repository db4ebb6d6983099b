// What there is of C's string.h. What is not called is not linked.

#include <string.h>

void *memcpy(void *restrict to, const void *restrict from, size_t size)
{
    char *target = to;
    for (const char *byte = from; size > 0; size--) {
        *target++ = *byte++;
    }
    return to;
}

void *memmove(void *to, const void *from, size_t size)
{
    char *target = to;
    const char *source = from;
    if (target <= source) {
        for (; size > 0; size--) {
            *target++ = *source++;
        }
    }
    for (; size > 0; size--) {
        target[size - 1] = source[size - 1];
    }
    return to;
}

void *memset(void *to, int value, size_t size)
{
    for (char *target = to; size > 0; size--) {
        *target++ = (char)value;
    }
    return to;
}

int memcmp(const void *first, const void *second, size_t size)
{
    const unsigned char *one = first, *other = second;
    for (; size > 0; size--, one++, other++) {
        if (*one != *other) {
            return *one - *other;
        }
    }
    return 0;
}

void *memchr(const void *bytes, int value, size_t size)
{
    for (const unsigned char *byte = bytes; size > 0; size--, byte++) {
        if (*byte == (unsigned char)value) {
            return (void *)byte;
        }
    }
    return NULL;
}

size_t strlen(const char *text)
{
    const char *end = text;
    while (*end != 0) {
        end++;
    }
    return end - text;
}

size_t strnlen(const char *text, size_t most)
{
    size_t length = 0;
    while (length < most && text[length] != 0) {
        length++;
    }
    return length;
}

int strcmp(const char *first, const char *second)
{
    for (; *first == *second && *first != 0; first++) {
        second++;
    }
    return (unsigned char)*first - (unsigned char)*second;
}

int strncmp(const char *first, const char *second, size_t most)
{
    for (; most > 0; most--, first++, second++) {
        if (*first != *second || *first == 0) {
            return (unsigned char)*first - (unsigned char)*second;
        }
    }
    return 0;
}

char *strcpy(char *restrict to, const char *restrict from)
{
    memcpy(to, from, strlen(from) + 1);
    return to;
}

char *strncpy(char *restrict to, const char *restrict from, size_t size)
{
    size_t length = strnlen(from, size);
    memcpy(to, from, length);
    memset(to + length, 0, size - length);
    return to;
}

char *strcat(char *restrict to, const char *restrict from)
{
    strcpy(to + strlen(to), from);
    return to;
}

char *strncat(char *restrict to, const char *restrict from, size_t most)
{
    char *end = to + strlen(to);
    size_t length = strnlen(from, most);
    memcpy(end, from, length);
    end[length] = 0;
    return to;
}

char *strchr(const char *text, int letter)
{
    return memchr(text, letter, strlen(text) + 1);
}

char *strrchr(const char *text, int letter)
{
    const char *place = NULL;
    do {
        if (*text == (char)letter) {
            place = text;
        }
    } while (*text++ != 0);
    return (char *)place;
}

char *strstr(const char *text, const char *part)
{
    size_t length = strlen(part);
    for (; strncmp(text, part, length) != 0; text++) {
        if (*text == 0) {
            return NULL;
        }
    }
    return (char *)text;
}

// How many letters at the start of a text are among some, or are not.
static size_t span(const char *text, const char *letters, int is_among)
{
    size_t length = 0;
    while (text[length] != 0 && (strchr(letters, text[length]) != NULL) == is_among) {
        length++;
    }
    return length;
}

size_t strspn(const char *text, const char *letters)
{
    return span(text, letters, 1);
}

size_t strcspn(const char *text, const char *letters)
{
    return span(text, letters, 0);
}

char *strpbrk(const char *text, const char *letters)
{
    text += strcspn(text, letters);
    return *text != 0 ? (char *)text : NULL;
}

char *strtok_r(char *restrict text, const char *restrict letters, char **restrict rest)
{
    char *word = text != NULL ? text : *rest;
    word += strspn(word, letters);
    char *end = word + strcspn(word, letters);
    *rest = *end != 0 ? end + 1 : end;
    *end = 0;
    return word != end ? word : NULL;
}
