// Calls of string.h, stdlib.h and stdio.h whose text is the same by every C library.

#include <limits.h>
#include <stdio.h>
#include <stdlib.h>
#include <string.h>

static int by_value(const void *one, const void *other)
{
    return *(const int *)one - *(const int *)other;
}

static void sort(int count)
{
    int numbers[] = {5, -3, 12, 0, 7, 7, -100, 31, 2};
    qsort(numbers, count, sizeof *numbers, by_value);
    for (int i = 0; i < count; i++) {
        int *found = bsearch(&numbers[i], numbers, count, sizeof *numbers, by_value);
        printf("%d%c ", numbers[i], *found == numbers[i] ? '.' : '?');
    }
    int other = 13;
    printf("%s\n", bsearch(&other, numbers, count, sizeof other, by_value) == NULL ? "none" : "some");
}

static void print_integers(void)
{
    printf("[%5d] [%-5d] [%05d] [%+d] [% d] [%.3d] [%8.3d] [%+-6dx]\n", 42, 42, -42, 42, 42, 7, -7, 3);
    printf("[%x] [%#X] [%o] [%#o] [%#x] [%u] [%i] [%.0d] [%08x] [%#08x]\n", 0xbeef, 0xbeef, 8, 8, 0, UINT_MAX, INT_MIN,
           0, 0xabc, 0xabc);
    printf("[%lld] [%llu] [%llx] [%+lld] [%hd] [%hhd] [%hhu] [%zu]\n", LLONG_MIN, ULLONG_MAX, 0x123456789abcdefULL,
           4294967296LL, (short)-1, (signed char)-2, (unsigned char)255, sizeof(int));
}

static void print_texts(void)
{
    printf("[%s] [%10s] [%-10s] [%.2s] [%6.3s] [%c] [%5c] [%-3c] [%%] [%*d] [%-*d] [%.*s]\n", "text", "text", "text",
           "text", "text", 'x', 'y', 'z', 6, 1, 6, 2, 1, "ab");
    char few[8];
    int whole = snprintf(few, sizeof few, "%s", "a long text");
    printf("%s %d %d %d\n", few, whole, snprintf(NULL, 0, "%d", 1234), printf("%s", ""));
    puts("a line that is longer than what goes out at a time: 0123456789012345678901234567890123456789");
}

static void read_numbers(void)
{
    static const char texts[][16] = {"12", "  -7x", "+0x1f", "077", "zz", "-", "", "0x", "2147483647", "-2147483648"};
    for (size_t i = 0; i < sizeof texts / sizeof *texts; i++) {
        char *decimal, *any, *letters;
        long first = strtol(texts[i], &decimal, 10), second = strtol(texts[i], &any, 0);
        long third = (long)strtoul(texts[i], &letters, 8);
        printf("%ld %d %ld %d %ld %d %d\n", first, (int)(decimal - texts[i]), second, (int)(any - texts[i]), third,
               (int)(letters - texts[i]), atoi(texts[i]));
    }
    static const char large[] = "-99999999999999999999999";
    printf("%d %d %d %lu\n", strtol(large, NULL, 10) == LONG_MIN, strtol(large + 1, NULL, 10) == LONG_MAX,
           strtoul(large, NULL, 10) == ULONG_MAX, strtoul("Zz", NULL, 36));
}

static int sign(int number)
{
    return (number > 0) - (number < 0);
}

static void look_into_texts(void)
{
    const char *text = "a haystack, a needle, a stack";
    printf("%s|%s|%s|%s\n", strstr(text, "stack"), strchr(text, ','), strrchr(text, ','), strpbrk(text, "lmn"));
    printf("%d %d %d %d\n", strstr(text, "hays tack") == NULL, strchr(text, 'q') == NULL, *strchr(text, 0),
           strstr(text, "") == text);
    printf("%d %d %d %d\n", (int)strlen(text), (int)strspn("aabbc", "ab"), (int)strcspn("xyz,", ","),
           (int)strspn("", "x"));
    printf("%d %d %d %d %d\n", sign(strcmp("a", "b")), sign(strcmp("b", "a")), strcmp("", ""), sign(strcmp("ab", "a")),
           sign(strcmp("\x80", "\x7f")));
    printf("%d %d %d\n", strncmp("abc", "abd", 2), sign(strncmp("abc", "abd", 3)), strncmp("a", "a", 9));
    printf("%d %d %d\n", sign(memcmp("a\0b", "a\0c", 3)), memcmp("x", "y", 0), memchr("abc", 'd', 3) == NULL);
}

static void make_texts(void)
{
    char made[24];
    memset(made, '#', sizeof made);
    strncpy(made, "abc", 6);
    printf("%s %d %c\n", made, made[5], made[6]);
    strcpy(made, "one");
    strcat(made, " two");
    strncat(made, " three", 4);
    memmove(made + 1, made, strlen(made) + 1);
    memmove(made, made + 2, 4);
    printf("%s\n", made);
    char words[] = "  one, two,,three ";
    char *rest, *word = words;
    for (word = strtok_r(word, ", ", &rest); word != NULL; word = strtok_r(NULL, ", ", &rest)) {
        printf("<%s>", word);
    }
    printf("\n%d %ld\n", abs(-5), labs(-6L));
}

int main(void)
{
    sort(9);
    sort(2);
    sort(0);
    print_integers();
    print_texts();
    read_numbers();
    look_into_texts();
    make_texts();
    return 0;
}
