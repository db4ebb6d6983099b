// Reads lines until an empty one, keeps each in memory of its own, sorts them, and prints them with the mean of their
// lengths: malloc, stdio and floating point numbers of picolibc, and a table of texts. It is linked for one place.

#include <stdio.h>
#include <stdlib.h>
#include <string.h>

enum { MOST = 8 };

static const char *const ordinals[MOST] = {"first", "second", "third", "fourth", "fifth", "sixth", "seventh", "eighth"};

static int by_letters(const void *one, const void *other)
{
    return strcmp(*(char *const *)one, *(char *const *)other);
}

int main(void)
{
    char *lines[MOST], line[80];
    int count = 0;
    double letters = 0;
    while (count < MOST && fgets(line, sizeof line, stdin) != NULL && line[0] != '\n') {
        line[strcspn(line, "\n")] = 0;
        lines[count] = malloc(strlen(line) + 1);
        if (lines[count] == NULL) {
            return 1;
        }
        letters += strlen(line);
        strcpy(lines[count++], line);
    }
    qsort(lines, count, sizeof *lines, by_letters);
    for (int i = 0; i < count; i++) {
        printf("%s: %s\n", ordinals[i], lines[i]);
        free(lines[i]);
    }
    printf("%.2f letters on average\n", count > 0 ? letters / count : 0.0);
    return 0;
}
