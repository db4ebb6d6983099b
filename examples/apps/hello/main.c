// Prints a line with printf; in the form of libtock-c's c_hello.

#include <stdio.h>

int main(void)
{
    printf("Hello World!\n");
    return 0;
}
