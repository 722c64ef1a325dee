// A program that needs glibc's headers and library.
#include <stdio.h>

int main(void) {
    puts("hello");
    return 0;
}
