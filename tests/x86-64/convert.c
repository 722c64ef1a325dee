// Conversions that TinyCC leaves to its run time library: __fixunsdfdi, __fixunsxfdi and __floatundixf.
#include <stdio.h>

int main(void) {
    double three = 3.5;
    long double below = -4.25;
    unsigned long large = -256;
    printf("%lu %lu %.0Lf\n", (unsigned long)three, (unsigned long)below, (long double)large);
    return 0;
}
