// Four conversions that the compiler itself carries out. A compiler with a fault in its own run time library gives 1 7 2 3.
#include <stdio.h>

int a = (int)-1.5, b = (int)-7.0L, c = (int)2.5, d = (int)-3.99;

int main(void) {
    printf("%d %d %d %d\n", a, b, c, d);
    return 0;
}
