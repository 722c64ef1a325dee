// volatile, before and behind a type, of objects, pointers, members and parameters: each access is one.
#include <stdio.h>

static volatile int number = 3;
static int volatile other;
static volatile struct {
    volatile unsigned char byte;
    const volatile long *volatile row;
} box;
static const volatile long row[2] = { 5, 6 };

static __attribute__((noinline)) int twice(volatile int *from, int *volatile to) {
    *to = *from + *from;
    return *from;
}

static int __attribute__((__noinline__)) counted(int count) {
    volatile int kept = 0;
    for (volatile int i = 0; i < count; i++)
        kept += i;
    return kept;
}

int main(void) {
    int made;
    number;
    other = number++;
    box.byte = 300 + number;
    box.row = row;
    printf("%d %d %d %ld", number, other, box.byte, box.row[1]);
    printf(" %d", twice(&number, &made));
    printf(" %d %d\n", made, counted(10));
    return 0;
}
