// statics: counts in small variables of its own, and exits with 0 where they hold what was written.
#include "call.h"

__asm__(".globl _start\n"
        "_start:\n"
        "    jal begin\n");

static volatile long table[256];
static volatile int counted;
static volatile long sum = 7;

__attribute__((used, noreturn)) static void begin(void) {
    for (int number = 1; number <= 10; number += 1) {
        counted += 1;
        sum += number;
        table[number] = sum;
    }
    call(EXIT, counted == 10 && sum == 62 && table[10] == 62 ? 0 : 1, 0, 0, 0);
    for (;;) {
    }
}
