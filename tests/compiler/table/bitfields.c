// Values of assignments to bit-fields, of op= and of steps, in arithmetic, in comparisons, behind commas and in choices; and constants as their type has them.
#include <stdio.h>

static struct {
    unsigned three : 3;
    int four : 4;
    unsigned short five : 5;
    signed char two : 2;
    unsigned whole : 32;
    unsigned most : 31;
} box, *at = &box;

static int turns;

static int turn(void) {
    turns += 1;
    return turns;
}

#define SHOW(expression) printf(" %ld", (long)(expression))

static void values(int number) {
    printf("%d:", number);
    SHOW((box.three = number) - 9);
    SHOW((box.three = number) - 9 < 0);
    SHOW(-(box.three = number));
    SHOW(~(box.three = number));
    SHOW((box.four = number) * 3);
    SHOW((box.five = number) - 40 < 0);
    SHOW((box.two = number) << 3);
    SHOW((box.whole = number) - 9 < 0);
    SHOW((box.most = number) - 9 < 0);
    SHOW(((long)(box.most = number) << 8) / 3);
    SHOW(-1 < (box.three = number));
    SHOW(-1 < (turn(), box.three = number));
    SHOW((turn(), box.three) - 9 < 0);
    SHOW((number & 1 ? box.three : box.five) - 40 < 0);
    printf("\n");
}

static void steps(int number) {
    printf("%d:", number);
    at->three = number, at->four = number, at->five = number, at->most = number;
    SHOW(++at->three - 9 < 0);
    SHOW(at->three++ - 9 < 0);
    SHOW((at->three += 5) - 9 < 0);
    SHOW((at->four -= 5) - 9);
    SHOW(at->four-- - 9);
    SHOW((at->five ^= 9) - 40 < 0);
    SHOW((at[turn() & 0].five |= 9) - 40 < 0);
    SHOW((at->most <<= 1) - 9 < 0);
    SHOW(at->three + at->four + at->five);
    printf("\n");
}

static const char *chosen(long number) {
    switch (number) {
    case 0xFFFFFFFFu: return "2^32 - 1";
    case -1: return "-1";
    case 0x80000000u: return "2^31";
    default: return "another";
    }
}

enum { BELOW = -2147483647 - 1, ABOVE = 0x7FFFFFFFu };

int main(void) {
    for (int number = -20; number < 40; number += 3) {
        values(number);
        steps(number);
    }
    printf("%s %s %s %s\n", chosen(4294967295L), chosen(-1), chosen(2147483648L), chosen(-2147483648L));
    printf("%d %d %d\n", BELOW, ABOVE, (int)sizeof(char[0xFFu]));
    return turns & 127;
}
