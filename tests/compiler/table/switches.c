// switch: dense, sparse, negative, unsigned, long, fall-through, nested, default in the middle, cases inside other statements.
#include <stdio.h>

enum colour { RED, GREEN, BLUE };

static int dense(int value) {
    switch (value) {
    case 0: return 10;
    case 1: return 11;
    case 2: return 12;
    case 3: return 13;
    case 4: return 14;
    case 5: return 15;
    case 6: return 16;
    case 7: return 17;
    case 8: return 18;
    case 9: return 19;
    case 10: return 20;
    case 11: return 21;
    }
    return -1;
}

static int sparse(int value) {
    int sum = 0;
    switch (value) {
    case 1000000: sum += 1;
    case -1000000: sum += 2; break;
    default: sum += 4;
    case 2147483647: sum += 8; break;
    case -2147483647 - 1: sum += 16;
    case 'a': sum += 32;
    case -1: case 0: sum += 64; break;
    }
    return sum;
}

static int by_unsigned(unsigned value) {
    switch (value) {
    case 0: return 1;
    case 1: return 2;
    case 2147483647: return 3;
    case 2147483648: return 4;
    case 4294967295: return 5;
    case -2: return 6;
    default: return 7;
    }
}

static int by_long(long value) {
    switch (value) {
    case 4294967296: return 1;
    case -4294967296: return 2;
    case 0: return 3;
    case 0x7FFFFFFFFFFFFFFF: return 4;
    case -0x7FFFFFFFFFFFFFFF - 1: return 5;
    }
    return 6;
}

static int by_unsigned_long(unsigned long value) {
    switch (value) {
    case 1: return 1;
    case 0xFFFFFFFFFFFFFFFF: return 2;
    case 0x8000000000000000: return 3;
    case 0x7FFFFFFFFFFFFFFF: return 4;
    case 5: return 5;
    case 6: return 6;
    }
    return 7;
}

static int by_char(char value) {
    switch (value) {
    case 200: return 1;
    case 'x': return 2;
    case 0: return 3;
    }
    return 4;
}

static int nested(int one, int other) {
    int sum = 0;
    switch (one) {
    case 1:
        switch (other) {
        case 1: sum += 1; break;
        default: sum += 2;
        }
        sum += 10;
        break;
    case 2:
        while (other-- > 0) {
            switch (other) {
            case 3: continue;
            case 1: break;
            default: sum += 100;
            }
            if (other == 5)
                break;
            sum += 1000;
        }
    default:
        sum += 5;
    }
    return sum;
}

static int inside(int count) {
    int sum = 0;
    switch (count % 4) {
    case 0:
        do {
            sum += 1;
    case 3:
            sum += 10;
    case 2:
            sum += 100;
    case 1:
            sum += 1000;
        } while ((count -= 4) > 0);
    }
    return sum;
}

static int short_one(int value) {
    switch (value)
    case 3: return 1;
    switch (value) { }
    switch (value) { default: value++; }
    switch (value)
        if (0)
        case 8: return 2;
    return value;
}

static const char *name_of(enum colour colour) {
    switch (colour) {
    case RED: return "red";
    case GREEN: return "green";
    case BLUE: { const char *text = "blue"; return text; }
    }
    return "none";
}

int main(void) {
    for (int i = -2; i < 14; i++)
        printf("%d %d %d %d\n", dense(i), sparse(i), nested(1, i), nested(2, i));
    printf("%d %d %d %d %d\n", sparse(1000000), sparse(-1000000), sparse(2147483647), sparse(-2147483647 - 1), sparse('a'));
    printf("%d %d %d %d %d %d %d\n", by_unsigned(0), by_unsigned(1), by_unsigned(2147483647), by_unsigned(2147483648), by_unsigned(-1),
           by_unsigned(-2), by_unsigned(5));
    printf("%d %d %d %d %d %d\n", by_long(1l << 32), by_long(-(1l << 32)), by_long(0), by_long(0x7FFFFFFFFFFFFFFF),
           by_long(-0x7FFFFFFFFFFFFFFF - 1), by_long(1));
    printf("%d %d %d %d %d %d %d\n", by_unsigned_long(1), by_unsigned_long(-1), by_unsigned_long(1ul << 63), by_unsigned_long(~0ul >> 1),
           by_unsigned_long(5), by_unsigned_long(6), by_unsigned_long(0));
    printf("%d %d %d %d\n", by_char(200), by_char('x'), by_char(0), by_char(1));
    for (int i = 1; i < 13; i++)
        printf("%d %d %d\n", inside(i), short_one(i), nested(3, i));
    printf("%s %s %s %s\n", name_of(RED), name_of(GREEN), name_of(BLUE), name_of(7));
    return 0;
}
