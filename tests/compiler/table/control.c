// Loops, jumps, labels, scopes, functions that call each other, and what main gives.
#include <stdio.h>

static int even(int value);

static int odd(int value) { return value == 0 ? 0 : even(value - 1); }

static int even(int value) { return value == 0 ? 1 : odd(value - 1); }

static int fibonacci(int value) { return value < 2 ? value : fibonacci(value - 1) + fibonacci(value - 2); }

static int loops(int most) {
    int sum = 0, i, j = 0;
    for (i = 0; i < most; i++) {
        if (i == 3)
            continue;
        if (i == 9)
            break;
        sum += i;
    }
    for (;;) {
        if (++j > most)
            break;
        for (int k = j; k; k--) {
            if (k & 1)
                continue;
            sum += k * 100;
        }
    }
    while (i --> 0)
        if (i % 2)
            sum += 10000;
        else
            sum += 20000;
    do {
        sum++;
        if (sum % 7 == 0)
            break;
        if (sum % 2)
            continue;
        sum += 3;
    } while (sum % 5);
    for (i = 0, j = 10; i < j; i++, j--)
        ;
    return sum * 100 + i;
}

static int jumps(int value) {
    int turns = 0;
    goto test;
again:
    turns++;
    if (value > 100)
        goto done;
    value *= 3;
test:
    if (turns < 10)
        goto again;
    {
        goto inner;
        value = 0;
    inner:
        value += 1;
    }
    if (value)
    behind_if:
        value++;
    if (value % 5)
        goto behind_if;
done:
    return value * 1000 + turns;
}

static int labels_again(int value) {
again:
    if (value > 10)
        return value;
    value *= 2;
    goto again;
}

int value = 1;

static int scopes(int value) {
    int sum = value;
    {
        int value = 10;
        sum += value;
        {
            extern int value;
            sum += value * 100;
        }
        { static int value = 1000; sum += value++; }
        sum += value;
    }
    for (int value = 5; value < 6; value++)
        sum += value * 10000;
    typedef int number;
    number other = 3;
    {
        char number = 5;
        sum += number * 100000;
    }
    struct value { int value; } record = { 7 };
    enum { value_of = 4 };
    sum += record.value + value_of + other;
    goto value;
value:
    return sum;
}

static int counted(void) {
    static int count;
    static int steps = 10;
    count += steps++;
    return count;
}

static void nothing(void) { return; }

static long widths(char c, signed char s, short h, unsigned short u, int i, unsigned n) { return c + s + h + u + i + n; }

static char narrow(int value) { return value; }

static short narrower(long value) { return value; }

static unsigned wide(int value) { return value; }

static int logic(int a, int b, int c) {
    int sum = 0;
    if (a && b || c)
        sum += 1;
    if (a || b && c)
        sum += 2;
    if (!(a || b) && !c)
        sum += 4;
    if (!a)
        sum += 8;
    else if (!b)
        sum += 16;
    else if (!c)
        sum += 32;
    while (a && !b || a && c)
        a = 0, sum += 64;
    sum += (a && b) * 128 + (b || c) * 256 + !(b && c) * 512 + !!c * 1024;
    sum += a ? b ? 2048 : 4096 : c ? 8192 : 16384;
    return sum;
}

int dangling(int a, int b) {
    if (a)
        if (b)
            return 1;
        else
            return 2;
    return 3;
}

int main(int count, char **words) {
    int effects = 0;
    printf("%d %d %d %d %d\n", even(10), odd(7), even(7), fibonacci(15), loops(12));
    printf("%d %d %d\n", loops(5), jumps(1), jumps(200));
    printf("%d %d %d\n", labels_again(1), scopes(2), scopes(3));
    counted();
    counted();
    printf("%d\n", counted());
    nothing();
    printf("%ld %d %d %u %u\n", widths(511, 511, 65537 * 3, -1, -5, -1), narrow(511), narrower(0x18000), wide(-1), (unsigned)narrow(-1));
    for (int i = 0; i < 8; i++)
        printf("%d %d\n", logic(i & 1, i >> 1 & 1, i >> 2), dangling(i & 1, i & 2));
    if (0 && effects++)
        effects += 100;
    if (1 || effects++)
        effects += 1000;
    effects = (effects++, effects + 5) ? effects + 1 : 2;
    1 ? effects++ : effects--;
    printf("%d %d %s\n", effects, count, words[0] != 0 ? "named" : "");
    return 0;
}
