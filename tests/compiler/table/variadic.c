// Variadic functions: each conversion of printf, 1 to 8 arguments of each type, lists that are handed on, by value and by address.
#include <stdarg.h>
#include <stdio.h>

struct part { int number; char *text; };

static long total(int count, ...) {
    va_list list;
    long sum = 0;
    va_start(list, count);
    while (count-- > 0)
        sum = sum * 31 + va_arg(list, long);
    va_end(list);
    return sum;
}

static void mixed(const char *kinds, ...) {
    va_list list;
    va_start(list, kinds);
    for (; *kinds; kinds++) {
        switch (*kinds) {
        case 'i': printf(" i%d", va_arg(list, int)); break;
        case 'u': printf(" u%u", va_arg(list, unsigned)); break;
        case 'l': printf(" l%ld", va_arg(list, long)); break;
        case 'L': printf(" L%lu", va_arg(list, unsigned long long)); break;
        case 's': printf(" s%s", va_arg(list, char *)); break;
        case 'p': printf(" p%d", va_arg(list, struct part *)->number); break;
        case 'f': printf(" f%d", va_arg(list, int (*)(int))(5)); break;
        }
    }
    va_end(list);
    puts("");
}

static int one_more(int value) { return value + 1; }

static int take(va_list *list) { return va_arg(*list, int); }

static int take_two(va_list list) {
    int one = va_arg(list, int);
    return one * 100 + va_arg(list, int);
}

static void handed_on(int first, int second, ...) {
    va_list list, again;
    int one, two, three;
    va_start(list, second);
    va_copy(again, list);
    one = take(&list);
    two = take(&list);
    three = take_two(list);
    printf("%d %d %d %d %d %d\n", first, second, one, two, three, take_two(again));
    va_end(list);
    va_end(again);
}

static int eight(char a, short b, int c, long d, unsigned char e, unsigned short f, unsigned g, unsigned long h, ...) {
    va_list list;
    va_start(list, h);
    int last = va_arg(list, int);
    printf("%d %d %d %ld %d %d %u %lu then %d %s\n", a, b, c, d, e, f, g, h, last, va_arg(list, char *));
    va_end(list);
    return 0;
}

int main(void) {
    char c = 200;
    signed char sc = -5;
    short s = -300;
    unsigned short us = 60000;
    int i = -70000;
    unsigned u = 4000000000u;
    long l = -5000000000;
    unsigned long ul = 18000000000000000000ul;
    struct part part = { 12, "part" };
    printf("%ld %ld %ld %ld\n", total(1, 1l), total(2, 1l, -2l), total(3, 1l, -2l, l), total(8, 1l, 2l, 3l, 4l, 5l, 6l, 7l, 8l));
    mixed("i", c);
    mixed("ii", sc, s);
    mixed("iii", us, i, 'x');
    mixed("uull", u, 1u, l, (long)u);
    mixed("LLlsi", ul, ~0ull, -1l, "text", c + sc);
    mixed("iulLspf", i, u, l, ul, "s", &part, one_more);
    mixed("pppppppp", &part, &part, &part, &part, &part, &part, &part, &part);
    mixed("ffssii", &one_more, one_more, part.text, "", s++, --us);
    mixed("");
    handed_on(1, 2, 3, 4, 5, 6);
    eight(c, s, i, l, c, us, u, ul, 77, "end");
    eight(1000, 100000, -1, -1, 257, 65537, -1, -1, -1, "wide");
    printf("[%d] [%5d] [%-5d] [%05d] [%u] [%x] [%X] [%o] [%c] [%s] [%%]\n", i, 42, 42, -42, u, 48879, 48879, 8, 'q', "str");
    printf("[%ld] [%lu] [%lx] [%lo] [%10ld] [%-10ld] [%*d] [%.3s] [%10s] [%-10s] [%lld] [%llx]\n", l, ul, ul, 64l, l, 7l, 6, 5, "abcdef", "right",
           "left", 9ll, 255ll);
    printf("%d%d%d%d%d%d%d%d %d\n", 1, 2, 3, 4, 5, 6, 7, 8, printf("%s", ""));
    return 0;
}
