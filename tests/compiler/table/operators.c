// Every operator on every pair of integer types, at the edges of 8, 16, 32 and 64 bits.
#include <stdio.h>

static unsigned long edges[] = {
    0, 1, 2, 3, 7, 8, 100, 127, 128, 129, 254, 255, 256, 257, 32766, 32767, 32768, 65534, 65535, 65536, 2147483646, 2147483647, 2147483648,
    2147483649, 4294967294, 4294967295, 4294967296, 4294967297, 0x7FFFFFFFFFFFFFFE, 0x7FFFFFFFFFFFFFFF, 0x8000000000000000,
    0x8000000000000001, 0xFFFFFFFF00000000, 0xFFFFFFFF7FFFFFFF, 0xFFFFFFFF80000000, 0xFFFFFFFFFFFF7FFF, 0xFFFFFFFFFFFF8000,
    0xFFFFFFFFFFFFFF7F, 0xFFFFFFFFFFFFFF80, 0xFFFFFFFFFFFFFFFE, 0xFFFFFFFFFFFFFFFF,
};

enum { COUNT = sizeof(edges) / sizeof(edges[0]) };

static unsigned long sum;

static void add(unsigned long value) {
    sum = sum * 1000003 + value;
    sum ^= sum >> 31;
}

static void show(const char *what) {
    printf(" %s%lx", what, sum & 0xFFFFFF);
    sum = 0;
}

#define EACH(text, expression)                  \
    for (i = 0; i < COUNT; i++)                 \
        for (j = 0; j < COUNT; j++) {           \
            a = edges[i], b = edges[j];         \
            add(expression);                    \
        }                                       \
    show(text);

#define ASSIGN(text, statement)                 \
    for (i = 0; i < COUNT; i++)                 \
        for (j = 0; j < COUNT; j++) {           \
            a = edges[i], b = edges[j];         \
            statement;                          \
            add(a);                             \
        }                                       \
    show(text);

#define PAIR(one, other, name)                                              \
    static void name(void) {                                                \
        one a;                                                              \
        other b;                                                            \
        int i, j;                                                           \
        printf("%s, %s, %d:", #one, #other, (int)sizeof(a + b));            \
        EACH("+", a + b)                                                    \
        EACH("-", a - b)                                                    \
        EACH("*", a * b)                                                    \
        EACH("/", b == 0 || b == -1 ? 1 : a / b)                            \
        EACH("%", b == 0 || b == -1 ? 1 : a % b)                            \
        EACH("&", a & b)                                                    \
        EACH("|", a | b)                                                    \
        EACH("^", a ^ b)                                                    \
        EACH("<<", a << (b & 31))                                           \
        EACH(">>", a >> (b & 31))                                           \
        EACH("<", a < b)                                                    \
        EACH(">", a > b)                                                    \
        EACH("<=", a <= b)                                                  \
        EACH(">=", a >= b)                                                  \
        EACH("==", a == b)                                                  \
        EACH("!=", a != b)                                                  \
        EACH("if<", (a < b ? 3 : 4) + (a <= b ? 10 : 20))                   \
        EACH("if>", (a > b ? 3 : 4) + (a >= b ? 10 : 20))                   \
        EACH("if=", (a == b ? 3 : 4) + (a != b ? 10 : 20))                  \
        EACH("&&", (a && b) + 2 * (a || b) + 4 * (!a && !b))                \
        EACH(",", (a, b))                                                   \
        EACH("?", a ? a : b)                                                \
        ASSIGN("=", a = b)                                                  \
        ASSIGN("+=", a += b)                                                \
        ASSIGN("-=", a -= b)                                                \
        ASSIGN("*=", a *= b)                                                \
        ASSIGN("/=", if (b != 0 && b != -1) a /= b)                         \
        ASSIGN("%=", if (b != 0 && b != -1) a %= b)                         \
        ASSIGN("&=", a &= b)                                                \
        ASSIGN("|=", a |= b)                                                \
        ASSIGN("^=", a ^= b)                                                \
        ASSIGN("<<=", a <<= b & 7)                                          \
        ASSIGN(">>=", a >>= b & 7)                                          \
        puts("");                                                           \
    }

#define ONE(one, name)                                                      \
    PAIR(one, char, name##_c)                                               \
    PAIR(one, signed char, name##_sc)                                       \
    PAIR(one, short, name##_s)                                              \
    PAIR(one, unsigned short, name##_us)                                    \
    PAIR(one, int, name##_i)                                                \
    PAIR(one, unsigned, name##_u)                                           \
    PAIR(one, long, name##_l)                                               \
    PAIR(one, unsigned long, name##_ul)                                     \
    static void name(void) {                                                \
        one a, b;                                                           \
        int i, j;                                                           \
        name##_c(), name##_sc(), name##_s(), name##_us();                   \
        name##_i(), name##_u(), name##_l(), name##_ul();                    \
        printf("%s:", #one);                                                \
        EACH("-", -a)                                                       \
        EACH("~", ~a)                                                       \
        EACH("!", !a)                                                       \
        EACH("+", +a)                                                       \
        EACH("(a)", (a) * 3)                                                  \
        EACH("c", (char)a)                                                  \
        EACH("sc", (signed char)a)                                          \
        EACH("s", (short)a)                                                 \
        EACH("us", (unsigned short)a)                                       \
        EACH("i", (int)a)                                                   \
        EACH("u", (unsigned)a)                                              \
        EACH("l", (long)a)                                                  \
        EACH("ul", (unsigned long)a)                                        \
        ASSIGN("++", a++)                                                   \
        ASSIGN("--", a--)                                                   \
        ASSIGN("+1", ++a; b = a)                                            \
        ASSIGN("b++", b = a++; add(b))                                      \
        ASSIGN("--b", b = --a; add(b))                                      \
        puts("");                                                           \
    }

ONE(char, c)
ONE(signed char, sc)
ONE(short, s)
ONE(unsigned short, us)
ONE(int, i_)
ONE(unsigned, u)
ONE(long, l)
ONE(unsigned long, ul)

int main(void) {
    c();
    sc();
    s();
    us();
    i_();
    u();
    l();
    ul();
    return 0;
}
