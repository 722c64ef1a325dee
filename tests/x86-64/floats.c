// Compares floats.c and conversions.c of examples/x86-64 with the C library of this machine, which has to be an x86-64: random and chosen texts as float, double and long
// double, ldexp, and the conversions of numbers without a sign. The word is how many of each. The last line says how many differ.
#include <float.h>
#include <math.h>
#include <stdio.h>
#include <stdlib.h>
#include <string.h>

#define strtof our_strtof
#define strtod our_strtod
#define strtold our_strtold
#define ldexp our_ldexp
float our_strtof(const char *text, char **end);
double our_strtod(const char *text, char **end);
long double our_strtold(const char *text, char **end);
double our_ldexp(double value, int power);
#include "../../examples/x86-64/floats.c"
#define extended_bits other_bits
#include "../../examples/x86-64/conversions.c"
#undef extended_bits
#undef strtof
#undef strtod
#undef strtold
#undef ldexp

static const char *const chosen[] = {
    "0", "0.0", "-0.0", "1e400", "1e-400", "1e5000", "1e-5000", "1e99999", "1e-99999", "4.9406564584124654e-324", "2.4703282292062327e-324",
    "2.4703282292062328e-324", "1.7976931348623157e308", "1.7976931348623158e308", "1.7976931348623159e308", "3.6451995318824746025e-4951",
    "1.8e-4951", "1.82259976594123730126e-4951", "1.18973149535723176502e+4932", "1.189731495357231765085e+4932", "9007199254740993",
    "9007199254740992.5", "2.2250738585072011e-308", "2.2250738585072014e-308", "1.4e-45", "0.7e-45", "7.006492321624085e-46", "1e", "1e+", "1.e5",
    ".5", "5.",
};

static unsigned long state = 88172645463325252UL;
static int compared_count, wrong;

static unsigned long random_number(void) {
    state ^= state << 13;
    state ^= state >> 7;
    state ^= state << 17;
    return state;
}

static void check(int right, const char *what, const char *text) {
    compared_count += 1;
    if (right)
        return;
    wrong += 1;
    if (wrong < 20)
        printf("%s of %s differs\n", what, text);
}

static void check_text(const char *text) {
    char *end, *our_end;
    float single = strtof(text, &end), our_single = our_strtof(text, &our_end);
    double twice = strtod(text, 0), our_twice = our_strtod(text, 0);
    long double extended = strtold(text, 0), our_extended = our_strtold(text, 0);
    check(end == our_end, "the end", text);
    check(memcmp(&single, &our_single, sizeof(single)) == 0, "float", text);
    check(memcmp(&twice, &our_twice, sizeof(twice)) == 0, "double", text);
    check(memcmp(&extended, &our_extended, 10) == 0, "long double", text);
}

static char *put_digits(char *to, int count) {
    for (int i = 0; i < count; i += 1)
        *to++ = '0' + random_number() % 10;
    *to = 0;
    return to;
}

// The text of a random double or float, or random digits with a random exponent.
static void random_text(char *to) {
    union double_bits number;
    unsigned kind = random_number() % 4;
    number.bits = random_number();
    if (kind == 0 && isfinite(number.value)) {
        sprintf(to, "%.*e", (int)(random_number() % 25), number.value);
    } else if (kind == 1) {
        sprintf(to, "%.*e", (int)(random_number() % 12), (double)(float)(random_number() % 1000003) / 997);
    } else {
        to = put_digits(to, 1 + random_number() % 40);
        *to++ = '.';
        to = put_digits(to, random_number() % 40);
        sprintf(to, "e%d", (int)(random_number() % (kind == 2 ? 60 : 9900)) - (kind == 2 ? 30 : 4950));
    }
}

static void check_number(void) {
    char text[100];
    union double_bits number, made, ours;
    unsigned long whole = random_number() >> random_number() % 64;
    int power = (int)(random_number() % 4400) - 2200;
    number.bits = random_number();
    sprintf(text, "%a, %d, %lu", number.value, power, whole);
    if (!isnan(number.value)) {
        made.value = ldexp(number.value, power);
        ours.value = our_ldexp(number.value, power);
        check(made.bits == ours.bits, "ldexp", text);
    }
    check(__floatundidf(whole) == (double)whole, "a double of a number", text);
    check(__floatundisf(whole) == (float)whole, "a float of a number", text);
    check(__floatundixf(whole) == (long double)whole, "a long double of a number", text);
    check(__fixunsxfdi((long double)whole) == whole, "a number of a long double", text);
    check((long)__fixunsxfdi(-(long double)(whole >> 1)) == -(long)(whole >> 1), "a number below 0", text);
}

int main(int count, char **words) {
    char text[1000];
    for (unsigned i = 0; i < sizeof(chosen) / sizeof(chosen[0]); i += 1)
        check_text(chosen[i]);
    for (int i = 0; count > 1 && i < atoi(words[1]); i += 1) {
        random_text(text);
        check_text(text);
        check_number();
    }
    printf("%d compared, %d differ\n", compared_count, wrong);
    return wrong != 0;
}
