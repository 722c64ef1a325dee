// Floating numbers of x86-64 by whole numbers alone: texts to floating numbers, and ldexp. No constant of a floating type stands here, and none is computed
// with, so a compiler without floating numbers can compile it. library.c leaves these functions to this file where HAS_FLOATS is defined.
#include <stdlib.h>

// A natural number, its lowest 32 bits first. 1,024 digits and 10 to the power 6,000 have less than 24,000 bits.
struct natural {
    int count;
    unsigned limbs[800];
};

static void times_plus(struct natural *number, unsigned factor, unsigned more) {
    unsigned long carry = more;
    for (int i = 0; i < number->count; i += 1) {
        carry += (unsigned long)number->limbs[i] * factor;
        number->limbs[i] = carry;
        carry >>= 32;
    }
    if (carry > 0) {
        number->limbs[number->count] = carry;
        number->count += 1;
    }
}

static void times_power_of_two(struct natural *number, int power) {
    for (; power >= 31; power -= 31)
        times_plus(number, 1U << 31, 0);
    times_plus(number, 1U << power, 0);
}

static int bits(const struct natural *number) {
    int count = 32 * number->count;
    if (count > 0)
        for (unsigned top = number->limbs[number->count - 1]; top >> 31 == 0; top <<= 1)
            count -= 1;
    return count;
}

// Below 0, 0 or above 0, as the first is less than the second, equal or greater.
static int compared(const struct natural *first, const struct natural *second) {
    if (first->count != second->count)
        return first->count - second->count;
    for (int i = first->count - 1; i >= 0; i -= 1)
        if (first->limbs[i] != second->limbs[i])
            return first->limbs[i] < second->limbs[i] ? -1 : 1;
    return 0;
}

// The first less the second, which is not greater.
static void less(struct natural *first, const struct natural *second) {
    long borrow = 0;
    for (int i = 0; i < first->count; i += 1) {
        borrow += (long)first->limbs[i] - (i < second->count ? (long)second->limbs[i] : 0);
        first->limbs[i] = borrow;
        borrow >>= 32;
    }
    while (first->count > 0 && first->limbs[first->count - 1] == 0)
        first->count -= 1;
}

// A form of floating numbers: the bits of a mantissa, and the greatest exponent of its highest bit; the least one is 1 - most.
struct form {
    int mantissa, most;
};

static struct form single = { 24, 127 }, twice = { 53, 1023 }, extended = { 64, 16383 };

// The mantissa and the biased exponent of the number of a form that is nearest to above / below * 2 ^ power, an even one of two.
struct parts {
    unsigned long mantissa;
    int exponent;
};

static void round_to(struct parts *made, const struct form *form, struct natural *above, struct natural *below, int power) {
    int top = bits(above) - bits(below), count = form->mantissa;
    made->mantissa = made->exponent = 0;
    if (above->count == 0)
        return;
    times_power_of_two(top < 0 ? above : below, top < 0 ? -top : top);
    if (compared(above, below) < 0) {
        times_plus(above, 2, 0);
        top -= 1;
    }
    top += power;
    if (top < 1 - form->most)
        count -= 1 - form->most - top;
    if (count < 0)
        return;
    for (int i = 0; i < count; i += 1) {
        int one = compared(above, below) >= 0;
        made->mantissa = made->mantissa * 2 + one;
        if (one)
            less(above, below);
        times_plus(above, 2, 0);
    }
    int rest = compared(above, below);
    if (rest > 0 || (rest == 0 && (made->mantissa & 1) != 0)) {
        made->mantissa += 1;
        if (count == form->mantissa && made->mantissa << (64 - count) == 0) {
            made->mantissa = 1UL << (count - 1);
            top += 1;
        }
    }
    if (top > form->most) {
        made->mantissa = 1UL << (form->mantissa - 1);
        made->exponent = 2 * form->most + 1;
    } else if (made->mantissa >> (form->mantissa - 1) != 0) {
        made->exponent = count < form->mantissa ? 1 : top + form->most;
    }
}

static int is_digit(int byte) { return byte >= '0' && byte <= '9'; }

static int exponent_behind(const char **text) {
    const char *at = *text + 1;
    int negative = *at == '-', value = 0;
    if (*at == '-' || *at == '+')
        at += 1;
    if ((**text | 32) != 'e' || !is_digit(*at))
        return 0;
    for (; is_digit(*at); at += 1)
        if (value < 100000)
            value = value * 10 + *at - '0';
    *text = at;
    return negative ? -value : value;
}

// A decimal text: digits with a point, and an exponent. Gives whether it is negative.
static int read_decimal(struct parts *made, const struct form *form, const char *text, char **end) {
    static struct natural above, below;
    int power = 0, negative = *text == '-', point = 0;
    if (*text == '-' || *text == '+')
        text += 1;
    above.count = 0;
    for (; is_digit(*text) || (*text == '.' && !point); text += 1) {
        if (*text == '.') {
            point = 1;
        } else {
            times_plus(&above, 10, *text - '0');
            power -= point;
        }
    }
    power += exponent_behind(&text);
    if (end != 0)
        *end = (char *)text;
    if (power > 6000)
        power = 6000;
    if (power < -6000)
        power = -6000;
    below.count = 1;
    below.limbs[0] = 1;
    for (int i = 0; i < power && above.count > 0; i += 1)
        times_plus(&above, 10, 0);
    for (int i = 0; i < -power; i += 1)
        times_plus(&below, 10, 0);
    round_to(made, form, &above, &below, 0);
    return negative;
}

union float_bits {
    float value;
    unsigned bits;
};

union double_bits {
    double value;
    unsigned long bits;
};

union extended_bits {
    long double value;
    struct {
        unsigned long mantissa;
        unsigned short exponent;
    } bits;
};

float strtof(const char *text, char **end) {
    union float_bits made;
    struct parts parts;
    unsigned negative = read_decimal(&parts, &single, text, end);
    made.bits = negative << 31 | (unsigned)parts.exponent << 23 | ((unsigned)parts.mantissa & 0x7fffff);
    return made.value;
}

static double joined(int negative, const struct parts *parts) {
    union double_bits made;
    made.bits = (unsigned long)negative << 63 | (unsigned long)parts->exponent << 52 | (parts->mantissa & 0xfffffffffffff);
    return made.value;
}

double strtod(const char *text, char **end) {
    struct parts parts;
    int negative = read_decimal(&parts, &twice, text, end);
    return joined(negative, &parts);
}

long double strtold(const char *text, char **end) {
    union extended_bits made;
    struct parts parts;
    int negative = read_decimal(&parts, &extended, text, end);
    made.bits.mantissa = parts.mantissa;
    made.bits.exponent = negative << 15 | parts.exponent;
    return made.value;
}

double ldexp(double value, int power) {
    static struct natural above, below;
    union double_bits given;
    struct parts parts;
    given.value = value;
    int exponent = given.bits >> 52 & 2047;
    unsigned long mantissa = given.bits & 0xfffffffffffff;
    if (exponent == 2047)
        return value;
    if (exponent > 0)
        mantissa |= 1UL << 52;
    else
        exponent = 1;
    if (power > 10000)
        power = 10000;
    if (power < -10000)
        power = -10000;
    above.limbs[0] = mantissa;
    above.limbs[1] = mantissa >> 32;
    above.count = above.limbs[1] > 0 ? 2 : above.limbs[0] > 0 ? 1 : 0;
    below.count = 1;
    below.limbs[0] = 1;
    round_to(&parts, &twice, &above, &below, exponent - 1075 + power);
    return joined(given.bits >> 63, &parts);
}
