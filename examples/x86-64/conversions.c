// The conversions between floating numbers and numbers of 64 bits without a sign, which TinyCC's code for x86-64 calls: what its own libtcc1 has of them, but
// that a number below 0 keeps its sign. No constant of a floating type stands here.

union extended_bits {
    long double value;
    struct {
        unsigned long mantissa;
        unsigned short exponent;
    } bits;
};

long double __floatundixf(unsigned long value) {
    long double half = (long)(value >> 1), last = (long)(value & 1);
    return half + half + last;
}

double __floatundidf(unsigned long value) { return __floatundixf(value); }

float __floatundisf(unsigned long value) { return __floatundixf(value); }

unsigned long __fixunsxfdi(long double value) {
    union extended_bits given;
    given.value = value;
    int down = 16383 + 63 - (given.bits.exponent & 32767);
    unsigned long made = down < 0 ? -1UL : down > 63 ? 0 : given.bits.mantissa >> down;
    return given.bits.exponent >> 15 ? -made : made;
}

unsigned long __fixunsdfdi(double value) { return __fixunsxfdi(value); }

unsigned long __fixunssfdi(float value) { return __fixunsxfdi(value); }
