// Every operator of two operands and of one, on edges.
long values[16];
void both(long a, long b) {
    number(a + b); number(a - b); number(a * b); number(a & b); number(a | b); number(a ^ b);
    number(a < b); number(a > b); number(a <= b); number(a >= b); number(a == b); number(a != b);
    number(a << (b & 63)); number(a >> (b & 63));
    if (b != 0 && (b != -1 || a > -0x7fffffffffffffffL)) { number(a / b); number(a % b); }
    number(a && b); number(a || b); number(!a); number(~b); number(-a); number(!!b); number(- -a); number(~-b);
    line();
}
long begin(long *stack) {
    long i = 0; long j;
    values[0] = 0; values[1] = 1; values[2] = -1; values[3] = 2; values[4] = -2; values[5] = 7; values[6] = -7; values[7] = 63;
    values[8] = 0x7fffffff; values[9] = 0x80000000L; values[10] = -0x80000000L; values[11] = 0x100000001L;
    values[12] = 0x7fffffffffffffffL; values[13] = -0x7fffffffffffffffL; values[14] = -0x7fffffffffffffffL - 1; values[15] = 255;
    while (i < 16) { j = 0; while (j < 16) { both(values[i], values[j]); j += 1; } i += 1; }
    long a = 5; long b = 3; long c = 2;
    number(a - b - c); number(a - (b - c)); number(a / b / c); number(a * b % c); number(a << b << c); number(a >> 1 >> 1); line();
    number(a + b * c); number((a + b) * c); number(a << b + c); number(a < b == b < c); number(a & b == c); number(a | b ^ c & a); line();
    number(a && b || c && 0); number(a || b && 0); number(1 | 2 && 0); number(a == 5 && b == 3 && c == 2); number(a > b > c); line();
    number(-a * -b); number(-a - -b); number(!a == 0); number(~a & 15); number(-(a + b)); number(!(a == b)); number(- 1); line();
    number(a<<2>>1); number(a%b); number(a*b); number(a/b); number(a-b); number(a-(-b)); number(a&~b); number(a|-b); line();
    return 0;
}
