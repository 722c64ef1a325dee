// Functions: prototypes, recursion, calls in arguments, the order of arguments, results of each type, many parameters.
long even(long n);
long odd(long n);
long odd(long n);
long unused(char *text, long **rows);
char *name_of(long n);
void twice(long n);
long trace;
long mark(long n) { trace = trace * 10 + n; return n; }
long even(long n) { if (n == 0) return 1; return odd(n - 1); }
long odd(long n) { if (n == 0) return 0; return even(n - 1); }
long nine(long a, long b, long c, long d, long e, long f, long g, long h, long i) { return a + b * 2 + c * 3 + d * 4 + e * 5 + f * 6 + g * 7 + h * 8 + i * 9; }
long ackermann(long m, long n) { if (m == 0) return n + 1; if (n == 0) return ackermann(m - 1, 1); return ackermann(m - 1, ackermann(m, n - 1)); }
long *place(long *from, long n) { return from + n; }
long begin(long *stack) {
    number(even(10)); number(even(7)); number(odd(7)); number(ackermann(2, 3)); line();
    number(nine(1, 2, 3, 4, 5, 6, 7, 8, 9)); number(nine(mark(1), 0, nine(0, 0, 1, 0, 0, 0, 0, 0, mark(3)), 0, 0, 0, 0, 0, nine(1, 1, 1, 1, 1, 1, 1, 1, 1))); line();
    say(name_of(1)); say(name_of(0)); number(name_of(1)[2]); twice(4); number(*place(stack, 0) > 0); *place(&trace, 0) = 17; number(trace); line();
    number(1 + nine(1, 1, 1, 1, 1, 1, 1, 1, 1) * 2); number(mark(2) + mark(3) * mark(4)); number(mark(1) - (mark(2) - mark(3))); line();
    long even = 4; number(even); { long odd = even; number(odd); } line();
    return 0;
}
char *name_of(long n) { if (n) return "something "; return "nothing "; }
void twice(long n) { number(n); number(n * 2); }
