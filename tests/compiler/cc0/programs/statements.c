// if, else, while, break, continue, return, blocks and names in them.
long x;
long sign(long n) { if (n < 0) return -1; else if (n > 0) return 1; return 0; }
long dangling(long a, long b) { if (a) if (b) return 1; else return 2; return 3; }
void nothing(void) { return; }
void early(long n) { if (n) return; say("late "); }
void none(void) { }
long find(long n) { long i = 0; while (1) { if (i * i >= n) return i; i += 1; } }
long x1(void) { return 7; }
long shrink(void) { x += 1; return x == 3; }
long begin(long *stack) {
    long i; long j; long x = 5;
    number(sign(-4)); number(sign(0)); number(sign(9)); number(dangling(1, 1)); number(dangling(1, 0)); number(dangling(0, 1)); line();
    nothing(); early(1); early(0); none(); number(find(50)); line();
    i = 0; while (i < 5) i += 1; number(i); while (i) { i -= 1; if (i == 2) break; } number(i); while (0) say("never"); line();
    i = 0; while (i < 10) { i += 1; if (i % 3) continue; number(i); } line();
    i = 0; while (i < 4) { j = 0; while (1) { if (j == i) break; j += 1; if (j == 2) continue; number(i * 10 + j); } if (i == 2) { i = 3; continue; } i += 1; } line();
    { long x = 6; number(x); { long x = x1(); number(x); x = 8; } number(x); } number(x); { long y = 1; x += y; } { long y; y = 2; x += y; } number(x); line();
    ; ; {} { ; } if (x) ; else say("no"); if (x) { } else { say("no"); } if (!x) say("no"); else { say("yes "); } line();
    if (x == 8) { if (x == 9) say("no"); } else say("no"); if (x == 8) { if (x == 9) say("no"); else say("inner "); } line();
    while (x > 0) { long x = 3; while (x > 0) { x -= 1; if (x == 1) break; } number(x); if (shrink()) break; } line();
    1; x; x + 1; sign(3); "text"; -x; line();
    return 3;
}
