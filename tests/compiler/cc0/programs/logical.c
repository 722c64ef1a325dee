// && and || leave out what C leaves out, give 0 or 1, and stand in conditions, arguments, indices and assignments.
long trace;
long yes(long n) { trace = trace * 10 + n; return n; }
long no(long n) { trace = trace * 10 + n; return 0; }
long table[4];
void seen(long one) { number(one); number(trace); trace = 0; }
long begin(long *stack) {
    seen(yes(1) && yes(2)); seen(no(1) && yes(2)); seen(yes(1) && no(2)); seen(no(1) || yes(2)); seen(yes(7) || yes(2)); seen(no(1) || no(2)); line();
    seen(yes(1) && yes(2) && yes(3)); seen(yes(1) && no(2) && yes(3)); seen(no(1) || no(2) || yes(3)); seen(no(1) && yes(2) || yes(3)); seen(yes(1) || yes(2) && yes(3));
    seen((no(1) || yes(2)) && yes(3)); seen(!(yes(1) && no(2)) || yes(3)); seen(no(1) && (yes(2) || yes(3))); line();
    if (yes(1) && yes(2)) say("both "); if (no(1) || yes(2)) say("one "); if (no(1) && yes(2)) say("no"); else say("none "); while (yes(1) && no(2)) say("no"); number(trace); line();
    table[1 && 2] = 5; number(table[1]); table[0 || 0] = 6; number(table[0]); number((3 && 4) + (0 || 9) * 2); number(-(5 && 5)); number(!(0 || 0)); line();
    long a = 5 && 6; long b = 0 || -1; long *p = 0; number(a); number(b); number(p != 0 && *p == 3); number(p == 0 || *p == 3); number(a == 1 && b == 1 || *p); line();
    number(1 || 1 / (a - b)); number(0 && 1 / (a - b)); number(("x" && 1)); number(a < 2 && 2 < 3); number((a | 2) && (a & 2)); line();
    return 0;
}
