// Pointers: sums, differences, places, pointers to pointers, comparisons.
struct triple { long a; long b; long c; };
struct one { long a; };
long numbers[10];
char letters[20];
char *texts[3];
long *rows[4];
long **deep[2];
char heap[1000];
void swap(long *a, long *b) { long kept = *a; *a = *b; *b = kept; }
void fill(char *to, char *from) { while (*from != 0) { *to = *from; to += 1; from += 1; } *to = 0; }
long begin(long *stack) {
    long i = 0; long *p = numbers; char *c = letters; struct triple *t; struct one *o;
    while (i < 10) { numbers[i] = i * i; letters[i] = 'a' + i; i += 1; }
    number(*p); number(p[3]); number(*(p + 4)); p += 2; number(*p); number(p[-1]); p -= 1; number(*p); number(*(p - 1)); number(p == numbers + 1); line();
    number(*c); number(c[3]); number(*(c + 4)); c += 2; number(*c); number(c[-1]); c -= 1; number(*c); number(c - letters); number(letters - c); line();
    swap(&numbers[1], numbers + 9); number(numbers[1]); number(numbers[9]); swap(p, p + 1); number(numbers[1]); number(numbers[2]); line();
    texts[0] = "zero"; texts[1] = "one"; texts[2] = "two"; say(texts[1]); say(*(texts + 2)); number(texts[0][1]); number(*texts[1]); number(texts[2][2]); line();
    rows[0] = numbers; rows[1] = numbers + 5; number(rows[1][1]); number(*rows[0]); *rows[1] = 99; number(numbers[5]); deep[0] = rows; number(deep[0][1][0]); number(**deep[0]);
    number(***deep); line();
    t = (struct triple *)heap; t->a = 1; t->b = 2; t->c = 3; t += 1; t->a = 4; t->b = 5; t->c = 6; number((t - 1)->b); number((&t[-1])->c); number((t + 0)->a);
    t = &t[2]; number((long)t - (long)heap); t -= 3; number((long)t - (long)heap); number(&t[1] == t + 1); number((char *)&t->c - (char *)t); line();
    o = (struct one *)heap; o += 3; number(o->a); o = &o[-2]; number(o->a); line();
    fill(letters, "copied"); say(letters); number(letters < letters + 1); number(letters >= &letters[1]); number(&numbers[3] > &numbers[2]); number(p != 0); number(!p); line();
    p = 0; number(p == 0); number(!p); number(p || 0); number(p && *p); c = 0; number((long)c); if (p) say("no"); if (!p) say("null "); line();
    long **pp = &p; *pp = numbers; number(*p + **pp); pp = rows; number(pp[1][0]); number((long)&numbers[1] - (long)&numbers[0]); number(*&*&numbers[3]); line();
    return 0;
}
