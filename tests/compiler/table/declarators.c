// Declarators of many forms, by the sizes of what they declare.
#include <stdio.h>

typedef int number;
typedef number row[5];
typedef row *row_pointer;
typedef int function(int, char *);
typedef function *function_pointer;
struct pair { int one; char other; };
typedef struct pair pairs[3];
union either { long l; char c[12]; };
enum colour { RED, GREEN = 5, BLUE, BLACK = GREEN + 20, WHITE = sizeof(struct pair), LAST = -1 ? 3 : 4 };

#define SIZE(type) printf("%s %d\n", #type, (int)sizeof(type))

char a1;
signed char a2;
unsigned char a3;
short a4;
short int a5;
int short unsigned a6;
int a7;
signed a8;
unsigned a9;
long a10;
long int a11;
long unsigned int a12;
long long a13;
unsigned long long int a14;
int long signed long a15;
float a16;
double a17;
long double a18;
char *b1, b2, **b3, b4[7], *b5[3], (*b6)[3], *(*b7)[4], (*b8[2])[5];
int (*c1)(void), *(*c2)(int), (*c3[4])(int, char *), (*(*c4)(int))[6], (*(*c5)(void))(int), (*(*c6[2])(int (*)(int)))[3];
row d1, *d2, d3[2];
row_pointer e1, e2[4];
function_pointer f1, f2[3];
pairs g1, *g2, g3[2];
const char *const h1, *h2, *const *h3;
int i1[2][3], i2[2][3][4], (*i3)[3][4], *i4[2][3];
struct { int a, b; struct { char c; } d; } j1, *j2, j3[3];
union { int a; long b; } k1, k2[2];
enum colour l1;
enum { X, Y } l2;
static const unsigned long long m1[2];
extern int n1[9];
unsigned const char o1[3];
char const p1[4], *p2;
struct list { struct list *next; struct other *other; int (*compare)(struct list *, struct list *); } q1, *q2;

#define SHOW(name) printf("%s %d %d\n", #name, (int)sizeof(name), (int)sizeof name)

int add(int a, char *b) { return a + *b; }

int (*pick(int which))(int, char *) { return which ? add : 0; }

char (*line(char (*rows)[4], int at))[4] { return rows + at; }

int sum(int values[], int count) {
    int total = 0;
    SHOW(values);
    while (count > 0)
        total += values[--count];
    return total;
}

int apply(int called(int, char *), int (*again)(int, char *)) {
    char two = 2;
    SHOW(called);
    return called(1, &two) * 10 + (*again)(3, &two) + (**called)(100, &two);
}


int main(void) {
    char rows[3][4] = { "abc", "def", "ghi" };
    char one = 1;
    int values[3] = { 1, 2, 3 };
    row local;
    row_pointer pointer = &local;
    SHOW(a1); SHOW(a2); SHOW(a3); SHOW(a4); SHOW(a5); SHOW(a6); SHOW(a7); SHOW(a8); SHOW(a9); SHOW(a10); SHOW(a11); SHOW(a12);
    SHOW(a13); SHOW(a14); SHOW(a15); SHOW(a16); SHOW(a17); SHOW(a18);
    SHOW(b1); SHOW(b2); SHOW(b3); SHOW(b4); SHOW(b5); SHOW(b6); SHOW(b7); SHOW(b8); SHOW(*b6); SHOW(**b7); SHOW(*b8); SHOW(**b8[1]);
    SHOW(c1); SHOW(c2); SHOW(c3); SHOW(c4); SHOW(c5); SHOW(c6); SHOW(*c4(1)); SHOW(*c6); SHOW(*(*c6[0])(0)); SHOW(c5()(1)); SHOW(c3[1](1, 0));
    SHOW(d1); SHOW(d2); SHOW(d3); SHOW(e1); SHOW(e2); SHOW(*e1); SHOW(**e2); SHOW(f1); SHOW(f2); SHOW(g1); SHOW(g2); SHOW(g3); SHOW(*g2);
    SHOW(h1); SHOW(h2); SHOW(h3); SHOW(i1); SHOW(i2); SHOW(i3); SHOW(i4); SHOW(i2[0]); SHOW(i2[0][0]); SHOW(*i3); SHOW(**i3);
    SHOW(j1); SHOW(j2); SHOW(j3); SHOW(j1.d); SHOW(k1); SHOW(k2); SHOW(l1); SHOW(l2); SHOW(m1); SHOW(n1); SHOW(o1); SHOW(p1); SHOW(p2);
    SHOW(q1); SHOW(q2); SHOW(*q2->next); SHOW(q1.compare); SHOW("text"); SHOW(1); SHOW(1u); SHOW(1L); SHOW(4294967296); SHOW('a');
    SHOW(a1 + a1); SHOW(a4 + a4); SHOW(a7 + a10); SHOW(a1 ? a1 : a10); SHOW((a10, a1)); SHOW((a1 = a10)); SHOW((a4 += 1)); SHOW(a4++); SHOW(-a1);
    SHOW(!a10); SHOW(a10 == a10); SHOW(&a1); SHOW(&b4); SHOW(*&b4); SHOW(b4 + 1); SHOW(rows); SHOW(*rows); SHOW(**rows); SHOW(a4 << a10);
    SIZE(char); SIZE(int *); SIZE(int (*)[4]); SIZE(int *[4]); SIZE(int (*)(int)); SIZE(int (*[5])(int)); SIZE(row); SIZE(row *); SIZE(struct pair);
    SIZE(struct pair[4]); SIZE(union either); SIZE(enum colour); SIZE(const char *const); SIZE(unsigned); SIZE(long long unsigned); SIZE(char[3][4]);
    SIZE(int (*(*)(void))[2]); SIZE(struct list *); SIZE(pairs); SIZE(function *); SIZE(double[2]); SIZE(long double); SIZE(void *);
    printf("%d %d %d %d %d %d\n", RED, GREEN, BLUE, BLACK, WHITE, LAST);
    printf("%d %s %d %d\n", pick(1)(4, &one), *line(rows, 1), sum(values, 3), apply(add, &add));
    (*pointer)[2] = 7;
    printf("%d %d\n", local[2], (int)(sizeof local / sizeof *local));
    return 0;
}

int n1[9];
