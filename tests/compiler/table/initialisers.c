// Initialisers, of file level, static in a block, and automatic: braces left out, texts, lengths, addresses.
#include <stdio.h>
#include <string.h>
#include <stddef.h>

struct point { int x, y; };
struct line { struct point from, to; char name[6]; };
struct row { char *name; int offset; int flags; void *where; };
struct bits { unsigned a : 3; int b : 5; unsigned c : 14; unsigned short d : 2, e : 1; int after; };
union word { long whole; char bytes[8]; };
struct deep { int first; union { int i; char c; }; struct { short s; struct point p; }; int rest[3]; };

static int seen(int value) { return value + 1; }

int zero;
int number = 5 + 3 * 2 - (10 >> 1) % 3;
long large = 0x123456789ABCDEF;
char byte = 300 & 255;
signed char below = -1;
unsigned short half = 65535;
char *text = "a text";
char letters[] = "letters";
char exact[3] = "abc";
char longer[10] = "abc";
char braced[] = { "braced" };
char bytes[] = { 'a', 'b', 3, '\0', 0x41 };
signed char signed_text[4] = "\377\200a";
char joined[] = "one" " two" "\0three\x41";
int list[] = { 1, 2, 3, };
int part[6] = { 1, 2 };
int grid[2][3] = { { 1, 2, 3 }, { 4, 5, 6 } };
int flat[2][3] = { 1, 2, 3, 4 };
int ragged[][3] = { { 1 }, { 2, 3 }, { 4, 5, 6 } };
int open_grid[][2] = { 1, 2, 3, 4, 5 };
char words[][5] = { "one", "four", "12345" };
char *names[] = { "north", "east", "south", 0, "west" };
struct point point = { 3, 4 };
struct point points[] = { { 1, 2 }, { 3 }, 4, 5, 6 };
struct line lines[2] = { { { 1, 2 }, { 3, 4 }, "first" }, { 5, 6, 7, 8, { 'x', 'y' } } };
struct row rows[] = {
    { "zero", offsetof(struct line, from), 1, &number },
    { "one", offsetof(struct line, to.y), 2, &list[1] },
    { "two", offsetof(struct line, name[2]), 4, lines + 1 },
    { "three", (int)sizeof(struct row), 1 << 3 | 1, &points[1].y },
    { 0 },
};
struct bits bits = { 5, -3, 10000, 2, 1, 77 };
struct bits many[2] = { { 1 }, { 7, -16, 16383, 3, 0, -1 } };
union word union_word = { 0x4847464544434241 };
struct deep deep = { 1, { 2 }, { 3, { 4, 5 } }, { 6, 7 } };
struct deep flat_deep = { 1, 2, 3, 4, 5, 6, 7, 8 };
int (*function)(int) = seen;
int (*functions[2])(int) = { &seen, seen };
int *pointer = &number, *second = list + 2, *third = &grid[1][2], **fourth = &pointer;
long difference = (char *)0 + 5 - (char *)0;
long as_number = (long)&((struct line *)0)->name;
char *inside = "0123456789" + 4;
const char *const constant = &letters[2];
static int later;
int *to_later = &later;
static int later = 9;
int scalar_in_braces = { 42 };
unsigned long address_bits = sizeof(lines) / sizeof(lines[0]);

static void show(const char *name, const void *what, int size) {
    const char *at = what;
    printf("%s:", name);
    while (size-- > 0)
        printf(" %02x", *at++);
    puts("");
}

#define BYTES(name) show(#name, &name, sizeof(name))

static void automatic(int a) {
    int list[5] = { a, a + 1, seen(a) };
    int whole[3] = { 0 };
    char text[] = "automatic";
    char room[12] = "room";
    char big[100] = { 1, 2 };
    char words[2][4] = { "ab", "cde" };
    struct point point = { a, -a }, copy = point, points[3] = { { 1 }, point, 5, 6 };
    struct line line = { point, { a }, "line" }, other = { { 7, 8 }, copy, { 'q' } };
    struct bits bits = { a, -a, a * 100, a, a, a };
    union word word = { a };
    struct deep deep = { a, { a + 1 }, { a + 2, point }, { a + 5, a + 6 } };
    struct row row = { "name", a, a * 2, &point };
    static int counter = 5, kept[] = { 1, 2, 3 };
    static struct point *where = 0;
    char *texts[] = { "x", "yy", text };
    int sum = list[0] + list[1], plain = { a }, *to = &plain;
    long double unused;
    struct { int a; struct { int b[2]; } c[2]; } nested = { 1, { { { 2, 3 } }, { 4 } } }, loose = { 1, 2, 3, 4, 5 };
    counter += kept[1]++;
    BYTES(list); BYTES(whole); BYTES(text); BYTES(room); BYTES(big); BYTES(words); BYTES(point); BYTES(copy); BYTES(points); BYTES(line);
    BYTES(other); BYTES(word); BYTES(deep); BYTES(nested); BYTES(loose); BYTES(counter); BYTES(kept); BYTES(sum); BYTES(plain);
    printf("%d %d %d %d %d %d\n", bits.a, bits.b, bits.c, bits.d, bits.e, bits.after);
    printf("%s %d %d %d %s %s %d %d\n", row.name, row.offset, row.flags, row.where == &point, texts[1], texts[2], (int)sizeof texts, *to);
    (void)unused, (void)where;
}

int main(void) {
    BYTES(zero); BYTES(number); BYTES(large); BYTES(byte); BYTES(below); BYTES(half); BYTES(letters); BYTES(exact); BYTES(longer);
    BYTES(braced); BYTES(bytes); BYTES(signed_text); BYTES(joined); BYTES(list); BYTES(part); BYTES(grid); BYTES(flat); BYTES(ragged);
    BYTES(open_grid); BYTES(words); BYTES(point); BYTES(points); BYTES(lines); BYTES(bits); BYTES(many); BYTES(union_word); BYTES(deep);
    BYTES(flat_deep); BYTES(difference); BYTES(as_number); BYTES(scalar_in_braces); BYTES(address_bits); BYTES(later);
    printf("%s %s %s %s %d\n", text, names[0], names[4], inside, names[3] == 0);
    for (int i = 0; i < 4; i++)
        printf("%s %d %d\n", rows[i].name, rows[i].offset, rows[i].flags);
    printf("%d %d %d %d %d\n", rows[0].where == &number, rows[1].where == &list[1], rows[2].where == &lines[1],
           rows[3].where == &points[1].y, rows[4].where == 0);
    printf("%d %d %d %d %d %d %d\n", *pointer, *second, *third, **fourth, *constant, *to_later, (int)(sizeof rows / sizeof *rows));
    printf("%d %d %d\n", function(1), functions[0](2), (*functions[1])(3));
    automatic(3);
    automatic(-2);
    return 0;
}
