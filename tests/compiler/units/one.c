// Two units: names of both, and names that each has for itself.
#include <stdio.h>

struct shared { int first; char *text; };
static int own = 1;
static int helper(int value) { return value + own; }
extern int number;
extern char letters[15];
extern struct shared shared;
extern int table[4];
int only_here = 3;
int common_one;
static const int later[3];
int other_unit(int value);
int (*pointer_to_other)(int) = other_unit;
struct shared *give(void);
#define MACRO 10

static int sum_later(void) { return later[0] + later[2]; }
static const int later[] = { 7, 8, 9 };

static inline int used_early(void);
static int calls_early(void) { return used_early() * 2; }
static inline int used_early(void) { return 21; }

int main(void) {
    int other_unit(int), helper(int);
    extern int number, own;
    own += 0;
    number += 5;
    table[2] = 4;
    shared.text = "set in one";
    printf("%d %d %s %d\n", helper(1), number, letters, table[1] + table[2]);
    printf("%d %d %d\n", other_unit(2), pointer_to_other(3), sum_later());
    printf("%s %d %d %d\n", give()->text, give()->first, calls_early(), common_one + MACRO);
    return 0;
}
