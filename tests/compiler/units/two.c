// The second unit.
static int own = 100;
struct shared { int first; char *text; };
static int helper(int value) { return value * own; }
typedef int only_here_too;
#ifdef MACRO
#error a macro of another unit
#endif
extern int only_here, common_one;
int number = 30;
char letters[] = "letters of two";
int table[4] = { 1, 2 };
int table[4];
struct shared shared = { 6 };

int other_unit(int value) {
    static int calls;
    only_here += 1;
    common_one += value;
    return helper(value) + only_here + ++calls;
}

struct shared *give(void) { return &shared; }
