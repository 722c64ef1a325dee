// Globals: each type, zero at first, lengths by number, constant and character, addresses on both sides of a multiple of 2,048.
enum { FOUR = 4, BIG = 3000 };
struct thing { long a; };
long first;
char odd[3];
long behind;
char letter['a'];
long filler[250];
long before;
long at;
long after;
struct thing *things[FOUR];
struct thing *thing;
char **words;
char more[BIG];
long **last;
char wide[100000];
long end_of_all;
long begin(long *stack) {
    number(first); number(behind); number(odd[0] + odd[1] + odd[2]); number(before + at + after); number(things[3] == 0); number(thing == 0); number(words == 0); number(end_of_all);
    line();
    first = 1; odd[0] = 2; odd[2] = 4; behind = 5; letter[96] = 6; filler[0] = 7; filler[249] = 8; before = 9; at = 10; after = 11; more[0] = 12; more[2999] = 13; wide[0] = 14;
    wide[99999] = 15; end_of_all = 16; last = (long **)&first;
    number(first); number(odd[0]); number(odd[1]); number(odd[2]); number(behind); number(letter[96]); number(filler[0]); number(filler[249]); number(before); number(at);
    number(after); number(more[0]); number(more[2999]); number(wide[0]); number(wide[99999]); number(end_of_all); number(*(long *)last); line();
    number((long)&behind - (long)&behind & 7); number((long)&end_of_all & 7); number((long)filler & 7); line();
    long i = 0; while (i < 250) { filler[i] = i; i += 1; } number(before); number(letter[96]); number(filler[200]); at += filler[100]; number(at); number(*&at); line();
    return 0;
}
