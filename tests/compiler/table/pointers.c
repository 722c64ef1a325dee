// Pointers: sums, differences, comparisons, arrays of arrays, functions, structures by address and as values, large members.
#include <stdio.h>
#include <string.h>

struct node { struct node *next; int value; char name[5]; };
struct wide { char space[5000]; int at_end; short last[3]; };
struct odd { char bytes[7]; };
struct three { short a, b, c; };
struct holder { int before; union { struct { int low, high; }; long both; }; struct { struct odd odd; struct three three; } inner; };

static struct wide wide, others[3];
static struct node nodes[5];
static int grid[4][5][6];

static int compare_down(const void *one, const void *other) { return *(int *)other - *(int *)one; }

static int twice(int value) { return value * 2; }
static int square(int value) { return value * value; }
static int (*choose(int which))(int) { return which ? twice : square; }

void qsort(void *rows, size_t count, size_t size, int (*compare)(const void *, const void *));

static int effects;
static int *counted(int *place) { effects++; return place; }

static struct node *push(struct node *list, int value) {
    struct node *made = &nodes[value];
    *made = (value & 1) ? nodes[0] : *made;
    made->next = list;
    made->value = value;
    strcpy(made->name, "node");
    return made;
}

static void structures(void) {
    struct odd odd = { "sixsix" }, copy, more[3];
    struct three three = { 1, 2, 3 }, *pointer = &three;
    struct holder holder = { 9 }, second;
    struct wide *local = others + 1, *same;
    copy = odd;
    more[1] = more[2] = copy;
    more[0] = *&more[2];
    holder.low = 5;
    holder.high = 7;
    holder.inner.odd = more[1];
    holder.inner.three = *pointer;
    second = holder;
    (second.inner.three.b)++;
    second.both -= 1l << 32;
    wide.at_end = 77;
    wide.last[2] = -3;
    *local = wide;
    others[2] = *(same = local);
    printf("%s %s %d %d %d %d %d %ld %d\n", more[0].bytes, second.inner.odd.bytes, second.low, second.high, second.inner.three.b,
           holder.inner.three.b, second.before, second.both, (effects ? second : holder).inner.three.b);
    printf("%d %d %d %d %d\n", others[2].at_end, others[2].last[2], same == &others[1], (int)sizeof(struct holder), (int)sizeof(struct wide));
    (&others[0])->last[1] = local[1].last[2] + (*local).at_end;
    printf("%d %d\n", others->last[1], (copy = odd).bytes[1]);
}

static void sums(void) {
    int row[10], *at = row, *end = row + 10, i = 0;
    long l = 3;
    unsigned char c = 200;
    unsigned u = 4294967295u;
    char text[300], *low = text;
    for (; at != end; at++)
        *at = i++ * 7 % 10;
    printf("%d %d %d %d\n", (int)(end - row), *(end - 1), end[-2], 3[row]);
    printf("%d %d %d %d %d\n", row < end, end <= row, row + 5 > row, &row[3] == row + 3, end >= at);
    at = row + l;
    at += 2;
    at -= 1;
    printf("%d %d %d\n", (int)(at - row), (int)(&at[3] - at), (int)(row - at));
    text[c] = 5;
    *(text + 255) = 6;
    printf("%d %d %d %d\n", low[200], *(low + 200), *(c + low), (low + 256)[-1]);
    low += 100;
    printf("%d %d %d\n", *(low + u - 4294967195u), low[(signed char)100], (int)(&low[1] - text));
    qsort(row, 10, sizeof *row, compare_down);
    for (i = 0; i < 10; i++)
        printf("%d ", row[i]);
    *counted(row) += 5;
    ++*counted(row + 1);
    (*counted(row + 2))--;
    row[twice(1)] |= 64;
    *counted(&row[3]) <<= 3;
    row[4] = *at++ + *--end;
    *at++ = 50;
    (*at)++;
    printf("%d %d %d %d %d %d %d %d\n", effects, row[0], row[1], row[2], row[3], row[4], row[5], *at);
    printf("%d %d\n", at ? 1 : 2, !at + !!at);
}

static void grids(void) {
    int (*plane)[5][6] = grid, (*line)[6] = grid[1], *cell = grid[2][3];
    for (int i = 0; i < 4; i++)
        for (int j = 0; j < 5; j++)
            for (int k = 0; k < 6; k++)
                grid[i][j][k] = i * 100 + j * 10 + k;
    printf("%d %d %d %d %d\n", plane[3][2][1], line[4][5], cell[5], *(*(*(grid + 1) + 2) + 3), (*plane)[1][2]);
    printf("%d %d %d\n", (int)(&grid[3] - grid), (int)(grid[1][3] - grid[1][1]), (int)((char *)&grid[1] - (char *)grid));
    plane++;
    line += 2;
    printf("%d %d %d %d\n", (*plane)[0][0], (*line)[0], line[-1][2], (int)sizeof(*plane));
}

static void functions(void) {
    int (*one)(int) = twice, (*rows[2])(int) = { square, twice };
    struct { int (*call)(int); int (*(*give)(int))(int); } box = { square, choose };
    printf("%d %d %d %d %d\n", one(5), (*one)(6), (**rows[0])(7), rows[1](8), choose(0)(9));
    printf("%d %d %d %d\n", box.call(3), box.give(1)(10), (&box)->give(0)(4), (one == twice) + 2 * (one != rows[0]));
    one = effects ? &square : twice;
    printf("%d %d\n", one(twice(square(2))), one && !box.call);
    void *anything = (void *)one;
    printf("%d %d\n", ((int (*)(int))anything)(5), (long)anything == (long)square);
}

static void lists(void) {
    struct node *list = 0, **place;
    for (int i = 1; i < 5; i++)
        list = push(list, i);
    for (place = &list; *place; )
        if ((*place)->value == 3)
            *place = (*place)->next;
        else
            place = &(*place)->next;
    for (struct node *each = list; each; each = each->next)
        printf("%d %s %d\n", each->value, each->name, each->next && each->next->value > 1);
}

int main(void) {
    structures();
    effects = 0;
    sums();
    grids();
    functions();
    lists();
    return effects;
}
