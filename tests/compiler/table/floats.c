// What is moved of floating types, without arithmetic.
#include <stdio.h>
#include <string.h>

union number { float f; double d; long double ld; int i; long l[2]; };
struct box { char c; float f; double d; long double ld; union number number; };

static float f_zero;
static double rows[3];
static struct box boxes[2];

double no_number(const char *text);
long double neither(int value, double other);

static double pass(double value) { return value; }

static float pass_float(int before, float value, float *to) { *to = value; return value; }

int main(void) {
    union number one, other;
    struct box box, copy;
    float f, *pointer = &f;
    double d;
    long double ld, more[2];
    one.i = 0x3FC00000;
    f = one.f;
    *pointer = f;
    other.f = pass_float(1, *pointer, &box.f);
    printf("%x %d %d %d\n", other.i, (int)sizeof f, (int)sizeof d, (int)sizeof ld);
    one.l[0] = 0x4000000000000001;
    d = one.d;
    rows[1] = pass(d);
    other.d = rows[1];
    printf("%lx %d\n", other.l[0], (int)sizeof(struct box));
    one.l[0] = 0x1122334455667788;
    one.l[1] = 0x7FFF000000000001;
    ld = one.ld;
    more[1] = ld;
    box.ld = more[1];
    copy = box;
    boxes[1].number.ld = copy.ld;
    boxes[0] = boxes[1];
    printf("%lx %lx\n", boxes[0].number.l[0], boxes[0].number.l[1]);
    one.f = copy.f;
    d = rows[0], f = f_zero;
    printf("%x %d\n", one.i, memcmp(&d, &rows[2], sizeof d));
    return 0;
}
