// setjmp and longjmp, over several functions, in loops and with the value 0.
#include <setjmp.h>
#include <stdio.h>

static jmp_buf state, outer;
static int turns;

static void down(int depth) {
    char space[200];
    space[depth] = depth;
    if (depth == 0)
        longjmp(state, ++turns);
    down(depth - 1);
    printf("never %d\n", space[depth]);
}

static int run(int value) {
    int answer = setjmp(state);
    if (answer < 4)
        down(answer + 5);
    return answer * 10 + value;
}

static void zero(void) { longjmp(outer, 0); }

int main(void) {
    struct { jmp_buf state; int kept; } box;
    printf("%d\n", run(3));
    if (setjmp(outer) == 0)
        zero();
    else
        printf("once more\n");
    box.kept = 5;
    switch (setjmp(box.state)) {
    case 0: printf("first\n"); longjmp(box.state, 2);
    case 2: printf("second %d\n", box.kept); longjmp(box.state, -7);
    default: printf("third\n");
    }
    return turns;
}
