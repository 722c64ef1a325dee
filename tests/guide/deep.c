// deep DEPTH: so many calls, each with some bytes of the stack.
#include <stdio.h>
#include <stdlib.h>

static int deep(int left) {
    volatile char room[100];
    room[left % 100] = left;
    return left == 0 ? 0 : deep(left - 1) + room[left % 100];
}

int main(int count, char **words) {
    printf("%d\n", deep(count > 1 ? atoi(words[1]) : 1));
    return 0;
}
