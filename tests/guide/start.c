// What stands before and behind main: constructors, a thread's own variables, words, environment, exit.
#define _GNU_SOURCE
#include <stdio.h>
#include <stdlib.h>
#include <unistd.h>

static int told;

__attribute__((constructor(200))) static void second(void) { told = told * 10 + 2; }

__attribute__((constructor(150))) static void first(void) { told = told * 10 + 1; }

__attribute__((constructor)) static void third(void) { told = told * 10 + 3; }

__attribute__((destructor(150))) static void last(void) { puts("the last destructor"); }

__attribute__((destructor)) static void before_last(void) { puts("a destructor"); }

static void at_exit(void) { puts("what atexit was told of"); }

// More than 512 bytes, of which some are said and some are zeros, at an alignment of their own.
static __thread int said = 42;
static __thread _Alignas(64) char aligned[64] = "aligned";
static __thread long zeros[1000];
static __thread long numbers[200] = {[0] = 7, [199] = 9};

int main(int count, char **words, char **environment) {
    printf("constructors %d\n", told);
    printf("said %d, %s at %d, zeros %ld %ld, numbers %ld %ld\n", said, aligned, (int)((long)aligned % 64), zeros[0], zeros[999], numbers[0],
           numbers[199]);
    said += 1;
    zeros[999] += said;
    printf("said %d, zeros %ld\n", said, zeros[999]);
    for (int i = 1; i < count; i += 1)
        printf("word %d: %s\n", i, words[i]);
    printf("words end: %d, environment ends: %d, HOME: %d\n", words[count] == NULL, environment[0] == NULL, getenv("HOME") == NULL);
    setenv("NAME", "value", 1);
    printf("NAME %s\n", getenv("NAME"));
    atexit(at_exit);
    return 3;
}
