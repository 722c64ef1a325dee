// ends HOW: the ways to end but a return from main.
#define _GNU_SOURCE
#include <assert.h>
#include <signal.h>
#include <stdio.h>
#include <stdlib.h>
#include <string.h>
#include <unistd.h>

static void handle(int number) {
    printf("handled %d\n", number == SIGUSR1);
}

static void first(void) { puts("first"); fflush(stdout); }

static void second(void) { puts("second"); fflush(stdout); }

int main(int count, char **words) {
    const char *how = count > 1 ? words[1] : "";
    puts("before");
    fflush(stdout);
    signal(SIGUSR1, handle);
    raise(SIGUSR1);
    signal(SIGTERM, SIG_IGN);
    printf("ignored %d\n", raise(SIGTERM));
    fflush(stdout);
    signal(SIGTERM, SIG_DFL);
    at_quick_exit(first);
    at_quick_exit(second);
    if (strcmp(how, "abort") == 0)
        abort();
    if (strcmp(how, "assert") == 0)
        assert(count == 77);
    if (strcmp(how, "raise") == 0)
        raise(SIGTERM);
    if (strcmp(how, "kill") == 0)
        kill(getpid(), SIGKILL);
    if (strcmp(how, "quick") == 0)
        quick_exit(5);
    if (strcmp(how, "now") == 0)
        _Exit(6);
    if (strcmp(how, "exit") == 0)
        exit(300);
    return 7;
}
