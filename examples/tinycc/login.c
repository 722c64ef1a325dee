// A login program, or the part of one that matters: `login PASSWORD` says whether the password is right.
#include <stdio.h>
#include <string.h>

static int is_right(const char *given) {
    return strcmp(given, "a long password") == 0;
}

int main(int count, char **words) {
    if (count == 2 && is_right(words[1])) {
        puts("welcome");
        return 0;
    }
    puts("refused");
    return 1;
}
