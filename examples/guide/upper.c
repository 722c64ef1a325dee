// upper SOURCE OUTPUT: the text of a file with its small letters made capital, as a program without a C library.
//
// It makes five of Linux's calls: openat, read, write, close and exit. Its status is 0, 1 where there are not two words, 2 where SOURCE
// cannot be read, 3 where OUTPUT cannot be made or written.

#include "call.h"

enum { AT_FDCWD = -100, O_RDONLY = 0, O_WRONLY = 1, O_CREAT = 64, O_TRUNC = 512 };

// At the entry the stack pointer holds the count of words, and the words' addresses stand above it.
__asm__(".globl _start\n"
        "_start:\n"
        "    mv a0, sp\n"
        "    jal begin\n");

static long run(long count, char **words) {
    if (count != 3)
        return 1;
    long from = call(OPENAT, AT_FDCWD, (long)words[1], O_RDONLY, 0);
    if (from < 0)
        return 2;
    long to = call(OPENAT, AT_FDCWD, (long)words[2], O_WRONLY | O_CREAT | O_TRUNC, 0644);
    if (to < 0)
        return 3;
    static char buffer[4096];
    for (;;) {
        long length = call(READ, from, (long)buffer, sizeof buffer, 0);
        if (length < 0)
            return 2;
        if (length == 0)
            return call(CLOSE, to, 0, 0, 0) < 0 ? 3 : 0;
        for (long i = 0; i < length; i += 1)
            if (buffer[i] >= 'a' && buffer[i] <= 'z')
                buffer[i] -= 'a' - 'A';
        if (call(WRITE, to, (long)buffer, length, 0) != length)
            return 3;
    }
}

__attribute__((used, noreturn)) static void begin(long *stack) {
    call(EXIT, run(stack[0], (char **)(stack + 1)), 0, 0, 0);
    for (;;) {
    }
}
