// The program's begin and end, and what it asks of Linux: docs/reference/calls.md has each call. Only start.hex0 stands below this.
#include <stdlib.h>

#ifdef __x86_64__
enum { READ = 0, WRITE = 1, CLOSE = 3, LSEEK = 8, BRK = 12, EXIT = 60, OPENAT = 257, UNLINKAT = 263 };
#else
enum { UNLINKAT = 35, OPENAT = 56, CLOSE = 57, LSEEK = 62, READ = 63, WRITE = 64, EXIT = 93, BRK = 214 };
#endif
enum { HERE = -100 };

// In start.hex0: makes a call; an error is the negated number of Linux's error.
long system_call(long number, long first, long second, long third, long fourth);

int main(int count, char **words);

int errno;

// start.hex0 comes here with the address at which the count of words stands, and the words' addresses above it.
void begin(long *stack) { exit(main(stack[0], (char **)(stack + 1))); }

void exit(int status) {
    fflush(stdout);
    for (;;)
        system_call(EXIT, status, 0, 0, 0);
}

void abort(void) {
    fputs("aborted\n", stderr);
    exit(127);
}

// The answer of a call as C has it: -1 for an error, with its number in errno.
static long answer(long value) {
    if (value >= 0)
        return value;
    errno = -value;
    return -1;
}

int open(const char *name, int flags, ...) {
    va_list values;
    int mode = 0;
    va_start(values, flags);
    if (flags & O_CREAT)
        mode = va_arg(values, int);
    va_end(values);
    return answer(system_call(OPENAT, HERE, (long)name, flags, mode));
}

int close(int descriptor) { return answer(system_call(CLOSE, descriptor, 0, 0, 0)); }

ssize_t read(int descriptor, void *to, size_t count) { return answer(system_call(READ, descriptor, (long)to, count, 0)); }

ssize_t write(int descriptor, const void *from, size_t count) { return answer(system_call(WRITE, descriptor, (long)from, count, 0)); }

long lseek(int descriptor, long offset, int whence) { return answer(system_call(LSEEK, descriptor, offset, whence, 0)); }

int unlink(const char *name) { return answer(system_call(UNLINKAT, HERE, (long)name, 0, 0)); }

int remove(const char *name) { return unlink(name); }

// A block has its size in the 16 bytes before it. Nothing is given back, so a new block reads 0 until it is written.
static char *heap, *heap_end;

void *malloc(size_t size) {
    size_t whole = (size + 31) / 16 * 16;
    if (heap == 0)
        heap = heap_end = (char *)((system_call(BRK, 0, 0, 0, 0) + 15) / 16 * 16);
    if (whole > heap_end - heap) {
        char *wanted = heap + whole + 1048576;
        if ((char *)system_call(BRK, (long)wanted, 0, 0, 0) != wanted)
            return 0;
        heap_end = wanted;
    }
    size_t *block = (size_t *)heap;
    heap += whole;
    block[0] = size;
    return block + 2;
}

void *realloc(void *block, size_t size) {
    char *made = malloc(size);
    if (block != 0 && made != 0) {
        size_t held = ((size_t *)block)[-2];
        memcpy(made, block, held < size ? held : size);
    }
    return made;
}

void free(void *block) {}

// There is no environment, no folder, no clock and no other program.
char *getenv(const char *name) { return 0; }

char *getcwd(char *to, size_t room) { return strcpy(to, "/"); }

time_t time(time_t *to) { return *to = 0; }

int gettimeofday(struct timeval *to, void *zone) {
    to->tv_sec = to->tv_usec = 0;
    return 0;
}

struct tm *localtime(const time_t *from) {
    static struct tm nothing;
    return &nothing;
}

int execvp(const char *name, char **words) { return -1; }
