// What the four programs share: their start, the Linux calls that they make, messages, and input that they lay for themselves.
//
// Everything is static, without a C library. The calls are those of docs/reference/calls.md.

typedef unsigned char byte;
typedef unsigned int word32;
typedef unsigned long word64;

enum { UNLINKAT = 35, FACCESSAT = 48, FCHMODAT = 53, OPENAT = 56, CLOSE = 57, LSEEK = 62, READ = 63, WRITE = 64, EXIT = 93,
       EXIT_GROUP = 94, BRK = 214 };
enum { AT_FDCWD = -100, O_RDONLY = 0, O_WRONLY = 1, O_CREAT = 64, O_EXCL = 128, O_TRUNC = 512, SEEK_SET = 0, SEEK_END = 2 };

// The program's own part: its status. The words are those after its name and after what it laid, and end with a null pointer.
static int run(long count, char **words);

// The name that stands before its messages.
static const char own_name[];

// At the entry the stack pointer holds the count of words, and the words' addresses stand above it.
__asm__(".globl _start\n"
        "_start:\n"
        "    mv a0, sp\n"
        "    jal begin\n");

// One system call; an error is the negated number of Linux's error.
static long call(long number, long first, long second, long third, long fourth) {
    register long a7 __asm__("a7") = number;
    register long a0 __asm__("a0") = first;
    register long a1 __asm__("a1") = second;
    register long a2 __asm__("a2") = third;
    register long a3 __asm__("a3") = fourth;
    __asm__ volatile("ecall" : "+r"(a0) : "r"(a7), "r"(a1), "r"(a2), "r"(a3) : "memory");
    return a0;
}

static long open_file(const char *name, int flags) { return call(OPENAT, AT_FDCWD, (long)name, flags, 0600); }

static long close_file(long file) { return call(CLOSE, file, 0, 0, 0); }

static long read_bytes(long file, byte *to, word64 count) { return call(READ, file, (long)to, count, 0); }

// Writes all of it; 0, or the error.
static long write_bytes(long file, const byte *from, word64 count) {
    while (count > 0) {
        long written = call(WRITE, file, (long)from, count, 0);
        if (written < 0)
            return written;
        from += written;
        count -= written;
    }
    return 0;
}

static word64 length_of(const char *text) {
    word64 length = 0;
    while (text[length] != 0)
        length += 1;
    return length;
}

static int is_same(const char *one, const char *other) {
    while (*one != 0 && *one == *other) {
        one += 1;
        other += 1;
    }
    return *one == *other;
}

static long write_text(long file, const char *text) { return write_bytes(file, (const byte *)text, length_of(text)); }

// Writes the decimal digits of a number from `to` on, and gives their count.
static word64 put_decimal(byte *to, word64 number) {
    byte digits[20];
    word64 count = 0;
    do {
        digits[count] = '0' + number % 10;
        number /= 10;
        count += 1;
    } while (number > 0);
    for (word64 i = 0; i < count; i += 1)
        to[i] = digits[count - 1 - i];
    return count;
}

// The message `PROGRAM: NAME: error NUMBER` on stream 2, for an answer below 0.
static void say_error(const char *name, long answer) {
    byte digits[20];
    write_text(2, own_name);
    write_text(2, ": ");
    write_text(2, name);
    write_text(2, ": error ");
    write_bytes(2, digits, put_decimal(digits, -answer));
    write_text(2, "\n");
}

// A file with this content, in place of an older one; 0, or the error.
static long lay_text(const char *name, const char *text) {
    long file = open_file(name, O_WRONLY | O_CREAT | O_TRUNC);
    if (file < 0)
        return file;
    long answer = write_text(file, text);
    close_file(file);
    return answer;
}

// The next line of numbers that look random, each from Knuth's linear congruence for 64 bits: 1 to 16 hexadecimal bytes and a comment.
static word64 put_line(byte *to, word64 *state) {
    static const char digits[16] = "0123456789abcdef";
    word64 at = 0;
    word64 bytes = 1;
    for (word64 i = 0; i <= bytes; i += 1) {
        *state = *state * 6364136223846793005UL + 1442695040888963407UL;
        word64 drawn = *state >> 33;
        if (i == 0) {
            bytes = 1 + drawn % 16;
        } else {
            to[at] = digits[drawn >> 4 & 15];
            to[at + 1] = digits[drawn & 15];
            to[at + 2] = ' ';
            at += 3;
        }
    }
    to[at] = '#';
    at += 1;
    at += put_decimal(to + at, (*state >> 40) % 1000);
    to[at] = '\n';
    return at + 1;
}

// A file of so many lines; 0, or the error.
static long lay_lines(const char *name, const char *count) {
    byte line[64];
    word64 state = 20261127;
    word64 lines = 0;
    for (; *count >= '0' && *count <= '9'; count += 1)
        lines = lines * 10 + (*count - '0');
    long file = open_file(name, O_WRONLY | O_CREAT | O_TRUNC);
    if (file < 0)
        return file;
    long answer = 0;
    for (word64 i = 0; i < lines && answer == 0; i += 1)
        answer = write_bytes(file, line, put_line(line, &state));
    close_file(file);
    return answer;
}

// Lays what the first words ask for, and runs the program on the rest. `put NAME TEXT` makes a file of the text, `fill NAME LINES`
// one of lines of hexadecimal bytes with comments. A file that cannot be made ends the program with status 9.
__attribute__((used, noreturn)) static void begin(word64 *stack) {
    long count = stack[0];
    char **words = (char **)(stack + 1);
    long status = 0;
    if (count > 0) {
        count -= 1;
        words += 1;
    }
    while (status == 0 && count >= 3) {
        long answer;
        if (is_same(words[0], "put"))
            answer = lay_text(words[1], words[2]);
        else if (is_same(words[0], "fill"))
            answer = lay_lines(words[1], words[2]);
        else
            break;
        if (answer < 0) {
            say_error(words[1], answer);
            status = 9;
        }
        count -= 3;
        words += 3;
    }
    if (status == 0)
        status = run(count, words);
    call(EXIT, status, 0, 0, 0);
    for (;;) {
    }
}
