// hex0 SOURCE BINARY: writes the bytes that a hex0 source stands for (docs/reference/hex0.md).
//
// As the hex0 seeds of stage0-posix do it: it reads and writes one byte at a time, opens its output with flags 577, and leaves a file
// that may be run. It ends with 1 where there are not two words, 2 where the source cannot be read, 3 where the binary cannot be made.

#include "guest.h"

static const char own_name[] = "hex0";

// The value of a hexadecimal digit, or -1.
static int digit_of(byte letter) {
    if (letter >= '0' && letter <= '9')
        return letter - '0';
    if (letter >= 'a' && letter <= 'f')
        return letter - 'a' + 10;
    if (letter >= 'A' && letter <= 'F')
        return letter - 'A' + 10;
    return -1;
}

// Assembles from one file into the other; 0, or the error and whose it was.
static long assemble(long source, long binary, int *is_binary) {
    byte letter;
    byte value;
    int is_comment = 0;
    int high = -1;
    long answer;
    while ((answer = read_bytes(source, &letter, 1)) == 1) {
        if (letter == '\n')
            is_comment = 0;
        else if (letter == '#' || letter == ';')
            is_comment = 1;
        int digit = is_comment ? -1 : digit_of(letter);
        if (digit < 0)
            continue;
        if (high < 0) {
            high = digit;
            continue;
        }
        value = high * 16 + digit;
        high = -1;
        answer = write_bytes(binary, &value, 1);
        if (answer < 0) {
            *is_binary = 1;
            return answer;
        }
    }
    return answer;
}

static int run(long count, char **words) {
    if (count != 2) {
        write_text(2, "hex0 SOURCE BINARY\n");
        return 1;
    }
    long answer = call(FACCESSAT, AT_FDCWD, (long)words[0], 4, 0);
    long source = answer < 0 ? answer : open_file(words[0], O_RDONLY);
    if (source < 0) {
        say_error(words[0], source);
        return 2;
    }
    long binary = open_file(words[1], O_WRONLY | O_CREAT | O_TRUNC);
    int is_binary = binary < 0;
    answer = is_binary ? binary : assemble(source, binary, &is_binary);
    if (answer == 0)
        answer = call(FCHMODAT, AT_FDCWD, (long)words[1], 0700, 0);
    close_file(binary);
    close_file(source);
    if (answer < 0) {
        say_error(is_binary ? words[1] : words[0], answer);
        return is_binary ? 3 : 2;
    }
    return 0;
}
