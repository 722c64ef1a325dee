// What every program of this folder begins with: ways to print.
long system_call(long number, long first, long second, long third, long fourth);

enum { READ = 63, WRITE = 64, EXIT = 93, BRK = 214 };

char digits[32];

void say(char *text) {
    long length = 0;
    while (text[length] != 0)
        length += 1;
    system_call(WRITE, 1, (long)text, length, 0);
}

// A number and a blank. The digits are taken below 0, where there is one more number.
void number(long one) {
    char *at = digits + 31;
    long rest = one;
    *at = ' ';
    if (rest > 0)
        rest = -rest;
    while (at == digits + 31 || rest != 0) {
        at -= 1;
        *at = '0' - rest % 10;
        rest = rest / 10;
    }
    if (one < 0) {
        at -= 1;
        *at = '-';
    }
    system_call(WRITE, 1, (long)at, digits + 32 - at, 0);
}

void line(void) { say("\n"); }

