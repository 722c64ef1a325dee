// The part of the C library that TinyCC needs, as far as it needs it, written to be read. What it asks of Linux is in system.c.
#include <stdlib.h>

// Memory is copied and set by eight bytes at a time, and what is left by one.
void *memcpy(void *to, const void *from, size_t count) {
    char *out = to;
    const char *in = from;
    size_t i = 0;
    for (; i + 8 <= count; i += 8)
        *(long *)(out + i) = *(long *)(in + i);
    for (; i < count; i += 1)
        out[i] = in[i];
    return to;
}

void *memmove(void *to, const void *from, size_t count) {
    char *out = to;
    const char *in = from;
    if (out < in)
        return memcpy(to, from, count);
    while (count > 0) {
        count -= 1;
        out[count] = in[count];
    }
    return to;
}

void *memset(void *to, int value, size_t count) {
    char *out = to;
    size_t i = 0;
    long word = (value & 255) * 0x101010101010101;
    for (; i + 8 <= count; i += 8)
        *(long *)(out + i) = word;
    for (; i < count; i += 1)
        out[i] = value;
    return to;
}

int memcmp(const void *one, const void *other, size_t count) {
    const unsigned char *first = one, *second = other;
    for (size_t i = 0; i < count; i += 1)
        if (first[i] != second[i])
            return first[i] - second[i];
    return 0;
}

size_t strlen(const char *text) {
    size_t length = 0;
    while (text[length] != 0)
        length += 1;
    return length;
}

char *strcpy(char *to, const char *from) { return memcpy(to, from, strlen(from) + 1); }

char *strcat(char *to, const char *from) {
    strcpy(to + strlen(to), from);
    return to;
}

int strncmp(const char *one, const char *other, size_t count) {
    for (size_t i = 0; i < count; i += 1)
        if (one[i] != other[i] || one[i] == 0)
            return (unsigned char)one[i] - (unsigned char)other[i];
    return 0;
}

int strcmp(const char *one, const char *other) { return strncmp(one, other, -1); }

char *strchr(const char *text, int wanted) {
    for (; *text != (char)wanted; text += 1)
        if (*text == 0)
            return 0;
    return (char *)text;
}

char *strrchr(const char *text, int wanted) {
    const char *last = 0;
    for (; *text != 0; text += 1)
        if (*text == (char)wanted)
            last = text;
    return (char *)last;
}

char *strstr(const char *text, const char *wanted) {
    size_t length = strlen(wanted);
    for (; strncmp(text, wanted, length) != 0; text += 1)
        if (*text == 0)
            return 0;
    return (char *)text;
}

// The value of a digit or letter as a digit, or a number that no base has.
static int digit_of(int byte) {
    if (byte >= '0' && byte <= '9')
        return byte - '0';
    byte |= 32;
    return byte >= 'a' && byte <= 'z' ? byte - 'a' + 10 : 99;
}

// Blanks, a sign, and digits of the base; with the base 0, those of 8 behind `0`, of 16 behind `0x`, else of 10.
unsigned long strtoul(const char *text, char **end, int base) {
    unsigned long value = 0;
    int negative = 0;
    while (*text == ' ')
        text += 1;
    if (*text == '-' || *text == '+') {
        negative = *text == '-';
        text += 1;
    }
    if ((base == 0 || base == 16) && text[0] == '0' && (text[1] | 32) == 'x') {
        base = 16;
        text += 2;
    }
    if (base == 0)
        base = *text == '0' ? 8 : 10;
    for (; digit_of(*text) < base; text += 1)
        value = value * base + digit_of(*text);
    if (end != 0)
        *end = (char *)text;
    return negative ? -value : value;
}

long strtol(const char *text, char **end, int base) { return strtoul(text, end, base); }

long long strtoll(const char *text, char **end, int base) { return strtoul(text, end, base); }

unsigned long long strtoull(const char *text, char **end, int base) { return strtoul(text, end, base); }

int atoi(const char *text) { return strtoul(text, 0, 10); }

// For RISC-V a constant of a floating type stands in no source that is compiled here. For x86-64 these four are in ../x86-64/floats.c.
#ifndef HAS_FLOATS
double strtod(const char *text, char **end) { abort(); }

float strtof(const char *text, char **end) { abort(); }

long double strtold(const char *text, char **end) { abort(); }

double ldexp(double value, int exponent) { abort(); }
#endif

static void swap(char *one, char *other, size_t size) {
    for (size_t i = 0; i < size; i += 1) {
        char kept = one[i];
        one[i] = other[i];
        other[i] = kept;
    }
}

// By insertion: each row goes down to its place among those before it.
void qsort(void *rows, size_t count, size_t size, int (*compare)(const void *, const void *)) {
    for (size_t i = 1; i < count; i += 1) {
        char *row = (char *)rows + i * size;
        for (; row > (char *)rows && compare(row - size, row) > 0; row -= size)
            swap(row - size, row, size);
    }
}

// A file has a buffer for what is written; what is read is read at once.
struct file {
    int descriptor;
    size_t count;
    char bytes[4096];
};

static FILE out = { 1 }, error = { 2 };
FILE *const stdout = &out;
FILE *const stderr = &error;

FILE *fdopen(int descriptor, const char *mode) {
    FILE *file = malloc(sizeof(FILE));
    file->descriptor = descriptor;
    file->count = 0;
    return file;
}

FILE *fopen(const char *name, const char *mode) {
    int access = strchr(mode, '+') != 0 ? O_RDWR : *mode == 'r' ? O_RDONLY : O_WRONLY;
    int descriptor = open(name, *mode == 'r' ? access : access | O_CREAT | O_TRUNC, 0666);
    return descriptor < 0 ? 0 : fdopen(descriptor, mode);
}

int fflush(FILE *file) {
    size_t count = file->count;
    file->count = 0;
    return write(file->descriptor, file->bytes, count) == count ? 0 : -1;
}

int fclose(FILE *file) { return fflush(file) | close(file->descriptor); }

size_t fread(void *to, size_t size, size_t count, FILE *file) { return read(file->descriptor, to, size * count) / size; }

int fputc(int byte, FILE *file) {
    file->bytes[file->count] = byte;
    file->count += 1;
    if (file->count == sizeof(file->bytes) || file == stderr)
        fflush(file);
    return byte;
}

size_t fwrite(const void *from, size_t size, size_t count, FILE *file) {
    const char *in = from;
    for (size_t i = 0; i < size * count; i += 1)
        fputc(in[i], file);
    return count;
}

int fputs(const char *text, FILE *file) { return fwrite(text, 1, strlen(text), file); }

int fseek(FILE *file, long offset, int whence) {
    fflush(file);
    return lseek(file->descriptor, offset, whence) < 0 ? -1 : 0;
}

long ftell(FILE *file) { return lseek(file->descriptor, 0, SEEK_CUR) + file->count; }

int putchar(int byte) { return fputc(byte, stdout); }

int puts(const char *text) { return fputs(text, stdout) + fputc('\n', stdout); }

// Where a formatted text goes: a file, or so many bytes of memory. The count goes on where there is no more room.
struct target {
    FILE *file;
    char *to;
    size_t room, count;
};

static void put(struct target *target, int byte) {
    if (target->file != 0)
        fputc(byte, target->file);
    else if (target->count < target->room)
        target->to[target->count] = byte;
    target->count += 1;
}

// What stands between % and the letter: flags, the least width, the most bytes of a text, and whether the number has 8 bytes.
struct field {
    int left, zeros, wide;
    int width, most;
};

// Bytes, filled up to the field's width.
static void put_padded(struct target *target, struct field *field, const char *text, int length) {
    int fill = field->width - length;
    for (; !field->left && fill > 0; fill -= 1)
        put(target, field->zeros ? '0' : ' ');
    for (int i = 0; i < length; i += 1)
        put(target, text[i]);
    for (; fill > 0; fill -= 1)
        put(target, ' ');
}

static void put_text(struct target *target, struct field *field, const char *text) {
    int length = 0;
    while (length != field->most && text[length] != 0)
        length += 1;
    put_padded(target, field, text, length);
}

static void put_number(struct target *target, struct field *field, int letter, unsigned long value) {
    char digits[24];
    int at = sizeof(digits), base = letter == 'o' ? 8 : letter == 'x' || letter == 'X' || letter == 'p' ? 16 : 10;
    int negative = (letter == 'd' || letter == 'i') && (long)value < 0;
    if (negative)
        value = -value;
    do {
        at -= 1;
        digits[at] = (letter == 'X' ? "0123456789ABCDEF" : "0123456789abcdef")[value % base];
        value /= base;
    } while (value > 0);
    if (negative && field->zeros) {
        put(target, '-');
        field->width -= 1;
    } else if (negative) {
        at -= 1;
        digits[at] = '-';
    }
    put_padded(target, field, digits + at, sizeof(digits) - at);
}

// A number that is written, or `*`, which takes the next value.
static int read_number(const char **format, va_list *values) {
    if (**format != '*')
        return strtol(*format, (char **)format, 10);
    *format += 1;
    return va_arg(*values, int);
}

// Reads what stands behind %, and gives the place of the letter.
static const char *read_field(struct field *field, const char *format, va_list *values) {
    for (; *format == '-' || *format == '0'; format += 1)
        *(*format == '-' ? &field->left : &field->zeros) = 1;
    field->width = read_number(&format, values);
    if (*format == '.') {
        format += 1;
        field->most = read_number(&format, values);
    }
    for (; *format == 'l'; format += 1)
        field->wide = 1;
    return format;
}

static void put_value(struct target *target, struct field *field, int letter, va_list *values) {
    if (letter == 's')
        put_text(target, field, va_arg(*values, char *));
    else if (letter == 'c')
        put(target, va_arg(*values, int));
    else if (letter == '%')
        put(target, '%');
    else if (letter == 'p' || (field->wide && strchr("diuxXo", letter)))
        put_number(target, field, letter, va_arg(*values, long));
    else if (letter == 'd' || letter == 'i')
        put_number(target, field, letter, va_arg(*values, int));
    else if (strchr("uxXo", letter))
        put_number(target, field, letter, va_arg(*values, unsigned));
    else
        abort();
}

static int print(struct target *target, const char *format, va_list given) {
    va_list values;
    va_copy(values, given);
    for (; *format != 0; format += 1) {
        struct field field = { 0, 0, 0, 0, -1 };
        if (*format != '%') {
            put(target, *format);
        } else {
            format = read_field(&field, format + 1, &values);
            put_value(target, &field, *format, &values);
        }
    }
    va_end(values);
    return target->count;
}

int vsnprintf(char *to, size_t room, const char *format, va_list values) {
    struct target target = { 0, to, room, 0 };
    print(&target, format, values);
    if (room > 0)
        to[target.count < room ? target.count : room - 1] = 0;
    return target.count;
}

int snprintf(char *to, size_t room, const char *format, ...) {
    va_list values;
    va_start(values, format);
    int count = vsnprintf(to, room, format, values);
    va_end(values);
    return count;
}

int sprintf(char *to, const char *format, ...) {
    va_list values;
    va_start(values, format);
    int count = vsnprintf(to, 1 << 30, format, values);
    va_end(values);
    return count;
}

int fprintf(FILE *file, const char *format, ...) {
    struct target target = { file, 0, 0, 0 };
    va_list values;
    va_start(values, format);
    int count = print(&target, format, values);
    va_end(values);
    return count;
}

int printf(const char *format, ...) {
    struct target target = { stdout, 0, 0, 0 };
    va_list values;
    va_start(values, format);
    int count = print(&target, format, values);
    va_end(values);
    return count;
}

// Decimal numbers with other bytes between them, as in "%d.%d.%d".
int sscanf(const char *text, const char *format, ...) {
    int count = 0;
    va_list values;
    va_start(values, format);
    for (; *format != 0; format += 1) {
        if (*format == '%') {
            format += 1;
            *va_arg(values, int *) = strtol(text, (char **)&text, 10);
            count += 1;
        } else if (*text == *format) {
            text += 1;
        } else {
            break;
        }
    }
    va_end(values);
    return count;
}
