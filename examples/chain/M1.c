// M1 SOURCE.. OUTPUT: expands the sources, joined with a line's end, from M1 to a text of hex2, by docs/reference/m1.md.
//
// The same tool as M1.hex2 and M1.M1, written apart from them, in another language and for another compiler. Where a text is no M1 it tells
// no more than that: it ends with 1 where there are fewer than two words, 2 where a source cannot be read, 3 where the output cannot be made,
// 4 where the heap is too small, and 5 where the sources are no M1.

typedef unsigned char byte;
typedef unsigned long word64;

enum { OPENAT = 56, CLOSE = 57, READ = 63, WRITE = 64, EXIT = 93, BRK = 214 };
enum { AT_FDCWD = -100, O_RDONLY = 0, O_WRONLY = 1, O_CREAT = 64, O_TRUNC = 512 };
enum { DONE = 0, NO_WORDS = 1, NO_SOURCE = 2, NO_OUTPUT = 3, NO_HEAP = 4, NO_M1 = 5 };

struct text {
    const byte *at;
    word64 length;
};

struct definition {
    struct text name;
    struct text value;
};

// ---- the calls of Linux

// At the entry the stack pointer holds the count of words, and the words' addresses stand above it.
__asm__(".globl _start\n"
        "_start:\n"
        "    mv a0, sp\n"
        "    jal begin\n");

// One call; an error is the negated number of Linux's error.
static long call(long number, long first, long second, long third, long fourth) {
    register long a7 __asm__("a7") = number;
    register long a0 __asm__("a0") = first;
    register long a1 __asm__("a1") = second;
    register long a2 __asm__("a2") = third;
    register long a3 __asm__("a3") = fourth;
    __asm__ volatile("ecall" : "+r"(a0) : "r"(a7), "r"(a1), "r"(a2), "r"(a3) : "memory");
    return a0;
}

static word64 heap_end;

// More bytes at the heap's end; null where there are none.
static byte *more_heap(word64 count) {
    byte *at = (byte *)heap_end;
    if ((word64)call(BRK, heap_end + count, 0, 0, 0) != heap_end + count)
        return 0;
    heap_end += count;
    return at;
}

// ---- the sources

static struct text source;

// Adds a file's bytes and a line's end behind what was read before.
static int read_file(const char *name) {
    long got = 1;
    long file = call(OPENAT, AT_FDCWD, (long)name, O_RDONLY, 0);
    if (file < 0)
        return NO_SOURCE;
    while (got > 0) {
        byte *to = more_heap(4096);
        if (to == 0)
            return NO_HEAP;
        got = call(READ, file, (long)to, 4096, 0);
        source.length += got > 0 ? got : 0;
        heap_end = (word64)source.at + source.length;
    }
    call(CLOSE, file, 0, 0, 0);
    byte *line_end = more_heap(1);
    if (got < 0 || line_end == 0)
        return got < 0 ? NO_SOURCE : NO_HEAP;
    *line_end = '\n';
    source.length += 1;
    return DONE;
}

// ---- words

static int is_blank(byte one) { return one == ' ' || one == '\t' || one == '\n' || one == '\r'; }

static int is_quote(byte one) { return one == '"' || one == '\''; }

// Takes the word at the front of a text, past blanks and comments; 0 where there is none. A quoted word has both quotes, or is open.
static int next_word(struct text *rest, struct text *word) {
    word64 at = 0;
    while (at < rest->length && (is_blank(rest->at[at]) || rest->at[at] == '#' || rest->at[at] == ';')) {
        if (!is_blank(rest->at[at]))
            while (at < rest->length && rest->at[at] != '\n')
                at += 1;
        else
            at += 1;
    }
    word64 end = at;
    if (at < rest->length && is_quote(rest->at[at])) {
        end += 1;
        while (end < rest->length && rest->at[end] != rest->at[at])
            end += 1;
        end += end < rest->length;
    } else {
        while (end < rest->length && !is_blank(rest->at[end]))
            end += 1;
    }
    *word = (struct text){rest->at + at, end - at};
    *rest = (struct text){rest->at + end, rest->length - end};
    return word->length > 0;
}

static int is_same(struct text one, struct text other) {
    if (one.length != other.length)
        return 0;
    for (word64 i = 0; i < one.length; i += 1)
        if (one.at[i] != other.at[i])
            return 0;
    return 1;
}

static int is_define(struct text word) { return is_same(word, (struct text){(const byte *)"DEFINE", 6}); }

// The value of a hexadecimal digit, or 16.
static unsigned digit_value(byte one) {
    if (one >= '0' && one <= '9')
        return one - '0';
    if (one >= 'A' && one <= 'F')
        return one - 'A' + 10;
    return one >= 'a' && one <= 'f' ? one - 'a' + 10u : 16;
}

static int are_digits(struct text word) {
    for (word64 i = 0; i < word.length; i += 1)
        if (digit_value(word.at[i]) == 16)
            return 0;
    return word.length > 0 && word.length % 2 == 0;
}

static struct text behind(struct text word, word64 count) { return (struct text){word.at + count, word.length - count}; }

static int is_field(struct text word) { return word.length == 9 && word.at[0] == '.' && are_digits(behind(word, 1)); }

// ---- definitions

static struct definition *definitions;
static word64 count_defined;

static int read_definitions(void) {
    struct text rest = source, word;
    heap_end = (heap_end + 7) & ~7UL;
    definitions = (struct definition *)heap_end;
    while (next_word(&rest, &word)) {
        if (!is_define(word))
            continue;
        struct definition *one = (struct definition *)more_heap(sizeof *one);
        if (one == 0)
            return NO_HEAP;
        next_word(&rest, &one->name);
        next_word(&rest, &one->value);
        if (!are_digits(one->value) && !is_field(one->value))
            return NO_M1;
        count_defined += 1;
    }
    return DONE;
}

// The value of a defined name, or no bytes.
static struct text value_of(struct text name) {
    for (word64 i = 0; i < count_defined; i += 1)
        if (is_same(definitions[i].name, name))
            return definitions[i].value;
    return (struct text){name.at, 0};
}

// ---- the output

static byte buffer[4096];
static word64 filled;
static long output;

static void write_out(void) {
    word64 done = 0;
    while (done < filled) {
        long written = call(WRITE, output, (long)(buffer + done), filled - done, 0);
        if (written <= 0)
            call(EXIT, NO_OUTPUT, 0, 0, 0);
        done += written;
    }
    filled = 0;
}

static void put(byte one) {
    if (filled == sizeof buffer)
        write_out();
    buffer[filled] = one;
    filled += 1;
}

static void put_all(struct text text) {
    for (word64 i = 0; i < text.length; i += 1)
        put(text.at[i]);
}

static void put_byte(byte one) {
    put("0123456789ABCDEF"[one >> 4]);
    put("0123456789ABCDEF"[one & 15]);
}

// ---- items: each is a line of the output

// An open word: whether there is one, what its fields come to, its reference, and how many of its four bytes there are.
static struct {
    int is_open;
    byte bytes[4];
    struct text reference;
    int count;
} open_word;

static void close_word(void) {
    if (open_word.reference.length > 0) {
        put_all(open_word.reference);
        put(' ');
    }
    for (int i = 0; i < 4; i += 1) {
        put_byte(open_word.bytes[i]);
        if (open_word.reference.length == 0 || i == 3)
            put('\n');
        open_word.bytes[i] = 0;
    }
    open_word.is_open = 0;
    open_word.reference.length = 0;
    open_word.count = 0;
}

static void give_byte(byte one) {
    if (open_word.is_open) {
        open_word.bytes[open_word.count] ^= one;
        open_word.count += 1;
        if (open_word.count == 4)
            close_word();
    } else {
        put_byte(one);
        put('\n');
    }
}

// A field's four bytes, the low one of the number first. Fields stand before a word's bytes.
static int give_field(word64 number) {
    if (open_word.count > 0)
        return NO_M1;
    open_word.is_open = 1;
    for (int i = 0; i < 4; i += 1)
        open_word.bytes[i] ^= number >> (8 * i) & 255;
    return DONE;
}

static int give_reference(struct text word) {
    if (open_word.count > 0 || open_word.reference.length > 0)
        return NO_M1;
    open_word.is_open = 1;
    open_word.reference = word;
    return DONE;
}

// A label, an address or a pad, as it stands.
static int give_item(struct text word) {
    if (open_word.is_open)
        return NO_M1;
    put_all(word);
    put('\n');
    return DONE;
}

// ---- what a word gives

static byte byte_at(struct text digits, word64 i) { return digit_value(digits.at[i]) << 4 | digit_value(digits.at[i + 1]); }

static int give_digits(struct text digits) {
    for (word64 i = 0; i < digits.length; i += 2)
        give_byte(byte_at(digits, i));
    return DONE;
}

// A `.` and eight digits, the low byte first.
static int give_dotted(struct text word) {
    word64 number = 0;
    for (int i = 0; i < 4; i += 1)
        number |= (word64)byte_at(word, 2 * i + 1) << (8 * i);
    return give_field(number);
}

static int give_value(struct text value) { return is_field(value) ? give_dotted(value) : give_digits(value); }

// A text's bytes, and one to four zero bytes up to a multiple of 4.
static int give_text(struct text text) {
    for (word64 i = 0; i < text.length; i += 1)
        give_byte(text.at[i]);
    for (word64 i = text.length; i < (text.length + 4) / 4 * 4; i += 1)
        give_byte(0);
    return DONE;
}

// The number that a word is, cut to 2^40 either way; 0 where it is none.
static int read_number(struct text word, long *number) {
    word64 at = 0, base = 10;
    int negative = word.length > 0 && word.at[0] == '-';
    at += negative;
    if (word.length >= at + 2 && word.at[at] == '0' && word.at[at + 1] == 'x') {
        base = 16;
        at += 2;
    }
    if (at == word.length)
        return 0;
    for (*number = 0; at < word.length; at += 1) {
        if (digit_value(word.at[at]) >= base)
            return 0;
        *number = *number * (long)base + digit_value(word.at[at]);
        if (*number > 1L << 40)
            *number = 1L << 40;
    }
    *number = negative ? -*number : *number;
    return 1;
}

static int give_number(byte sign, long number) {
    int is_short = -2048 <= number && number <= 2047;
    int is_wide = -(1L << 31) <= number && number < 1L << 32;
    if (sign == '!' && is_short)
        return give_field((number & 0xfff) << 20);
    if (sign == '@' && is_short)
        return give_field((number >> 5 & 0x7f) << 25 | (number & 0x1f) << 7);
    if (sign == '~' && is_wide)
        return give_field((number + 2048) & 0xfffff000);
    if (sign != '%' || !is_wide)
        return NO_M1;
    for (int i = 0; i < 4; i += 1)
        give_byte(number >> (8 * i) & 255);
    return DONE;
}

// Whether a name is one of hex2, with at least one byte and no `>`.
static int is_name(struct text name) {
    for (word64 i = 0; i < name.length; i += 1)
        if (name.at[i] == '>')
            return 0;
    return name.length > 0;
}

// Whether what stands behind a `%` is one name, or two with a `>` between them.
static int are_names(struct text names) {
    for (word64 i = 0; i < names.length; i += 1)
        if (names.at[i] == '>')
            return is_name((struct text){names.at, i}) && is_name(behind(names, i + 1));
    return is_name(names);
}

static int is_one_of(byte one, const char *all) {
    while (*all != 0 && one != (byte)*all)
        all += 1;
    return *all != 0;
}

// A word that is no definition's name, no text and no digits.
static int give_signed(struct text word) {
    byte sign = word.at[0];
    struct text name = behind(word, 1);
    long number;
    if (is_one_of(sign, "!@~%") && read_number(name, &number))
        return give_number(sign, number);
    if (is_one_of(sign, "!@$~") && is_name(name))
        return give_reference(word);
    if ((is_one_of(sign, ":&") && is_name(name)) || (sign == '%' && are_names(name)) || (sign == '<' && name.length == 0))
        return give_item(word);
    return NO_M1;
}

static int give_word(struct text word) {
    struct text value = value_of(word);
    int is_closed = word.length >= 2 && word.at[word.length - 1] == word.at[0];
    struct text inside = {word.at + 1, word.length - 2};
    if (value.length > 0)
        return give_value(value);
    if (word.at[0] == '"')
        return is_closed ? give_text(inside) : NO_M1;
    if (word.at[0] == '\'')
        return is_closed && are_digits(inside) ? give_digits(inside) : NO_M1;
    if (are_digits(word) || is_field(word))
        return give_value(word);
    return give_signed(word);
}

static int give_words(void) {
    struct text rest = source, word, passed;
    int status = DONE;
    while (status == DONE && next_word(&rest, &word)) {
        if (is_define(word)) {
            next_word(&rest, &passed);
            next_word(&rest, &passed);
        } else {
            status = give_word(word);
        }
    }
    return open_word.is_open ? NO_M1 : status;
}

static int run(long count, char **words) {
    int status = count < 3 ? NO_WORDS : DONE;
    heap_end = call(BRK, 0, 0, 0, 0);
    source.at = (const byte *)heap_end;
    for (long i = 1; status == DONE && i < count - 1; i += 1)
        status = read_file(words[i]);
    if (status == DONE)
        status = read_definitions();
    if (status != DONE)
        return status;
    output = call(OPENAT, AT_FDCWD, (long)words[count - 1], O_WRONLY | O_CREAT | O_TRUNC, 0600);
    if (output < 0)
        return NO_OUTPUT;
    status = give_words();
    write_out();
    return status;
}

__attribute__((used, noreturn)) static void begin(word64 *stack) {
    call(EXIT, run(stack[0], (char **)(stack + 1)), 0, 0, 0);
    for (;;) {
    }
}
