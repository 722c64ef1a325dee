// cc0 SOURCE.. OUTPUT: compiles the sources, joined with a line's end, from cc0 (cc0.md) to a program for 64-bit RISC-V Linux.
//
// The same compiler as cc0.M1, in C for gcc: it writes the same bytes, and refuses with the same number and line. It has the same parts, nearly all
// under the same names, so that the two can be read side by side. There is one pass and no tree: what is read is put as instructions at once.
//
// In a compiled program x2 is the stack, x8 the frame of the function, x10 the value of an expression and x11 the left operand; x12 is used in between.
// A call pushes its arguments, the first one first, and takes them off. The frame has the caller's x8 at 0(x8), the way back at 8(x8), the arguments
// above them, the last one at 16(x8), and the locals below them, the first one at -8(x8).

#include <fcntl.h>
#include <stdint.h>
#include <stdio.h>
#include <stdlib.h>
#include <string.h>
#include <unistd.h>

typedef unsigned char byte;

enum { DONE = 0, WRONG_COUNT = 1, CANNOT_OPEN = 2, CANNOT_MAKE = 3, CANNOT_READ = 4, NOT_WRITTEN = 5, NO_MEMORY = 6 };

enum refusal { SYNTAX = 1, UNKNOWN_NAME, NAME_TWICE, BAD_TYPE, BAD_NUMBER, TOO_LARGE, NO_BODY };

enum { TEXT_BASE = 0x600000, DATA_BASE = 0x10000000, HEADER = 176, MOST_BYTES = 1 << 20, MOST_DATA = 1 << 27, MOST_NAMES = 16384 };

static _Noreturn void fault(int status) {
    static const char *const messages[] = {"two names at least", "cannot open source", "cannot make output",
                                           "cannot read source", "output not written", "memory has run out"};
    fprintf(stderr, "cc0: %s\n", messages[status - 1]);
    exit(status);
}

// ---- the source

static const byte *source;
static size_t length;
static size_t place; // the next byte to look at
static long line = 1;

static _Noreturn void refuse(enum refusal number) {
    fprintf(stderr, "cc0: refused %d %ld\n", number, line);
    exit(10 + (int)number);
}

static void require(int holds, enum refusal number) {
    if (!holds)
        refuse(number);
}

// The file's bytes behind those that are there.
static byte *read_source(byte *text, const char *name) {
    FILE *file = fopen(name, "rb");
    size_t got = 1;
    if (file == NULL)
        fault(CANNOT_OPEN);
    while (got > 0) {
        text = realloc(text, length + 65536);
        if (text == NULL)
            fault(NO_MEMORY);
        got = fread(text + length, 1, 65536, file);
        length += got;
    }
    if (ferror(file))
        fault(CANNOT_READ);
    fclose(file);
    return text;
}

// All sources, with a line's end between two of them and 0 behind the last one.
static void read_sources(int count, char **names) {
    byte *text = NULL;
    for (int i = 0; i < count; i += 1) {
        text = read_source(text, names[i]);
        text[length] = i < count - 1 ? '\n' : 0;
        length += i < count - 1;
    }
    source = text;
    place = 0;
    line = 1;
}

// ---- the output: a header and the code, which is loaded at TEXT_BASE

static byte output[MOST_BYTES + 8];
static long end = HEADER;              // where the next byte goes
static long data_end = DATA_BASE;      // the address of the next global

static void put_byte(byte one) {
    require(end < MOST_BYTES, TOO_LARGE);
    output[end] = one;
    end += 1;
}

static void set_word(long at, uint32_t word) {
    for (int i = 0; i < 4; i += 1)
        output[at + i] = word >> (8 * i) & 255;
}

static uint32_t word_at(long at) {
    return (uint32_t)output[at] | (uint32_t)output[at + 1] << 8 | (uint32_t)output[at + 2] << 16 | (uint32_t)output[at + 3] << 24;
}

static void put(uint32_t word) {
    require(end < MOST_BYTES, TOO_LARGE);
    set_word(end, word);
    end += 4;
}

// ---- instructions: RISC-V Unprivileged ISA, "RV32/64G Instruction Set Listings"

enum { ADD = 0x33, SLL = 0x1033, SLT = 0x2033, SLTU = 0x3033, XOR = 0x4033, OR = 0x6033, AND = 0x7033, SUB = 0x40000033, SRA = 0x40005033 };
enum { MUL = 0x2000033, DIV = 0x2004033, REM = 0x2006033, ADDI = 0x13, SLLI = 0x1013, SLTIU = 0x3013, XORI = 0x4013, ANDI = 0x7013 };
enum { LD = 0x3003, LBU = 0x4003, SB = 0x23, SD = 0x3023, BEQ = 0x63, BNE = 0x1063, JAL = 0x6f, JALR = 0x67, LUI = 0x37, ECALL = 0x73 };

static uint32_t rd(uint32_t number) { return number << 7; }
static uint32_t rs1(uint32_t number) { return number << 15; }
static uint32_t rs2(uint32_t number) { return number << 20; }
static uint32_t number_i(long number) { return (uint32_t)(number & 0xfff) << 20; }
static uint32_t number_s(long number) { return (uint32_t)(number >> 5 & 0x7f) << 25 | (uint32_t)(number & 0x1f) << 7; }

static uint32_t number_j(long distance) {
    return (uint32_t)(distance >> 20 & 1) << 31 | (uint32_t)(distance >> 1 & 0x3ff) << 21 | (uint32_t)(distance >> 11 & 1) << 20 |
           (uint32_t)(distance >> 12 & 0xff) << 12;
}

// Chains of jumps that are not known yet: each holds the place of the one before it, or 0. This puts one in front of a chain, and gives its place.
static long put_link(long chain) {
    long at = end;
    put((uint32_t)chain);
    return at;
}

// All jumps of a chain go here, and leave where they come from in a register.
static void jump_here(long chain, uint32_t target) {
    while (chain != 0) {
        long before = word_at(chain);
        set_word(chain, JAL | rd(target) | number_j(end - chain));
        chain = before;
    }
}

static void put_jump(long to, uint32_t target) { put(JAL | rd(target) | number_j(to - end)); }

// A jump that is taken where x10 is 0 (or is not 0), in front of a chain: a branch past a jump, since a branch alone reaches 4 KB.
static long put_false_jump(uint32_t branch) {
    put(branch | rs1(10) | 8u << 7);
    return put_link(0);
}

static void push(void) {
    put(ADDI | rd(2) | rs1(2) | number_i(-8));
    put(SD | rs1(2) | rs2(10));
}

static void pop(void) {
    put(LD | rd(11) | rs1(2));
    put(ADDI | rd(2) | rs1(2) | number_i(8));
}

// What was pushed at a place comes to x11. Where one instruction was put since then, the push is taken back: no such instruction uses x11 or the stack.
static void settle(long pushed) {
    if (end - pushed == 12) {
        set_word(pushed, ADDI | rd(11) | rs1(10));
        set_word(pushed + 4, word_at(pushed + 8));
        end -= 4;
    } else {
        pop();
    }
}

static void put_number(int64_t number) {
    if (-2048 <= number && number <= 2047) {
        put(ADDI | rd(10) | number_i(number));
        return;
    }
    put(JAL | rd(10) | number_j(12));
    put((uint32_t)number);
    put((uint32_t)(number >> 32));
    put(LD | rd(10) | rs1(10));
}

// ---- words: each is a number, and a sign is its bytes, the first one lowest

enum {
    END = 0,
    NUMBER,
    TEXT,
    NAME,
    WORD_LONG, // from here on in the order of `words_of_c`
    WORD_CHAR,
    WORD_VOID,
    WORD_STRUCT,
    WORD_ENUM,
    WORD_IF,
    WORD_ELSE,
    WORD_WHILE,
    WORD_BREAK,
    WORD_CONTINUE,
    WORD_RETURN,
    WORD_SIZEOF,
    WORD_OTHER, // and all behind it: not in cc0
};

enum { ARROW = '-' | '>' << 8 };

static const byte words_of_c[] =
    "long char void struct enum if else while break continue return sizeof auto case const default do double extern float for goto inline int register "
    "restrict short signed static switch typedef union unsigned volatile _Alignas _Alignof _Atomic _Bool _Complex _Generic _Imaginary _Noreturn "
    "_Static_assert _Thread_local begin system_call ;";

static long word;
static const byte *word_start; // of a name, and of a text behind its quote
static long word_length;
static int64_t number;         // of a number or character
static struct name *entry;     // of a name: what it names, or none

// ---- names

enum kind { KEYWORD, CONSTANT, LOCAL, GLOBAL, ARRAY, PROTOTYPE, FUNCTION, TAG, MEMBER };

enum { ROWS = 4096 };

struct name {
    struct name *next; // of its row
    struct name **row;
    const byte *start;
    long length;
    long space; // ORDINARY, TAGS, or of which struct it is a member
    enum kind kind;
    long type;
    int64_t value; // a word's number, a constant, a place behind x8, an address, a chain of calls, a place in the output, a size, a place in a struct
    long count;    // of a function's parameters
    long line;     // of a function's first declaration
};

enum { ORDINARY = 0, TAGS = 1 };

static struct name names[MOST_NAMES];
static long names_end;   // how many there are
static long block_begin; // the first one of the innermost block
static struct name *rows[ROWS];

static struct name **row_of(const byte *start, long count) {
    uint64_t sum = 0;
    for (long i = 0; i < count; i += 1)
        sum = 31 * sum + start[i];
    return &rows[sum % ROWS];
}

// What the word names in a space, or none.
static struct name *find(long space) {
    struct name *one = *row_of(word_start, word_length);
    while (one != NULL && (one->length != word_length || one->space != space || memcmp(one->start, word_start, (size_t)word_length) != 0))
        one = one->next;
    return one;
}

// A new name: the word. It is the first one of its row, before those of the same name outside.
static struct name *declare(long space, enum kind kind, long type, int64_t value) {
    struct name *other = find(space);
    require(other == NULL || other < &names[block_begin], NAME_TWICE);
    require(names_end < MOST_NAMES, TOO_LARGE);
    struct name *one = &names[names_end];
    struct name **row = row_of(word_start, word_length);
    *one = (struct name){*row, row, word_start, word_length, space, kind, type, value, 0, line};
    *row = one;
    names_end += 1;
    return one;
}

// The names of the innermost block are taken off, the last one first.
static void forget(void) {
    while (names_end != block_begin) {
        names_end -= 1;
        *names[names_end].row = names[names_end].next;
    }
}

// ---- reading words

static int is_digit(byte one) { return one >= '0' && one <= '9'; }

static int is_letter(byte one) { return (one >= 'a' && one <= 'z') || (one >= 'A' && one <= 'Z') || one == '_'; }

// Past blanks and comments. The last byte of a comment that is no blank is not `\`, which would go on with the comment in C.
static void skip_blanks(void) {
    for (;;) {
        byte one = source[place];
        if (one == '\n')
            line += 1;
        if (one == ' ' || one == '\t' || one == '\n') {
            place += 1;
        } else if (one == '/' && source[place + 1] == '/') {
            byte last = one;
            while (place < length && source[place] != '\n') {
                if (source[place] > ' ')
                    last = source[place];
                place += 1;
            }
            require(last != '\\', SYNTAX);
        } else {
            return;
        }
    }
}

// One byte of a text or a character, which is taken.
static byte take_character(void) {
    byte one = source[place];
    require(one >= ' ', BAD_NUMBER);
    place += 1;
    if (one != '\\')
        return one;
    one = source[place];
    place += 1;
    if (one == 'n')
        return '\n';
    if (one == 't')
        return '\t';
    if (one == 'r')
        return '\r';
    if (one == '0') {
        require(!is_digit(source[place]), BAD_NUMBER);
        return 0;
    }
    require(one == '\\' || one == '\'' || one == '"', BAD_NUMBER);
    return one;
}

static void read_text(void) {
    place += 1;
    word = TEXT;
    word_start = source + place;
    while (source[place] != '"')
        take_character();
    place += 1;
}

static void read_character(void) {
    place += 1;
    word = NUMBER;
    require(source[place] != '\'', BAD_NUMBER);
    number = take_character();
    require(source[place] == '\'', BAD_NUMBER);
    place += 1;
}

// The value of a digit, or 16.
static int digit_value(byte one) {
    if (is_digit(one))
        return one - '0';
    if (one >= 'A' && one <= 'F')
        return one - 'A' + 10;
    return one >= 'a' && one <= 'f' ? one - 'a' + 10 : 16;
}

static void read_number(void) {
    int64_t base = 10;
    word = NUMBER;
    number = 0;
    if (source[place] == '0') {
        place += 1;
        if (source[place] == 'x') {
            base = 16;
            place += 1;
            require(digit_value(source[place]) < 16, BAD_NUMBER);
        } else {
            base = 0; // no digit follows
        }
    }
    while (digit_value(source[place]) < 16) {
        int64_t digit = digit_value(source[place]);
        require(digit < base, BAD_NUMBER);
        require(number <= INT64_MAX / base, BAD_NUMBER);
        number = (int64_t)((uint64_t)number * (uint64_t)base + (uint64_t)digit);
        require(number >= 0, BAD_NUMBER);
        place += 1;
    }
    if (source[place] == 'L')
        place += 1;
    else
        require(number <= INT32_MAX, BAD_NUMBER);
    require(!is_letter(source[place]) && !is_digit(source[place]), BAD_NUMBER);
}

static void read_name(void) {
    word_start = source + place;
    while (is_letter(source[place]) || is_digit(source[place]))
        place += 1;
    word_length = source + place - word_start;
    entry = find(ORDINARY);
    word = entry != NULL && entry->kind == KEYWORD ? entry->value : NAME;
}

static int is_one_of(byte one, const char *all) { return one != 0 && strchr(all, one) != NULL; }

// A sign of one to three bytes: a doubled one, one with `=` behind it, both, or `->`.
static void read_sign(void) {
    byte first = source[place];
    int shift = 8;
    word = first;
    place += 1;
    if (source[place] == first && is_one_of(first, "&|<>+-")) {
        word |= (long)first << shift;
        shift += 8;
        place += 1;
        if (!is_one_of(first, "<>"))
            return;
    } else if (first == '-' && source[place] == '>') {
        word = ARROW;
        place += 1;
        return;
    }
    if (source[place] == '=' && is_one_of(first, "=!<>+-*/%&|^")) {
        word |= (long)'=' << shift;
        place += 1;
        return;
    }
    require(first != '/' || source[place] != '*', SYNTAX); // a comment in C
}

// The next word.
static void next(void) {
    skip_blanks();
    byte one = source[place];
    if (is_letter(one))
        read_name();
    else if (is_digit(one))
        read_number();
    else if (one == '"')
        read_text();
    else if (one == '\'')
        read_character();
    else if (one == 0 && place == length)
        word = END;
    else if (one == 0 || one > 126 || one < 33)
        refuse(SYNTAX);
    else
        read_sign();
}

static void expect(long wanted) {
    require(word == wanted, SYNTAX);
    next();
}

// ---- types: 8 times a base and the number of stars; a struct's base is the place of its tag among the names

enum { LONG = 0, CHAR = 8, VOID = 16, MOST_STARS = 7 };

static int is_pointer(long type) { return type % 8 != 0; }

static int is_type_word(void) { return word == WORD_LONG || word == WORD_CHAR || word == WORD_VOID || word == WORD_STRUCT; }

static long size_of(long type) {
    if (is_pointer(type) || type == LONG)
        return 8;
    if (type == CHAR)
        return 1;
    require(type != VOID && names[type / 8].value != 0, BAD_TYPE);
    return names[type / 8].value;
}

// The type of what is pointed to, and of a pointer to something.
static long pointed(long type) {
    require(is_pointer(type), BAD_TYPE);
    return type - 1;
}

static long pointer_to(long type) {
    require(type % 8 != MOST_STARS && type != VOID, BAD_TYPE);
    return type + 1;
}

// Where `struct` stood: the struct that the word names, which may be unknown so far.
static long read_tag(void) {
    require(word == NAME, SYNTAX);
    struct name *tag = find(TAGS);
    if (tag == NULL) {
        tag = declare(TAGS, TAG, 0, 0);
        tag->type = 8 * (tag - names);
    }
    next();
    return tag->type;
}

static long read_stars(long type) {
    while (word == '*') {
        type = pointer_to(type);
        next();
    }
    return type;
}

static long read_type(void) {
    long type = LONG;
    require(is_type_word(), SYNTAX);
    if (word == WORD_CHAR)
        type = CHAR;
    if (word == WORD_VOID)
        type = VOID;
    int is_struct = word == WORD_STRUCT;
    next();
    return read_stars(is_struct ? read_tag() : type);
}

// The type of something of 8 bytes.
static long read_long_type(void) {
    long type = read_type();
    require(type == LONG || is_pointer(type), BAD_TYPE);
    return type;
}

// ---- expressions: what was read last. Either its value is in x10, or it stands in memory at a place counted from x8 or x10

static long type;
static uint32_t base; // 0, 8 or 10
static int64_t offset;

static void is_value(long its_type) {
    type = its_type;
    base = 0;
}

static void is_at(long its_type, uint32_t its_base, int64_t its_offset) {
    type = its_type;
    base = its_base;
    offset = its_offset;
}

// Its value is in x10 from here on. A char becomes a long.
static void value(void) {
    require(type == LONG || type == CHAR || is_pointer(type), BAD_TYPE);
    if (base != 0)
        put((type == CHAR ? LBU : LD) | rd(10) | rs1(base) | number_i(offset));
    is_value(type == CHAR ? LONG : type);
}

static void long_value(void) {
    value();
    require(type == LONG, BAD_TYPE);
}

// Its address is in x10 from here on.
static void address(void) {
    require(base != 0, BAD_TYPE);
    if (base != 10 || offset != 0)
        put(ADDI | rd(10) | rs1(base) | number_i(offset));
    is_value(pointer_to(type));
}

// x10 is multiplied by the size of an element.
static void put_scale(long element) {
    long size = size_of(element);
    if (size == 1)
        return;
    if (size == 8) {
        put(SLLI | rd(10) | rs1(10) | number_i(3));
        return;
    }
    put(ADDI | rd(12) | number_i(size));
    put(MUL | rd(10) | rs1(10) | rs2(12));
}

static void read_expression(void);
static void read_unary(void);

// ---- operators, with the instructions that make x10 of x11, the left operand, and x10, the right one

enum { LEVEL_OR = 1, LEVEL_AND = 2, LEVEL_EQUAL = 6, LEVEL_BELOW = 7 };

// rd and the operands: x10 of x11 and x10, of x10 and x11, of x10 and the number 1, of x0 and x10.
#define X11_X10 (10u << 7 | 11u << 15 | 10u << 20)
#define X10_X11 (10u << 7 | 10u << 15 | 11u << 20)
#define X10_ONE (10u << 7 | 10u << 15 | 1u << 20)
#define X0_X10 (10u << 7 | 10u << 20)

struct operator {
    long sign;
    long assign; // the sign with `=` behind it, or a blank, which is no word, where it has no such form
    int level;
    uint32_t words[2]; // the second one is 0 where there is only one
};

static const struct operator operators[] = {
    {'|' | '|' << 8, ' ', LEVEL_OR, {0, 0}},
    {'&' | '&' << 8, ' ', LEVEL_AND, {0, 0}},
    {'|', '|' | '=' << 8, 3, {OR | X11_X10, 0}},
    {'^', '^' | '=' << 8, 4, {XOR | X11_X10, 0}},
    {'&', '&' | '=' << 8, 5, {AND | X11_X10, 0}},
    {'=' | '=' << 8, ' ', LEVEL_EQUAL, {SUB | X11_X10, SLTIU | X10_ONE}},
    {'!' | '=' << 8, ' ', LEVEL_EQUAL, {SUB | X11_X10, SLTU | X0_X10}},
    {'<', ' ', LEVEL_BELOW, {SLT | X11_X10, 0}},
    {'>', ' ', LEVEL_BELOW, {SLT | X10_X11, 0}},
    {'<' | '=' << 8, ' ', LEVEL_BELOW, {SLT | X10_X11, XORI | X10_ONE}},
    {'>' | '=' << 8, ' ', LEVEL_BELOW, {SLT | X11_X10, XORI | X10_ONE}},
    {'<' | '<' << 8, '<' | '<' << 8 | '=' << 16, 8, {SLL | X11_X10, 0}},
    {'>' | '>' << 8, '>' | '>' << 8 | '=' << 16, 8, {SRA | X11_X10, 0}},
    {'+', '+' | '=' << 8, 9, {ADD | X11_X10, 0}},
    {'-', '-' | '=' << 8, 9, {SUB | X11_X10, 0}},
    {'*', '*' | '=' << 8, 10, {MUL | X11_X10, 0}},
    {'/', '/' | '=' << 8, 10, {DIV | X11_X10, 0}},
    {'%', '%' | '=' << 8, 10, {REM | X11_X10, 0}},
};

enum { OPERATORS = sizeof operators / sizeof *operators };

static const struct operator *operator_of(long sign) {
    for (int i = 0; i < OPERATORS; i += 1)
        if (operators[i].sign == sign)
            return &operators[i];
    return NULL;
}

static const struct operator *assigning_operator_of(long sign) {
    for (int i = 0; i < OPERATORS; i += 1)
        if (operators[i].assign == sign)
            return &operators[i];
    return NULL;
}

// The left operand, whose type is known, is in x11, and the right one was read last.
static void combine(const struct operator *one, long left) {
    long result = LONG;
    if (one->level != LEVEL_EQUAL && one->level != LEVEL_BELOW) {
        if (is_pointer(left) && is_pointer(type)) {
            require(one->sign == '-' && left == CHAR + 1 && type == CHAR + 1, BAD_TYPE);
        } else if (is_pointer(left)) {
            require(one->sign == '+' || one->sign == '-', BAD_TYPE);
            put_scale(pointed(left));
            result = left;
        } else {
            require(!is_pointer(type), BAD_TYPE);
        }
    }
    put(one->words[0]);
    if (one->words[1] != 0)
        put(one->words[1]);
    is_value(result);
}

// Operators from a level on.
static void read_binary(int level) {
    read_unary();
    for (;;) {
        const struct operator *one = operator_of(word);
        if (one == NULL || one->level < level)
            return;
        value();
        next();
        if (one->level <= LEVEL_AND) {
            long chain = put_false_jump(one->level == LEVEL_AND ? BNE : BEQ);
            read_binary(one->level + 1);
            value();
            jump_here(chain, 0);
            put(SLTU | rd(10) | rs2(10));
            is_value(LONG);
        } else {
            long left = type;
            long pushed = end;
            push();
            read_binary(one->level + 1);
            value();
            settle(pushed);
            combine(one, left);
        }
    }
}

// The value in x10 goes to where an expression stood, whose address is in x11 where its base was x10.
static void put_store(long its_type, uint32_t its_base, int64_t its_offset) {
    if (its_type == CHAR)
        put(ANDI | rd(10) | rs1(10) | number_i(255));
    put((its_type == CHAR ? SB : SD) | rs1(its_base) | rs2(10) | number_s(its_offset));
}

static void read_assignment(const struct operator *one) {
    long left = type;
    uint32_t left_base = base;
    int64_t left_offset = offset;
    long pushed = end;
    require(base != 0, BAD_TYPE);
    require(type == LONG || type == CHAR || is_pointer(type), BAD_TYPE);
    if (base == 10)
        push();
    long loaded = LONG;
    long pushed_value = 0;
    if (one != NULL) {
        value();
        loaded = type;
        pushed_value = end;
        push();
    }
    next();
    read_expression();
    value();
    if (one != NULL) {
        settle(pushed_value);
        combine(one, loaded);
        if (left_base == 10)
            pop();
    } else if (left_base == 10) {
        settle(pushed);
    }
    put_store(left, left_base == 10 ? 11 : 8, left_offset);
    is_value(left == CHAR ? LONG : left);
}

static void read_expression(void) {
    read_binary(LEVEL_OR);
    const struct operator *one = assigning_operator_of(word);
    if (word == '=' || one != NULL)
        read_assignment(word == '=' ? NULL : one);
}

static void read_value(void) {
    read_expression();
    value();
}

// ---- unary operators, and what stands behind a primary

// p[i], behind p.
static void read_index(void) {
    value();
    long element = pointed(type);
    long pushed = end;
    push();
    next();
    read_expression();
    long_value();
    expect(']');
    settle(pushed);
    put_scale(element);
    put(ADD | X11_X10);
    is_at(element, 10, 0);
}

// p->m, behind p.
static void read_member(void) {
    value();
    long structure = pointed(type);
    require(!is_pointer(structure) && structure > VOID, BAD_TYPE);
    next();
    require(word == NAME, SYNTAX);
    struct name *member = find(structure);
    require(member != NULL, UNKNOWN_NAME);
    is_at(member->type, 10, member->value);
    next();
}

static void read_postfix(void) {
    for (;;) {
        if (word == '[')
            read_index();
        else if (word == ARROW)
            read_member();
        else
            return;
    }
}

static void read_argument(long *count) {
    read_value();
    push();
    *count += 1;
}

// f(e, ..), at f.
static void read_call(struct name *function) {
    long count = 0;
    next();
    expect('(');
    if (word != ')') {
        read_argument(&count);
        while (word == ',') {
            next();
            read_argument(&count);
        }
    }
    expect(')');
    require(count == function->count, BAD_TYPE);
    if (function->kind == FUNCTION)
        put_jump(function->value, 1);
    else
        function->value = put_link(function->value);
    put(ADDI | rd(2) | rs1(2) | number_i(8 * count));
    is_value(function->type);
}

// The upper part of a global's address goes to x10; the lower part is left.
static int64_t put_global(int64_t at) {
    uint32_t upper = (uint32_t)(at + 2048) & 0xfffff000u;
    put(LUI | rd(10) | upper);
    return at - upper;
}

static void read_named(void) {
    struct name *one = entry;
    require(one != NULL, UNKNOWN_NAME);
    if (one->kind == PROTOTYPE || one->kind == FUNCTION) {
        read_call(one);
        return;
    }
    if (one->kind == CONSTANT) {
        put_number(one->value);
        is_value(LONG);
    } else if (one->kind == LOCAL) {
        is_at(one->type, 8, one->value);
    } else {
        is_at(one->type, 10, put_global(one->value));
        if (one->kind == ARRAY)
            address();
    }
    next();
}

// A text stands in the code, and the jump over it leaves its address in x10.
static void put_text(void) {
    long over = put_link(0);
    size_t behind = place;
    place = (size_t)(word_start - source);
    while (source[place] != '"')
        put_byte(take_character());
    place = behind;
    put_byte(0);
    while (end % 4 != 0)
        put_byte(0);
    jump_here(over, 10);
}

static void read_primary(void) {
    if (word == NUMBER) {
        put_number(number);
        is_value(LONG);
        next();
    } else if (word == TEXT) {
        put_text();
        is_value(CHAR + 1);
        next();
    } else {
        require(word == NAME, SYNTAX);
        read_named();
    }
}

// (T)e or (e), behind the parenthesis.
static void read_parenthesis(void) {
    if (is_type_word()) {
        long to = read_long_type();
        expect(')');
        read_unary();
        value();
        is_value(to);
        return;
    }
    read_expression();
    expect(')');
    read_postfix();
}

static void read_sizeof(void) {
    next();
    expect('(');
    put_number(size_of(read_type()));
    expect(')');
    is_value(LONG);
}

static void read_unary(void) {
    long sign = word;
    switch (sign) {
    case '-':
        next();
        read_unary();
        long_value();
        put(SUB | rd(10) | rs2(10));
        break;
    case '~':
        next();
        read_unary();
        long_value();
        put(XORI | rd(10) | rs1(10) | number_i(-1));
        break;
    case '!':
        next();
        read_unary();
        value();
        put(SLTIU | rd(10) | rs1(10) | number_i(1));
        is_value(LONG);
        break;
    case '*':
        next();
        read_unary();
        value();
        is_at(pointed(type), 10, 0);
        break;
    case '&':
        next();
        read_unary();
        address();
        break;
    case WORD_SIZEOF:
        read_sizeof();
        break;
    case '(':
        next();
        read_parenthesis();
        break;
    default:
        read_primary();
        read_postfix();
    }
}

// ---- statements

// The innermost loop: where it begins, and the chain of jumps to its end.
struct loop {
    long begin;
    long chain;
};

static struct loop *loop;  // or none
static long locals;        // how many there are
static long most_locals;   // how many there were at most

static void read_statement(void);

// (e), and a jump that is taken where it is 0.
static long read_condition(void) {
    expect('(');
    read_value();
    expect(')');
    return put_false_jump(BNE);
}

static void read_if(void) {
    next();
    long otherwise = read_condition();
    read_statement();
    if (word != WORD_ELSE) {
        jump_here(otherwise, 0);
        return;
    }
    next();
    long behind = put_link(0);
    jump_here(otherwise, 0);
    read_statement();
    jump_here(behind, 0);
}

static void read_while(void) {
    struct loop *outer = loop;
    struct loop inner = {end, 0};
    next();
    inner.chain = read_condition();
    loop = &inner;
    read_statement();
    put_jump(inner.begin, 0);
    jump_here(inner.chain, 0);
    loop = outer;
}

static void put_return(void) {
    put(ADDI | rd(2) | rs1(8));
    put(LD | rd(8) | rs1(2));
    put(LD | rd(1) | rs1(2) | number_i(8));
    put(ADDI | rd(2) | rs1(2) | number_i(16));
    put(JALR | rs1(1));
}

// T x; or T x = e;
static void read_local(void) {
    long its_type = read_long_type();
    require(word == NAME, SYNTAX);
    require(locals < 256, TOO_LARGE);
    locals += 1;
    if (locals > most_locals)
        most_locals = locals;
    int64_t at = -8 * locals;
    declare(ORDINARY, LOCAL, its_type, at);
    next();
    if (word == '=') {
        next();
        read_value();
        put_store(its_type, 8, at);
    }
    expect(';');
}

// Up to the `}` of a block, which is left.
static void read_statements(void) {
    while (word != '}') {
        if (is_type_word())
            read_local();
        else
            read_statement();
    }
}

static void read_block(void) {
    long outer = block_begin;
    long outer_locals = locals;
    block_begin = names_end;
    next();
    read_statements();
    forget();
    block_begin = outer;
    locals = outer_locals;
    next();
}

static void read_statement(void) {
    switch (word) {
    case '{':
        read_block();
        return;
    case WORD_IF:
        read_if();
        return;
    case WORD_WHILE:
        read_while();
        return;
    case WORD_BREAK:
        next();
        require(loop != NULL, SYNTAX);
        loop->chain = put_link(loop->chain);
        break;
    case WORD_CONTINUE:
        next();
        require(loop != NULL, SYNTAX);
        put_jump(loop->begin, 0);
        break;
    case WORD_RETURN:
        next();
        if (word != ';')
            read_value();
        put_return();
        break;
    case ';':
        break;
    default:
        read_expression();
    }
    expect(';');
}

// ---- declarations outside of functions

// [-] a number, a character or a constant.
static int64_t read_constant(void) {
    int64_t sign = 1;
    if (word == '-') {
        sign = -1;
        next();
    }
    int64_t found = number;
    if (word != NUMBER) {
        require(word == NAME, SYNTAX);
        require(entry != NULL, UNKNOWN_NAME);
        require(entry->kind == CONSTANT, BAD_TYPE);
        found = entry->value;
    }
    next();
    return sign * found;
}

static void read_enum(void) {
    int64_t next_value = 0;
    next();
    expect('{');
    do {
        require(word == NAME, SYNTAX);
        const byte *start = word_start;
        long count = word_length;
        next();
        if (word == '=') {
            next();
            next_value = read_constant();
        }
        // The name is declared behind its value, as in C: nothing but `,` and `}` may be the word now, and neither has a place in the source.
        word_start = start;
        word_length = count;
        declare(ORDINARY, CONSTANT, LONG, next_value);
        next_value = (int64_t)((uint64_t)next_value + 1);
        if (word != ',')
            break;
        next();
    } while (word != '}');
    expect('}');
    expect(';');
}

// Behind struct x, at `{`.
static void read_struct(long its_type) {
    struct name *tag = &names[its_type / 8];
    long size = 0;
    require(tag->value == 0, NAME_TWICE);
    next();
    do {
        long member = read_long_type();
        require(word == NAME, SYNTAX);
        require(size < 8 * 255, TOO_LARGE);
        declare(its_type, MEMBER, member, size);
        size += 8;
        next();
        expect(';');
    } while (word != '}');
    tag->value = size;
    next();
    expect(';');
}

static void read_parameter(long *count) {
    long its_type = read_long_type();
    require(word == NAME, SYNTAX);
    require(*count < 254, TOO_LARGE);
    declare(ORDINARY, LOCAL, its_type, *count);
    *count += 1;
    next();
}

// (T x, ..), behind the parenthesis; gives how many there are.
static long read_parameters(void) {
    long count = 0;
    if (word == WORD_VOID) {
        next();
    } else {
        read_parameter(&count);
        while (word == ',') {
            next();
            read_parameter(&count);
        }
    }
    expect(')');
    return count;
}

// The last parameter stands at 16(x8), and those before it above it.
static void place_parameters(long count) {
    for (long i = block_begin; i < names_end; i += 1)
        if (names[i].kind == LOCAL)
            names[i].value = 16 + 8 * (count - 1 - names[i].value);
}

// Behind T f(..), at `{`.
static void read_body(struct name *function, long count) {
    require(function->kind == PROTOTYPE, NAME_TWICE);
    jump_here(function->value, 1);
    function->kind = FUNCTION;
    function->value = end;
    place_parameters(count);
    put(ADDI | rd(2) | rs1(2) | number_i(-16));
    put(SD | rs1(2) | rs2(1) | number_s(8));
    put(SD | rs1(2) | rs2(8));
    put(ADDI | rd(8) | rs1(2));
    long frame = end;
    put(0);
    locals = 0;
    most_locals = 0;
    next();
    read_statements();
    put_return();
    set_word(frame, ADDI | rd(2) | rs1(2) | number_i(-8 * most_locals));
}

// Behind T f, at `(`.
static void read_function(struct name *function, int is_new) {
    long outer = block_begin;
    block_begin = names_end;
    next();
    long count = read_parameters();
    if (is_new)
        function->count = count;
    require(function->count == count, BAD_TYPE);
    if (word == '{')
        read_body(function, count);
    else
        require(word == ';', SYNTAX);
    forget();
    block_begin = outer;
    next();
}

// The bytes of globals up to a multiple of 8.
static void reserve(int64_t size) {
    require(size <= DATA_BASE + MOST_DATA - data_end, TOO_LARGE);
    data_end += (size + 7) / 8 * 8;
}

static void read_array(struct name *array) {
    next();
    int64_t count = read_constant();
    require(count >= 1, BAD_NUMBER);
    require(count <= MOST_DATA, TOO_LARGE);
    array->kind = ARRAY;
    require(array->type == LONG || array->type == CHAR || is_pointer(array->type), BAD_TYPE);
    reserve(count * size_of(array->type));
    expect(']');
    expect(';');
}

static void read_global(struct name *global) {
    if (word == '[') {
        read_array(global);
        return;
    }
    require(global->type == LONG || is_pointer(global->type), BAD_TYPE);
    reserve(8);
    expect(';');
}

// T x.., T f(..).. or struct x { .. };
static void read_declaration(void) {
    long its_type;
    if (word == WORD_STRUCT) {
        next();
        its_type = read_tag();
        if (word == '{') {
            read_struct(its_type);
            return;
        }
        its_type = read_stars(its_type);
    } else {
        its_type = read_type();
    }
    require(word == NAME, SYNTAX);
    struct name *known = entry;
    if (known != NULL && (known->kind == PROTOTYPE || known->kind == FUNCTION)) {
        require(known->type == its_type, BAD_TYPE);
        next();
        require(word == '(', NAME_TWICE);
        read_function(known, 0);
        return;
    }
    struct name *one = declare(ORDINARY, GLOBAL, its_type, data_end);
    next();
    if (word != '(') {
        read_global(one);
        return;
    }
    require(its_type == LONG || its_type == VOID || is_pointer(its_type), BAD_TYPE);
    one->kind = PROTOTYPE;
    one->value = 0;
    read_function(one, 1);
}

static void read_unit(void) {
    while (word != END) {
        if (word == WORD_ENUM)
            read_enum();
        else
            read_declaration();
    }
}

// Each function that is called has a body.
static void require_bodies(void) {
    for (long i = 0; i < names_end; i += 1)
        if (names[i].kind == PROTOTYPE && names[i].value != 0) {
            line = names[i].line;
            refuse(NO_BODY);
        }
}

// ---- what is there at first: the words of C, begin and system_call

static void put_start(void) {
    struct name *begin = &names[names_end - 2];
    struct name *system_call = &names[names_end - 1];
    put(ADDI | rd(10) | rs1(2)); // the words' place is begin's argument
    push();
    begin->kind = PROTOTYPE;
    begin->count = 1;
    begin->value = put_link(0);
    put(ADDI | rd(17) | number_i(93)); // exit, with the result of begin
    put(ECALL);
    system_call->kind = FUNCTION;
    system_call->count = 5;
    system_call->value = end;
    put(LD | rd(17) | rs1(2) | number_i(32));
    put(LD | rd(10) | rs1(2) | number_i(24));
    put(LD | rd(11) | rs1(2) | number_i(16));
    put(LD | rd(12) | rs1(2) | number_i(8));
    put(LD | rd(13) | rs1(2));
    put(ECALL);
    put(JALR | rs1(1));
}

static void note_words(void) {
    source = words_of_c;
    line = 0;
    next();
    for (int64_t i = WORD_LONG; word == NAME; i += i < WORD_OTHER) {
        declare(ORDINARY, KEYWORD, LONG, i);
        next();
    }
}

// ---- the header: ELF-64 Object File Format, "ELF Header", "Program Header Table"

static void set_header(void) {
    static const uint32_t header[HEADER / 4] = {
        0x464c457f, 0x00010102, 0, 0, 0x00f30002, 1, TEXT_BASE + HEADER, 0, 64, 0, 0, 0, 0, 0x00380040, 2, 0,
        1, 5, 0, 0, TEXT_BASE, 0, TEXT_BASE, 0, 0, 0, 0, 0, 4096, 0,
        1, 6, 0, 0, DATA_BASE, 0, DATA_BASE, 0, 0, 0, 0, 0, 4096, 0,
    };
    for (int i = 0; i < HEADER / 4; i += 1)
        set_word(4 * i, header[i]);
    set_word(96, (uint32_t)end);
    set_word(104, (uint32_t)end);
    set_word(160, (uint32_t)(data_end - DATA_BASE));
}

static void write_output(const char *name) {
    int file = open(name, O_WRONLY | O_CREAT | O_TRUNC, 0755);
    if (file < 0)
        fault(CANNOT_MAKE);
    for (long done = 0; done < end;) {
        ssize_t written = write(file, output + done, (size_t)(end - done));
        if (written <= 0)
            fault(NOT_WRITTEN);
        done += written;
    }
}

int main(int count, char **words) {
    if (count < 3)
        fault(WRONG_COUNT);
    note_words();
    put_start();
    read_sources(count - 2, words + 1);
    next();
    read_unit();
    require_bodies();
    set_header();
    write_output(words[count - 1]);
    return DONE;
}
