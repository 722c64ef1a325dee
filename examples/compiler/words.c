// Words: a text cut into names, numbers, characters, texts and marks; and what numbers, characters and texts stand for.

// Kinds of words. PARAMETER stands in the body of a macro; the other kinds below are known to the parser too.
enum { NAME = 1, NUMBER = 2, TEXT = 3, CHARACTER = 4, MARK = 5, PARAMETER = 6, END = 7, };

// Marks of one byte are that byte. `op=` is ASSIGN_WITH + op.
enum {
    ARROW = 256, INCREMENT, DECREMENT, SHIFT_LEFT, SHIFT_RIGHT, LESS_EQUAL, GREATER_EQUAL, EQUAL, NOT_EQUAL, AND_ALSO, OR_ELSE,
    ELLIPSIS, PASTE,
    ASSIGN_WITH = 512,
};

// What a byte can begin.
enum { IN_NAME = 1, IN_NUMBER = 2, };
char class_of[256];

struct name *names[8192];
struct file *file;

// The entry of a name of so many bytes, made where it is new. `hash` is made of its bytes by next_hash, from 0.
long next_hash(long hash, long byte) { return (hash * 31 + byte) & 8191; }

struct name *name_at(char *text, long length, long hash) {
    struct name *name = names[hash];
    while (name != 0) {
        if (name->length == length && same_bytes(name->text, text, length))
            return name;
        name = name->next;
    }
    name = (struct name *)take(sizeof(struct name));
    name->next = names[hash];
    name->text = text;
    name->length = length;
    names[hash] = name;
    return name;
}

struct name *name_of(char *text) {
    long hash = 0;
    long length = 0;
    while (text[length] != 0) {
        hash = next_hash(hash, text[length]);
        length += 1;
    }
    return name_at(text, length, hash);
}

void fill_classes(void) {
    long byte = '0';
    while (byte <= '9') {
        class_of[byte] = IN_NUMBER;
        byte += 1;
    }
    byte = 'a';
    while (byte <= 'z') {
        class_of[byte] = IN_NAME;
        class_of[byte - 32] = IN_NAME;
        byte += 1;
    }
    class_of['_'] = IN_NAME;
}

// Adds a file to those that are read; it is read first.
struct file *open_text(char *name, char *text) {
    struct file *opened = (struct file *)take(sizeof(struct file));
    opened->outer = file;
    if (file != 0)
        opened->depth = file->depth + 1;
    opened->name = name;
    opened->at = text;
    opened->line = 1;
    opened->begin = 1;
    file = opened;
    return opened;
}

// ---- cutting a text

struct word *new_word(long kind) {
    struct word *made = (struct word *)take(sizeof(struct word));
    made->kind = kind;
    made->file = file;
    if (file != 0)
        made->line = file->line;
    return made;
}

void refuse_here(char *what) { refuse(new_word(END), what, 0); }

// How deep what is read lies in others of its kind: parentheses, operands, statements, lists, structures, arguments of macros. Each of them takes
// some of the stack, so the depth has a bound, and so have trees of operations and types of types.
enum { DEEPEST = 1000, };
long nesting;

void go_deeper(void) {
    nesting += 1;
    if (nesting > DEEPEST)
        refuse_here("what is nested in more than 1000 others");
}

// Past a comment that begins at a place.
char *over_comment(char *at) {
    struct word *place = new_word(END);
    at += 2;
    while (*at != '*' || at[1] != '/') {
        if (*at == 0)
            refuse(place, "a comment without end", 0);
        if (*at == '\n')
            file->line += 1;
        at += 1;
    }
    return at + 2;
}

char *over_line(char *at) {
    while (*at != '\n')
        at += 1;
    return at;
}

// Past a text or character that begins at a place, or at its line's end where it does not end.
char *over_quoted(char *at) {
    long quote = *at;
    at += 1;
    while (*at != quote && *at != '\n') {
        if (*at == '\\' && at[1] != '\n')
            at += 1;
        at += 1;
    }
    if (*at == quote)
        return at + 1;
    return at;
}

// Goes past blanks, comments and, but for `inside` a line, the ends of lines. Is there any?
long over_blanks(long inside) {
    char *at = file->at;
    while (1) {
        long byte = *at;
        if (byte == ' ' || byte == '\t' || byte == '\r' || byte == 11 || byte == 12) {
            at += 1;
        } else if (byte == '\n' && !inside && at[1] != 0) {
            at += 1;
            file->line += 1;
            file->begin = 1;
        } else if (byte == '/' && at[1] == '*') {
            at = over_comment(at);
        } else if (byte == '/' && at[1] == '/') {
            at = over_line(at);
        } else {
            long moved = at != file->at;
            file->at = at;
            return moved;
        }
    }
}

// A mark of two equal bytes, or 0.
long double_mark(long byte) {
    if (byte == '+')
        return INCREMENT;
    if (byte == '-')
        return DECREMENT;
    if (byte == '<')
        return SHIFT_LEFT;
    if (byte == '>')
        return SHIFT_RIGHT;
    if (byte == '&')
        return AND_ALSO;
    if (byte == '|')
        return OR_ELSE;
    if (byte == '#')
        return PASTE;
    return 0;
}

// A mark that ends with `=` behind this byte, or 0.
long equal_mark(long byte) {
    if (byte == '=')
        return EQUAL;
    if (byte == '!')
        return NOT_EQUAL;
    if (byte == '<')
        return LESS_EQUAL;
    if (byte == '>')
        return GREATER_EQUAL;
    if (byte == '+' || byte == '-' || byte == '*' || byte == '/' || byte == '%' || byte == '&' || byte == '|' || byte == '^')
        return ASSIGN_WITH + byte;
    return 0;
}

// The longest mark at the word's place.
void cut_mark(struct word *made) {
    char *at = made->text;
    long byte = *at;
    made->kind = MARK;
    made->value = byte;
    made->length = 1;
    long longer = 0;
    if (at[1] == byte && (byte != '=' && byte != '!'))
        longer = double_mark(byte);
    if (longer == 0 && at[1] == '=')
        longer = equal_mark(byte);
    if (byte == '-' && at[1] == '>')
        longer = ARROW;
    if (longer != 0) {
        made->value = longer;
        made->length = 2;
    }
    if ((longer == SHIFT_LEFT || longer == SHIFT_RIGHT) && at[2] == '=') {
        made->value = ASSIGN_WITH + longer;
        made->length = 3;
    }
    if (byte == '.' && at[1] == '.' && at[2] == '.') {
        made->value = ELLIPSIS;
        made->length = 3;
    }
}

void cut_name(struct word *made) {
    char *at = made->text;
    long hash = 0;
    long byte = *at;
    while (class_of[byte] != 0) {
        hash = next_hash(hash, byte);
        at += 1;
        byte = *at;
    }
    made->kind = NAME;
    made->length = at - made->text;
    made->name = name_at(made->text, made->length, hash);
    if (made->length == 1 && *made->text == 'L' && (byte == '"' || byte == '\''))
        refuse(made, "a wide text or character", 0);
}

// A number as the preprocessor cuts it: also a sign behind an exponent's letter belongs to it.
void cut_number(struct word *made) {
    char *at = made->text;
    long byte = *at;
    while (class_of[byte] != 0 || byte == '.') {
        at += 1;
        long letter = byte | 32;
        byte = *at;
        if ((letter == 'e' || letter == 'p') && (byte == '+' || byte == '-')) {
            at += 1;
            byte = *at;
        }
    }
    made->kind = NUMBER;
    made->length = at - made->text;
}

void cut_quoted(struct word *made) {
    char *at = over_quoted(made->text);
    made->kind = TEXT;
    if (*made->text == '\'')
        made->kind = CHARACTER;
    made->length = at - made->text;
    if (*at == '\n' && (made->length == 1 || at[-1] != *made->text))
        refuse(made, "a text or character without end", 0);
}

// The next word of the file. 0 at the file's end, and at the end of a line where `inside` is set.
struct word *cut_word(long inside) {
    long space = over_blanks(inside);
    if (*file->at == '\n' || *file->at == 0)
        return 0;
    struct word *made = new_word(MARK);
    char *at = file->at;
    long byte = *at;
    made->space = space;
    made->begin = file->begin;
    made->text = at;
    long following = at[1];
    if (class_of[byte] == IN_NAME)
        cut_name(made);
    else if (class_of[byte] == IN_NUMBER || (byte == '.' && class_of[following] == IN_NUMBER))
        cut_number(made);
    else if (byte == '"' || byte == '\'')
        cut_quoted(made);
    else
        cut_mark(made);
    file->at = at + made->length;
    file->begin = 0;
    return made;
}

long is_mark(struct word *one, long mark) { return one != 0 && one->kind == MARK && one->value == mark; }

// ---- what words stand for

// The value of a digit or letter as a digit, or 99.
long digit_of(long byte) {
    if (byte >= '0' && byte <= '9')
        return byte - '0';
    byte = byte | 32;
    if (byte >= 'a' && byte <= 'z')
        return byte - 'a' + 10;
    return 99;
}

// Which letters stand behind a number's digits. Any others make it no integer.
enum { WITH_U = 1, WITH_L = 2, DECIMAL = 4, };

long suffix_of(struct word *number, char *at, char *last) {
    long suffix = 0;
    while (at < last) {
        long letter = *at | 32;
        if (letter == 'u' && !(suffix & WITH_U)) {
            suffix += WITH_U;
        } else if (letter == 'l' && !(suffix & WITH_L)) {
            suffix += WITH_L;
            if (at + 1 < last && at[1] == *at)
                at += 1;
        } else {
            refuse(number, "a floating or malformed number", 0);
        }
        at += 1;
    }
    return suffix;
}

// Sets a number's value, and gives its suffix and whether it is decimal.
long read_number(struct word *number) {
    char *at = number->text;
    char *last = at + number->length;
    long base = 10;
    long value = 0;
    long suffix = 0;
    if (*at == '0') {
        base = 8;
        if (number->length > 2 && (at[1] | 32) == 'x') {
            base = 16;
            at += 2;
        }
    } else {
        suffix = DECIMAL;
    }
    while (at < last && digit_of(*at) < base) {
        if (below(divide(-1, base), value) || below(value * base + digit_of(*at), value * base))
            refuse(number, "a number above 2^64 - 1", 0);
        value = value * base + digit_of(*at);
        at += 1;
    }
    number->value = value;
    return suffix + suffix_of(number, at, last);
}

// Where the byte behind that of `read_byte` begins.
char *after_byte;

// A number of octal or hexadecimal digits, at most so many, that has to be a byte.
long read_digits(struct word *place, char *at, long base, long most) {
    long value = 0;
    long count = 0;
    while (count < most && digit_of(*at) < base) {
        value = value * base + digit_of(*at);
        at += 1;
        count += 1;
    }
    if (count == 0 || value > 255)
        refuse(place, "an escape that is no byte", 0);
    after_byte = at;
    return value;
}

// The byte that stands at a place of a text or character, where a backslash may begin an escape.
long read_byte(struct word *place, char *at) {
    after_byte = at + 1;
    if (*at != '\\')
        return *at;
    long letter = at[1];
    after_byte = at + 2;
    if (letter >= '0' && letter <= '7')
        return read_digits(place, at + 1, 8, 3);
    if (letter == 'x')
        return read_digits(place, at + 2, 16, 1000);
    if (letter == 'n')
        return 10;
    if (letter == 't')
        return 9;
    if (letter == 'r')
        return 13;
    if (letter == 'a')
        return 7;
    if (letter == 'b')
        return 8;
    if (letter == 'f')
        return 12;
    if (letter == 'v')
        return 11;
    if (letter != '\\' && letter != '\'' && letter != '"' && letter != '?')
        refuse(place, "an unknown escape", 0);
    return letter;
}

// Sets a character's value.
void read_character(struct word *character) {
    char *last = character->text + character->length - 1;
    if (character->length < 3)
        refuse(character, "an empty character", 0);
    character->value = read_byte(character, character->text + 1);
    if (after_byte != last)
        refuse(character, "a character of several bytes", 0);
}

// Puts a text's bytes to a place, without a zero byte behind them, and gives their number.
long read_text(struct word *text, char *to) {
    char *at = text->text + 1;
    char *last = text->text + text->length - 1;
    long length = 0;
    while (at < last) {
        to[length] = read_byte(text, at);
        length += 1;
        at = after_byte;
    }
    return length;
}
