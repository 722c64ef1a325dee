// The ground of cc: calls of Linux, memory, texts, files, refusals, and three functions of unsigned numbers.
//
// The parts of cc are written in the language of cc0, a strict subset of C: `long`, `char` behind pointers, structs of both used by
// pointer, and functions. cc.c names the parts in their order.

enum { OPENAT = 56, CLOSE = 57, LSEEK = 62, READ = 63, WRITE = 64, EXIT = 93, BRK = 214, };
// To write, made where it is not there, and emptied; with the mode rwxr-xr-x.
enum { TO_WRITE = 577, MODE = 493, };
// How cc ends: well, a source that is refused, wrong words, a file that cannot be read or written, no more memory.
enum { DONE = 0, REFUSED = 1, WRONG_WORDS = 2, NO_FILE = 3, NO_MEMORY = 4, };

// A call of Linux; an error is the negated number of Linux's error. Who links cc gives this.
long system_call(long number, long first, long second, long third, long fourth);

// A name has one entry, however often it stands in the sources. What it means at the moment hangs on it.
struct name {
    struct name *next;
    char *text;
    long length;
    long keyword;
    long directive;
    struct macro *macro;
    struct symbol *symbol;
    struct symbol *global;
    struct tag *tag;
    struct label *label;
};

// A file that is being read; `depth` files include it.
struct file {
    struct file *outer;
    char *name;
    char *at;
    long line;
    long begin;
    long depth;
    struct group *groups;
};

// A word of a source: where it stands, what it is, and the names that may not be expanded in it.
struct word {
    struct word *next;
    long kind;
    long value;
    char *text;
    long length;
    struct name *name;
    struct hidden *hidden;
    struct file *file;
    long line;
    long space;
    long begin;
};

// ---- unsigned numbers

// Is one below the other, as unsigned numbers?
long below(long one, long other) {
    if ((one ^ other) < 0)
        return other < 0;
    return one < other;
}

// A number shifted right, zeros coming in.
long shift_right(long value, long count) {
    if (count == 0)
        return value;
    long bit = 1;
    return (value >> count) & ((bit << (63 - count)) * 2 - 1);
}

// The quotient of unsigned numbers.
long divide(long value, long by) {
    if (by < 0)
        return !below(value, by);
    if (value >= 0)
        return value / by;
    long quotient = (shift_right(value, 1) / by) * 2;
    if (!below(value - quotient * by, by))
        quotient += 1;
    return quotient;
}

// ---- texts

long length_of(char *text) {
    long length = 0;
    while (text[length] != 0)
        length += 1;
    return length;
}

// Do so many bytes at two places agree?
long same_bytes(char *one, char *other, long length) {
    long at = 0;
    while (at < length) {
        if (one[at] != other[at])
            return 0;
        at += 1;
    }
    return 1;
}

long same_text(char *one, char *other) {
    long length = length_of(one);
    return length == length_of(other) && same_bytes(one, other, length);
}

void copy_bytes(char *to, char *from, long length) {
    long at = 0;
    while (at < length) {
        to[at] = from[at];
        at += 1;
    }
}

// ---- what is told

void finish(long status) {
    while (1)
        system_call(EXIT, status, 0, 0, 0);
}

// Writes all bytes, or tells that it could not.
long write_all(long descriptor, char *bytes, long length) {
    while (length > 0) {
        long written = system_call(WRITE, descriptor, (long)bytes, length, 0);
        if (written <= 0)
            return 0;
        bytes += written;
        length -= written;
    }
    return 1;
}

void tell(char *text) { write_all(2, text, length_of(text)); }

void tell_number(long number) {
    if (number >= 10)
        tell_number(number / 10);
    write_all(2, "0123456789" + number % 10, 1);
}

// Tells where a word stands.
void tell_place(struct word *place) {
    tell("cc: ");
    if (place != 0 && place->file != 0) {
        tell(place->file->name);
        tell(":");
        tell_number(place->line);
        tell(": ");
    }
}

// Ends with the place, what is refused, and a name where there is one.
void refuse(struct word *place, char *what, struct name *name) {
    tell_place(place);
    tell("refused: ");
    tell(what);
    if (name != 0) {
        tell(" ");
        write_all(2, name->text, name->length);
    }
    tell("\n");
    finish(REFUSED);
}

// Ends where the machine, not the source, is the reason.
void stop(long status, char *what, char *name) {
    tell("cc: ");
    tell(what);
    tell(name);
    tell("\n");
    finish(status);
}

// ---- memory

char *heap;
char *heap_end;

// So many bytes of memory that read 0, at a multiple of eight. Nothing is given back.
char *take(long size) {
    size = (size + 7) & -8;
    if (heap == 0) {
        heap = (char *)((system_call(BRK, 0, 0, 0, 0) + 7) & -8);
        heap_end = heap;
    }
    if (heap_end - heap < size) {
        char *wanted = heap + size + 1048576;
        if (system_call(BRK, (long)wanted, 0, 0, 0) != (long)wanted)
            stop(NO_MEMORY, "no more memory", "");
        heap_end = wanted;
    }
    char *taken = heap;
    heap += size;
    return taken;
}

// Two texts and what stands between them, as one.
char *joined(char *one, long one_length, char *other, long other_length) {
    char *text = take(one_length + other_length + 1);
    copy_bytes(text, one, one_length);
    copy_bytes(text + one_length, other, other_length);
    return text;
}

// ---- files

// Takes out each backslash before a line's end; the lines that go are put behind the line, so that numbers of lines stay.
void join_lines(char *text) {
    char *from = text;
    char *to = text;
    long gone = 0;
    while (*from != 0) {
        if (*from == '\\' && (from[1] == '\n' || (from[1] == '\r' && from[2] == '\n'))) {
            from += 2 + (from[1] == '\r');
            gone += 1;
        } else {
            *to = *from;
            to += 1;
            while (*from == '\n' && gone > 0) {
                *to = '\n';
                to += 1;
                gone -= 1;
            }
            from += 1;
        }
    }
    *to = '\n';
    to[1] = 0;
}

// The bytes of a file with a line's end and a zero byte behind them, or 0 where it cannot be opened.
char *read_file(char *name) {
    long descriptor = system_call(OPENAT, -100, (long)name, 0, 0);
    if (descriptor < 0)
        return 0;
    long size = system_call(LSEEK, descriptor, 0, 2, 0);
    if (size < 0 || system_call(LSEEK, descriptor, 0, 0, 0) < 0)
        stop(NO_FILE, "cannot be read: ", name);
    char *text = take(size + 2);
    long length = 0;
    while (length < size) {
        long count = system_call(READ, descriptor, (long)(text + length), size - length, 0);
        if (count <= 0)
            stop(NO_FILE, "cannot be read: ", name);
        length += count;
    }
    system_call(CLOSE, descriptor, 0, 0, 0);
    if (length_of(text) < size)
        stop(NO_FILE, "has a zero byte: ", name);
    join_lines(text);
    return text;
}

// What is put out is kept until it is whole, and then written.
char *output;
long output_length;
long output_room;

// Puts bytes behind what was put out.
void put(char *bytes, long length) {
    if (output_length + length >= output_room) {
        char *before = output;
        output_room = (output_length + length) * 2;
        output = take(output_room);
        copy_bytes(output, before, output_length);
    }
    copy_bytes(output + output_length, bytes, length);
    output_length += length;
}

void write_output(char *name) {
    long descriptor = system_call(OPENAT, -100, (long)name, TO_WRITE, MODE);
    if (descriptor < 0 || !write_all(descriptor, output, output_length))
        stop(NO_FILE, "cannot be written: ", name);
    system_call(CLOSE, descriptor, 0, 0, 0);
}
