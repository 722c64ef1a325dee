// What is made: the code, the data, the uses of functions that are filled in at the end, and the ELF file.
//
// The code is loaded at 0x600000, behind the file's headers. The data is loaded at 0x10000000, and behind its first 4 MB stand the objects
// that are 0 at first, which the file does not have. So every object has its address before anything else is known.

enum { CODE_BASE = 0x6000B0, CODE_ROOM = 0x400000, DATA_BASE = 0x10000000, DATA_ROOM = 0x400000, ZERO_BASE = 0x10400000, };
enum { ZERO_ROOM = 0x20000000, };
// The size of the file's headers, and of a page, at whose multiple the data begins in the file.
enum { HEADERS = 176, PAGE = 4096, };

char *code;
long code_length;
char *data;
long data_length;
long zero_length;

// Where a function's address is wanted: in the two instructions of a call or of a value, or in the data.
enum { IN_CALL = 1, IN_VALUE, IN_DATA, };

struct use {
    struct use *next;
    long kind;
    long place;
    long added;
};

void make_segments(void) {
    code = take(CODE_ROOM);
    data = take(DATA_ROOM);
}

// Writes so many bytes of a number, the lowest first.
void put_number(char *to, long value, long size) {
    while (size > 0) {
        *to = value & 255;
        to += 1;
        value = value >> 8;
        size -= 1;
    }
}

long word_at(long place) {
    return code[place] + (code[place + 1] * 256) + (code[place + 2] * 65536) + (code[place + 3] * 16777216L);
}

void set_word(long place, long value) { put_number(code + place, value, 4); }

// Adds an instruction.
void emit(long value) {
    if (code_length + 4 > CODE_ROOM)
        refuse(word, "more than 4 MB of code", 0);
    put_number(code + code_length, value, 4);
    code_length += 4;
}

// ---- data

// Room for an object with its first bytes in the file; gives its address.
long take_data(long size, long align) {
    long at = rounded(data_length, align);
    if (at + size > DATA_ROOM)
        refuse(word, "more than 4 MB of data", 0);
    data_length = at + size;
    return DATA_BASE + at;
}

// Room for an object that is 0 at first; gives its address.
long take_zeros(long size, long align) {
    long at = rounded(zero_length, align);
    if (at + size > ZERO_ROOM)
        refuse(word, "more than 512 MB of data", 0);
    zero_length = at + size;
    return ZERO_BASE + at;
}

char *data_at(long address) { return data + (address - DATA_BASE); }

// ---- functions

void add_use(struct symbol *function, long kind, long place, long added) {
    struct use *made = (struct use *)take(sizeof(struct use));
    made->next = function->uses;
    made->kind = kind;
    made->place = place;
    made->added = added;
    function->uses = made;
    function->is_used = 1;
}

// Fills in a use. The two instructions are auipc, and one whose upper 12 bits are added to it.
void fill_use(struct use *use, long target) {
    if (use->kind == IN_DATA) {
        put_number(data_at(use->place), CODE_BASE + target + use->added, 8);
        return;
    }
    long distance = target - use->place;
    long high = (distance + 2048) & -4096;
    set_word(use->place, word_at(use->place) | (high & 4294963200L));
    set_word(use->place + 4, word_at(use->place + 4) | ((distance & 4095) << 20));
}

// Fills in all uses of all functions. Whatever is used has to be somewhere.
void fill_uses(void) {
    struct symbol *symbol = symbols;
    while (symbol != 0) {
        if (symbol->is_used && !symbol->is_defined)
            refuse(symbol->place, "used and nowhere defined:", symbol->name);
        struct use *use = symbol->uses;
        while (use != 0) {
            fill_use(use, symbol->value);
            use = use->next;
        }
        symbol = symbol->next;
    }
}

// ---- what C cannot say

struct symbol *fixed_function(char *text) {
    struct word *place = (struct word *)take(sizeof(struct word));
    place->name = name_of(text);
    struct symbol *made = new_symbol(place, CODE, function_of(0, plain(LONG)));
    place->name->global = made;
    made->next = symbols;
    symbols = made;
    return made;
}

void begin_fixed(char *text) {
    struct symbol *made = fixed_function(text);
    made->value = code_length;
    made->is_defined = 1;
}

// The program's begin: hands x2, where the words stand, to begin, and ends with what that gives. Each argument stands 8 bytes above the
// one before it, the first at x2; a function keeps x2 and x8, and its value is in x10.
void emit_start(void) {
    struct symbol *first = fixed_function("begin");
    emit(0x00010513);        // addi x10, x2, 0
    emit(0xFF810113L);       // addi x2, x2, -8
    emit(0x00A13023);        // sd x10, 0(x2)
    add_use(first, IN_CALL, code_length, 0);
    emit(0x00000097);        // auipc x1, 0
    emit(0x000080E7);        // jalr x1, 0(x1)
    emit(0x05D00893);        // addi x17, x0, 93
    emit(0x00000073);        // ecall
    begin_fixed("system_call");
    emit(0x00013883);        // ld x17, 0(x2)
    emit(0x00813503);        // ld x10, 8(x2)
    emit(0x01013583);        // ld x11, 16(x2)
    emit(0x01813603);        // ld x12, 24(x2)
    emit(0x02013683);        // ld x13, 32(x2)
    emit(0x00000073);        // ecall
    emit(0x00008067);        // jalr x0, 0(x1)
}

// setjmp keeps x1, x2 and x8, all that lives across a call; longjmp gives them back.
void emit_jumps(void) {
    begin_fixed("setjmp");
    emit(0x00013503);        // ld x10, 0(x2)
    emit(0x00153023);        // sd x1, 0(x10)
    emit(0x00253423);        // sd x2, 8(x10)
    emit(0x00853823);        // sd x8, 16(x10)
    emit(0x00000513);        // addi x10, x0, 0
    emit(0x00008067);        // jalr x0, 0(x1)
    begin_fixed("longjmp");
    emit(0x00013583);        // ld x11, 0(x2)
    emit(0x00813503);        // ld x10, 8(x2)
    emit(0x00153613);        // sltiu x12, x10, 1
    emit(0x00C50533);        // add x10, x10, x12
    emit(0x0005B083);        // ld x1, 0(x11)
    emit(0x0085B103);        // ld x2, 8(x11)
    emit(0x0105B403);        // ld x8, 16(x11)
    emit(0x00008067);        // jalr x0, 0(x1)
}

// ---- the file

char *header;

void put_header(long value, long size) {
    put_number(header, value, size);
    put(header, size);
}

// A program header: what of the file is loaded where, to be read and run (5) or read and written (6).
void put_segment(long flags, long offset, long address, long in_file, long in_memory) {
    put_header(1, 4);
    put_header(flags, 4);
    put_header(offset, 8);
    put_header(address, 8);
    put_header(address, 8);
    put_header(in_file, 8);
    put_header(in_memory, 8);
    put_header(PAGE, 8);
}

void put_program(void) {
    header = take(16);
    long text_size = HEADERS + code_length;
    long in_memory = data_length;
    if (zero_length > 0)
        in_memory = DATA_ROOM + zero_length;
    put_header(0x464C457F, 4);
    put_header(0x00010102, 4);
    put_header(0, 8);
    put_header(2, 2);
    put_header(243, 2);
    put_header(1, 4);
    put_header(CODE_BASE, 8);
    put_header(64, 8);
    put_header(0, 8);
    put_header(0, 4);
    put_header(64, 2);
    put_header(56, 2);
    put_header(2, 2);
    put_header(0, 6);
    put_segment(5, 0, CODE_BASE - HEADERS, text_size, text_size);
    put_segment(6, rounded(text_size, PAGE), DATA_BASE, data_length, in_memory);
    put(code, code_length);
    while (output_length < rounded(text_size, PAGE))
        put_header(0, 1);
    put(data, data_length);
}
