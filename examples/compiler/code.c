// Code: what a tree asks for, in instructions of RV64IM.
//
// x2 is the stack, x8 the frame. A value is made in x10; one that needs a single register may be made in x11 as well. No other register
// lives across anything. x5 and x12 to x15 help within a few instructions.

// Instructions without their registers and numbers.
enum {
    ADDI = 0x13, ADDIW = 0x1B, SLTI = 0x2013, SLTIU = 0x3013, XORI = 0x4013, ORI = 0x6013, ANDI = 0x7013, SLLI = 0x1013,
    SRLI = 0x5013, SRAI = 0x40005013, SLLIW = 0x101B, SRLIW = 0x501B, SRAIW = 0x4000501B,
    LB = 0x3, LH = 0x1003, LW = 0x2003, LD = 0x3003, LBU = 0x4003, LHU = 0x5003, SB = 0x23, SH = 0x1023, SW = 0x2023, SD = 0x3023,
    ADD = 0x33, SUB = 0x40000033, SLL = 0x1033, SLT = 0x2033, SLTU = 0x3033, XOR = 0x4033, SRL = 0x5033, SRA = 0x40005033,
    OR = 0x6033, AND = 0x7033, MUL = 0x2000033, DIV = 0x2004033, DIVU = 0x2005033, REM = 0x2006033, REMU = 0x2007033,
    BEQ = 0x63, BNE = 0x1063, BLT = 0x4063, BGE = 0x5063, BLTU = 0x6063, BGEU = 0x7063,
    LUI = 0x37, AUIPC = 0x17, JAL = 0x6F, JALR = 0x67, EBREAK = 0x100073,
    // Set in an operation on 64 bits, it makes it one on 32.
    ON_WORDS = 8,
};

void value(struct node *node, long into);
long jump_if(struct node *node, long wanted, long chain);

// ---- instructions

void immediate(long operation, long into, long from, long number) {
    emit(operation | (into << 7) | (from << 15) | ((number & 4095) << 20));
}

void registers(long operation, long into, long one, long other) { emit(operation | (into << 7) | (one << 15) | (other << 20)); }

void store_at(long operation, long from, long base, long offset) {
    emit(operation | ((offset & 31) << 7) | (base << 15) | (from << 20) | (((offset >> 5) & 127) << 25));
}

// A branch over the one instruction behind it.
void skip(long operation, long one, long other) { emit(operation | 0x400 | (one << 15) | (other << 20)); }

void move(long into, long from) {
    if (into != from)
        immediate(ADDI, into, from, 0);
}

long is_short(long number) { return number >= -2048 && number <= 2047; }

// The part of a number that lui gives, so that the lower 12 bits, by their sign, are added to it.
long high_part(long number) { return (number + 2048) & -4096; }

void upper(long operation, long into, long number) { emit(operation | (into << 7) | (number & 4294963200L)); }

// Brings a number into a register.
void load_number(long number, long into) {
    if (is_short(number)) {
        immediate(ADDI, into, 0, number);
    } else if (number == (number << 32) >> 32) {
        upper(LUI, into, high_part(number));
        if ((number & 4095) != 0)
            immediate(ADDIW, into, into, number);
    } else {
        load_number(high_part(number) >> 12, into);
        immediate(SLLI, into, into, 12);
        if ((number & 4095) != 0)
            immediate(ADDI, into, into, number);
    }
}

void add_number(long into, long from, long number) {
    if (is_short(number)) {
        if (number != 0 || into != from)
            immediate(ADDI, into, from, number);
    } else {
        load_number(number, 5);
        registers(ADD, into, from, 5);
    }
}

void push(void) {
    immediate(ADDI, 2, 2, -8);
    store_at(SD, 10, 2, 0);
}

void pop(long into) {
    immediate(LD, into, 2, 0);
    immediate(ADDI, 2, 2, 8);
}

// ---- jumps

// A jump that is filled in later holds the place of the one before it in its chain; 0 is the chain's end.
long jump(long chain) {
    long place = code_length;
    emit(chain);
    return place;
}

// Makes the instruction at a place a jump.
void set_jump(long place, long target) {
    long distance = target - place;
    long bits = ((distance >> 12) & 255) << 12;
    bits = bits | (((distance >> 11) & 1) << 20) | (((distance >> 1) & 1023) << 21) | (((distance >> 20) & 1) << 31);
    if (distance >= 1048576 || distance < -1048576)
        refuse(word, "a jump over more than 1 MB", 0);
    set_word(place, JAL | bits);
}

// Fills in all jumps of a chain.
void arrive(long chain, long target) {
    while (chain != 0) {
        long before = word_at(chain);
        set_jump(chain, target);
        chain = before;
    }
}

void jump_to(long target) { set_jump(jump(0), target); }

// ---- places

// What the base register's content is moved by, behind `base_of`.
long displacement;

// Makes a value in any register.
void value_in(struct node *node, long into) {
    if (is_simple(node)) {
        value(node, into);
    } else {
        value(node, 10);
        move(into, 10);
    }
}

// Brings an address into a register, but for what a load or store adds. Gives the register.
long base_of(struct node *address, long into) {
    long number = 0;
    if (is_fixed(address) || address->kind == MOVED)
        number = address->value;
    if (address->kind == FRAME && is_short(number)) {
        displacement = number;
        return 8;
    }
    displacement = ((number & 4095) ^ 2048) - 2048;
    if (address->kind == FRAME) {
        upper(LUI, into, high_part(number));
        registers(ADD, into, into, 8);
    } else if (address->kind == FOLDED && number == (number << 32) >> 32 && number < 2147481600) {
        upper(LUI, into, high_part(number));
    } else if (address->kind == MOVED && is_short(number)) {
        value_in(address->left, into);
        displacement = number;
    } else {
        value_in(address, into);
        displacement = 0;
    }
    return into;
}

void load(struct type *type, long into, long base, long offset) {
    long operation = LD;
    if (type->size == 4)
        operation = LW;
    if (type->size == 2)
        operation = LH;
    if (type->size == 1)
        operation = LB;
    if (type->size < 4 && is_unsigned(type))
        operation += LBU - LB;
    immediate(operation, into, base, offset);
}

void store(struct type *type, long from, long base, long offset) {
    long operation = SD;
    if (type->size == 4)
        operation = SW;
    if (type->size == 2)
        operation = SH;
    if (type->size == 1)
        operation = SB;
    store_at(operation, from, base, offset);
}

// Brings so many bits, from a first one on, to the register's begin.
void take_bits(struct node *place, long into, long first) {
    immediate(SLLI, into, into, 64 - first - place->width);
    if (is_unsigned(place->type))
        immediate(SRLI, into, into, 64 - place->width);
    else
        immediate(SRAI, into, into, 64 - place->width);
}

// Stores a register into a bit-field: the unit is read, the bits are put in, and it is written. The register is kept.
void store_bits(struct node *place, long from, long base, long offset) {
    long bit = 1;
    load_number(~(((bit << place->width) - 1) << place->first), 13);
    load(place->type, 14, base, offset);
    registers(AND, 14, 14, 13);
    immediate(SLLI, 15, from, 64 - place->width);
    immediate(SRLI, 15, 15, 64 - place->width - place->first);
    registers(OR, 14, 14, 15);
    store(place->type, 14, base, offset);
}

void store_place(struct node *place, long from, long base, long offset) {
    if (place->width != 0)
        store_bits(place, from, base, offset);
    else
        store(place->type, from, base, offset);
}

// The greatest size of a load that divides both a structure's size and its alignment.
long unit_of(struct type *type) {
    if (type->align > 8)
        return 8;
    return type->align;
}

// Copies a structure from the address in x10 to that in x11, which is then in x10.
void copy_structure(struct type *type) {
    struct type *unit = plain(UNSIGNED_LONG);
    if (unit_of(type) == 4)
        unit = plain(UNSIGNED);
    if (unit_of(type) == 2)
        unit = plain(UNSIGNED_SHORT);
    if (unit_of(type) == 1)
        unit = plain(CHAR);
    long at = 0;
    if (type->size <= 8 * unit->size) {
        while (at < type->size) {
            load(unit, 12, 10, at);
            store(unit, 12, 11, at);
            at += unit->size;
        }
        move(10, 11);
    } else {
        load_number(type->size, 13);
        registers(ADD, 14, 13, 10);
        load(unit, 12, 10, 0);
        store(unit, 12, 11, 0);
        immediate(ADDI, 10, 10, unit->size);
        immediate(ADDI, 11, 11, unit->size);
        emit(0xFEE568E3L);        // bltu x10, x14, -16
        registers(SUB, 10, 11, 13);
    }
}

// Sets so many bytes from an address on to 0; both are multiples of 8.
void clear(struct node *address, long size) {
    long at = 0;
    value(address, 10);
    if (size <= 64) {
        while (at < size) {
            store_at(SD, 0, 10, at);
            at += 8;
        }
    } else {
        add_number(14, 10, size);
        store_at(SD, 0, 10, 0);
        immediate(ADDI, 10, 10, 8);
        emit(0xFEE56CE3L);        // bltu x10, x14, -8
    }
}

// ---- operands

// In which registers `both` left the two values.
long one_in;
long other_in;

// Makes two values, in x10 and x11, from left to right where that can be told.
void both(struct node *one, struct node *other) {
    if (is_simple(other)) {
        value(one, 10);
        value(other, 11);
        one_in = 10;
        other_in = 11;
        return;
    }
    if (is_fixed(one) || (is_simple(one) && is_pure(other))) {
        value(other, 10);
        value(one, 11);
    } else {
        value(one, 10);
        push();
        value(other, 10);
        pop(11);
    }
    one_in = 11;
    other_in = 10;
}

// ---- conversions

void shift_both(long into, long count, long back) {
    immediate(SLLI, into, into, count);
    immediate(back, into, into, count);
}

// Makes what is in a register canonical for a type.
void narrow(struct type *type, long into) {
    if (type->kind == CHAR)
        immediate(ANDI, into, into, 255);
    else if (type->kind == SIGNED_CHAR)
        shift_both(into, 56, SRAI);
    else if (type->kind == SHORT)
        shift_both(into, 48, SRAI);
    else if (type->kind == UNSIGNED_SHORT)
        shift_both(into, 48, SRLI);
    else if (type->size == 4)
        immediate(ADDIW, into, into, 0);
}

// Does a type hold all values of another as they stand in a register?
long holds(struct type *type, struct type *from) {
    if (type->kind == from->kind)
        return 1;
    if (type->size == from->size)
        return type->size >= 4;
    return type->size > from->size && (type->size >= 4 || is_unsigned(from));
}

void convert_value(struct node *node, long into) {
    struct type *from = node->left->type;
    struct type *type = node->type;
    value(node->left, into);
    if (type->kind == VOID || is_by_address(from))
        return;
    if (type->size == 8 && from->kind == UNSIGNED && node->left->width == 0)
        shift_both(into, 32, SRLI);
    else if (!holds(type, from) && !is_floating(type))
        narrow(type, into);
}

// ---- operations

// The instruction of an operation on 64 bits.
long instruction_of(long kind, long without_sign) {
    if (kind == '+')
        return ADD;
    if (kind == '-')
        return SUB;
    if (kind == '*')
        return MUL;
    if (kind == '/')
        return DIV + (DIVU - DIV) * without_sign;
    if (kind == '%')
        return REM + (REMU - REM) * without_sign;
    if (kind == '&')
        return AND;
    if (kind == '|')
        return OR;
    if (kind == '^')
        return XOR;
    if (kind == SHIFT_LEFT)
        return SLL;
    if (without_sign)
        return SRL;
    return SRA;
}

long is_bitwise(long kind) { return kind == '&' || kind == '|' || kind == '^'; }

// An operation with a number behind it that fits an instruction. Was there one?
long short_operation(struct node *node, long into) {
    long number = node->right->value;
    if (node->right->kind != FOLDED || !is_short(number) || number == -2048)
        return 0;
    long operation = ADDI;
    if (node->kind == '-')
        number = -number;
    else if (is_bitwise(node->kind) || is_shift(node->kind))
        operation = instruction_of(node->kind, is_unsigned(node->type)) - ADD + ADDI;
    else if (node->kind != '+')
        return 0;
    if (is_shift(node->kind) && (number < 0 || number >= node->type->size * 8))
        return 0;
    if (node->type->size == 4 && !is_bitwise(node->kind))
        operation += ON_WORDS;
    value(node->left, into);
    immediate(operation, into, into, number);
    return 1;
}

void operate(struct node *node) {
    if (short_operation(node, 10))
        return;
    long operation = instruction_of(node->kind, is_unsigned(node->type));
    if (node->type->size == 4 && !is_bitwise(node->kind))
        operation += ON_WORDS;
    both(node->left, node->right);
    registers(operation, 10, one_in, other_in);
}

// A comparison whose answer is wanted as 0 or 1.
void compare(struct node *node) {
    long less = SLT;
    long kind = node->kind;
    if (is_unsigned(node->left->type))
        less = SLTU;
    both(node->left, node->right);
    if (kind == '<' || kind == GREATER_EQUAL)
        registers(less, 10, one_in, other_in);
    else if (kind == '>' || kind == LESS_EQUAL)
        registers(less, 10, other_in, one_in);
    else
        registers(SUB, 10, one_in, other_in);
    if (kind == LESS_EQUAL || kind == GREATER_EQUAL)
        immediate(XORI, 10, 10, 1);
    if (kind == EQUAL)
        immediate(SLTIU, 10, 10, 1);
    if (kind == NOT_EQUAL)
        registers(SLTU, 10, 0, 10);
}

// The branch that is taken where a comparison does not hold.
long opposite_branch(long kind, long without_sign) {
    if (kind == EQUAL)
        return BNE;
    if (kind == NOT_EQUAL)
        return BEQ;
    if (kind == '<' || kind == '>')
        return BGE + (BGEU - BGE) * without_sign;
    return BLT + (BLTU - BLT) * without_sign;
}

// Jumps where a comparison holds, or where it does not.
long jump_if_compared(struct node *node, long wanted, long chain) {
    long kind = node->kind;
    if (node->right->kind == FOLDED && node->right->value == 0) {
        value(node->left, 10);
        one_in = 10;
        other_in = 0;
    } else {
        both(node->left, node->right);
    }
    if (kind == '>' || kind == LESS_EQUAL) {
        long kept = one_in;
        one_in = other_in;
        other_in = kept;
    }
    long branch = opposite_branch(kind, is_unsigned(node->left->type));
    if (!wanted)
        branch = branch ^ 0x1000;
    skip(branch, one_in, other_in);
    return jump(chain);
}

// Adds to a chain jumps that are taken where a value is not 0, or where it is 0.
long jump_if(struct node *node, long wanted, long chain) {
    if (node->kind == FOLDED) {
        if ((node->value != 0) == wanted)
            return jump(chain);
        return chain;
    }
    if (node->kind == NEGATION)
        return jump_if(node->left, !wanted, chain);
    if (is_comparison(node->kind))
        return jump_if_compared(node, wanted, chain);
    if (node->kind == AND_ALSO || node->kind == OR_ELSE) {
        if ((node->kind == OR_ELSE) == wanted)
            return jump_if(node->right, wanted, jump_if(node->left, wanted, chain));
        long around = jump_if(node->left, !wanted, 0);
        chain = jump_if(node->right, wanted, chain);
        arrive(around, code_length);
        return chain;
    }
    value(node, 10);
    if (wanted)
        skip(BEQ, 10, 0);
    else
        skip(BNE, 10, 0);
    return jump(chain);
}

void truth_value(struct node *node) {
    long no = jump_if(node, 0, 0);
    load_number(1, 10);
    long over = jump(0);
    arrive(no, code_length);
    load_number(0, 10);
    arrive(over, code_length);
}

void choose(struct node *node) {
    long no = jump_if(node->third, 0, 0);
    value(node->left, 10);
    long over = jump(0);
    arrive(no, code_length);
    value(node->right, 10);
    arrive(over, code_length);
}

// ---- effects

// Stores a value; the value as the place holds it is in x10 then.
void assign(struct node *node) {
    struct node *place = node->left;
    struct node *address = place->left;
    long base = 11;
    long from = 10;
    if (is_by_address(place->type)) {
        both(address, node->right);
        if (one_in == 10) {
            move(12, 10);
            move(10, 11);
            move(11, 12);
        }
        copy_structure(place->type);
        return;
    }
    if (is_fixed(address)) {
        value(node->right, 10);
        base = base_of(address, 11);
    } else {
        displacement = 0;
        long offset = 0;
        if (address->kind == MOVED && is_short(address->value)) {
            offset = address->value;
            address = address->left;
        }
        both(address, node->right);
        displacement = offset;
        base = one_in;
        from = other_in;
    }
    store_place(place, from, base, displacement);
    move(10, from);
    if (place->width != 0)
        take_bits(place, 10, 0);
}

void step(struct node *node) {
    struct node *place = node->left;
    long base = base_of(place->left, 12);
    load(place->type, 10, base, displacement);
    if (place->width != 0)
        take_bits(place, 10, place->first);
    add_number(11, 10, node->value);
    if (place->width == 0)
        narrow(place->type, 11);
    store_place(place, 11, base, displacement);
    if (node->right == 0)
        move(10, 11);
}

// Arguments are put below the stack's end, the first lowest, and taken away behind the call.
void call_function(struct node *node) {
    struct node *function = node->left;
    struct node *argument = node->right;
    long place = 0;
    if (node->value > 0)
        immediate(ADDI, 2, 2, -8 * node->value);
    while (argument != 0) {
        value(argument, 10);
        store_at(SD, 10, 2, place);
        place += 8;
        argument = argument->next;
    }
    if (function->kind == ENTRY) {
        add_use(function->symbol, IN_CALL, code_length, 0);
        upper(AUIPC, 1, 0);
        immediate(JALR, 1, 1, 0);
    } else {
        value(function, 10);
        immediate(JALR, 1, 10, 0);
    }
    if (node->value > 0)
        immediate(ADDI, 2, 2, 8 * node->value);
}

// ---- values

void load_place(struct node *node, long into) {
    if (is_by_address(node->type) || node->type->kind == VOID) {
        value(node->left, into);
        return;
    }
    long base = base_of(node->left, into);
    load(node->type, into, base, displacement);
    if (node->width != 0)
        take_bits(node, into, node->first);
}

// A value of one operand at most, in the register that is wanted. Was it one?
long simple_value(struct node *node, long into) {
    long kind = node->kind;
    if (kind == FOLDED) {
        load_number(node->value, into);
    } else if (kind == FRAME) {
        add_number(into, 8, node->value);
    } else if (kind == ENTRY) {
        add_use(node->symbol, IN_VALUE, code_length, 0);
        upper(AUIPC, into, 0);
        immediate(ADDI, into, into, 0);
    } else if (kind == AT) {
        load_place(node, into);
    } else if (kind == MOVED) {
        value(node->left, into);
        add_number(into, into, node->value);
    } else if (kind == CONVERTED) {
        convert_value(node, into);
    } else if (kind == NEGATED) {
        value(node->left, into);
        registers(SUB + ON_WORDS * (node->type->size == 4), into, 0, into);
    } else if (kind == COMPLEMENT) {
        value(node->left, into);
        immediate(XORI, into, into, -1);
    } else if (kind == NEGATION) {
        value(node->left, into);
        immediate(SLTIU, into, into, 1);
    } else {
        return 0;
    }
    return 1;
}

// Makes a value; other than x10 only where it is simple.
void value(struct node *node, long into) {
    long kind = node->kind;
    if (simple_value(node, into))
        return;
    if (kind == ASSIGNED)
        assign(node);
    else if (kind == CALLED)
        call_function(node);
    else if (kind == STEPPED)
        step(node);
    else if (kind == CHOICE)
        choose(node);
    else if (kind == SEQUENCE) {
        value(node->left, 10);
        value(node->right, 10);
    } else if (kind == STOPPED)
        emit(EBREAK);
    else if (kind == AND_ALSO || kind == OR_ELSE)
        truth_value(node);
    else if (is_comparison(kind))
        compare(node);
    else
        operate(node);
}
