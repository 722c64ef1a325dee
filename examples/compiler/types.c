// Types, as 64-bit RISC-V lays them out: their sizes and alignments, members and bit-fields, promotions and the type that two have in common.

// Kinds of types. Of two integers from INT on, the later kind is the type they have in common. Plain char is unsigned.
enum {
    VOID = 1, CHAR, SIGNED_CHAR, SHORT, UNSIGNED_SHORT, INT, UNSIGNED, LONG, UNSIGNED_LONG, FLOAT, DOUBLE, LONG_DOUBLE,
    POINTER, ARRAY, FUNCTION, STRUCT, UNION,
};

// A size or count that is not known yet.
enum { UNKNOWN = 2147483647, };

// `of` is what a pointer points to, an array is made of, or a function gives, and `depth` counts the types below. `bits`: so many are taken in a
// struct. `pointer` is the type of pointers to this one, once there is any.
struct type {
    long kind;
    long size;
    long align;
    struct type *of;
    struct type *pointer;
    long count;
    long bits;
    struct member *members;
    struct member *last_member;
    struct parameter *parameters;
    long is_variadic;
    long is_prototype;
    long depth;
};

// A bit-field has a width, and its first bit counts from the lowest of its unit, which has the type's size and lies at the offset.
struct member {
    struct member *next;
    struct name *name;
    struct type *type;
    long offset;
    long first;
    long width;
};

// `place` is the word of its name, or 0.
struct parameter {
    struct parameter *next;
    struct word *place;
    struct type *type;
};

struct type *plain_types[32];

struct type *new_type(long kind, long size, long align) {
    struct type *made = (struct type *)take(sizeof(struct type));
    made->kind = kind;
    made->size = size;
    made->align = align;
    return made;
}

void set_plain(long kind, long size) { plain_types[kind] = new_type(kind, size, size); }

void make_types(void) {
    set_plain(VOID, UNKNOWN);
    set_plain(CHAR, 1);
    set_plain(SIGNED_CHAR, 1);
    set_plain(SHORT, 2);
    set_plain(UNSIGNED_SHORT, 2);
    set_plain(INT, 4);
    set_plain(UNSIGNED, 4);
    set_plain(LONG, 8);
    set_plain(UNSIGNED_LONG, 8);
    set_plain(FLOAT, 4);
    set_plain(DOUBLE, 8);
    set_plain(LONG_DOUBLE, 16);
}

struct type *plain(long kind) { return plain_types[kind]; }

// ---- what a type is

long is_integer(struct type *type) { return type->kind >= CHAR && type->kind <= UNSIGNED_LONG; }

long is_floating(struct type *type) { return type->kind >= FLOAT && type->kind <= LONG_DOUBLE; }

long is_arithmetic(struct type *type) { return type->kind >= CHAR && type->kind <= LONG_DOUBLE; }

long is_pointer(struct type *type) { return type->kind == POINTER; }

long is_scalar(struct type *type) { return type->kind >= CHAR && type->kind <= POINTER; }

long is_structure(struct type *type) { return type->kind == STRUCT || type->kind == UNION; }

// Is a value of the type held by its address? All others are held in a register.
long is_by_address(struct type *type) { return type->kind == LONG_DOUBLE || type->kind >= ARRAY; }

long is_unsigned(struct type *type) {
    long kind = type->kind;
    return kind == CHAR || kind == UNSIGNED_SHORT || kind == UNSIGNED || kind == UNSIGNED_LONG || kind == POINTER;
}

// The size of a complete type.
long size_of(struct word *place, struct type *type) {
    if (type->size == UNKNOWN || type->kind == FUNCTION)
        refuse(place, "the size of a type that is not known", 0);
    return type->size;
}

// Integers below int become int.
struct type *promoted(struct type *type) {
    if (is_integer(type) && type->kind < INT)
        return plain(INT);
    return type;
}

// The type in which two arithmetic values are taken together.
struct type *common(struct type *one, struct type *other) {
    one = promoted(one);
    other = promoted(other);
    if (one->kind < other->kind)
        return other;
    return one;
}

// A value as it is held in a register for a type: 8 bits and 16 bits by their sign, 32 bits with bit 31 repeated above, signed or not.
long canonical(long value, struct type *type) {
    if (type->kind == CHAR)
        return value & 255;
    if (type->kind == UNSIGNED_SHORT)
        return value & 65535;
    if (type->kind == SIGNED_CHAR)
        return (value << 56) >> 56;
    if (type->kind == SHORT)
        return (value << 48) >> 48;
    if (type->kind == INT || type->kind == UNSIGNED)
        return (value << 32) >> 32;
    return value;
}

// ---- types of types

// Makes a type at least one deeper than one of which it is made.
void made_with(struct type *type, struct type *of) {
    if (of->depth < type->depth)
        return;
    type->depth = of->depth + 1;
    if (type->depth > DEEPEST)
        refuse_here("a type of more than 1000 types in one another");
}

struct type *type_of_type(long kind, long size, long align, struct type *of) {
    struct type *made = new_type(kind, size, align);
    made->of = of;
    made_with(made, of);
    return made;
}

struct type *pointer_to(struct type *type) {
    if (type->pointer == 0)
        type->pointer = type_of_type(POINTER, 8, 8, type);
    return type->pointer;
}

// An array of so many; the count may be UNKNOWN.
struct type *array_of(struct word *place, struct type *type, long count) {
    long size = size_of(place, type);
    struct type *made = type_of_type(ARRAY, UNKNOWN, type->align, type);
    made->count = count;
    if (size == 0)
        refuse(place, "an array of elements that have no bytes", 0);
    if (count != UNKNOWN) {
        if (count < 0 || count > 1000000000000L / size)
            refuse(place, "an array of a negative or too large count", 0);
        made->size = count * size;
    }
    return made;
}

struct type *function_of(struct word *place, struct type *result) {
    if (is_structure(result))
        refuse(place, "a structure as result", 0);
    if (result->kind == ARRAY || result->kind == FUNCTION)
        refuse(place, "an array or function as result", 0);
    return type_of_type(FUNCTION, UNKNOWN, 1, result);
}

// Are two types the same, as far as cc tells types apart?
long same_type(struct type *one, struct type *other) {
    if (one == other)
        return 1;
    if (one->kind != other->kind || is_structure(one) || one->of == 0)
        return 0;
    if (one->kind == ARRAY && one->count != other->count && one->count != UNKNOWN && other->count != UNKNOWN)
        return 0;
    if (!same_type(one->of, other->of))
        return 0;
    if (one->kind != FUNCTION || !one->is_prototype || !other->is_prototype)
        return 1;
    struct parameter *mine = one->parameters;
    struct parameter *yours = other->parameters;
    while (mine != 0 && yours != 0 && same_type(mine->type, yours->type)) {
        mine = mine->next;
        yours = yours->next;
    }
    return mine == 0 && yours == 0 && one->is_variadic == other->is_variadic;
}

// ---- members

long rounded(long value, long by) { return (value + by - 1) / by * by; }

struct member *new_member(struct type *type, struct name *name, struct type *of) {
    struct member *made = (struct member *)take(sizeof(struct member));
    made->name = name;
    made->type = of;
    made_with(type, of);
    if (type->members == 0)
        type->members = made;
    else
        type->last_member->next = made;
    type->last_member = made;
    return made;
}

// Adds a member behind the others, or in a union at the same place.
void place_member(struct word *place, struct type *type, struct name *name, struct type *of) {
    struct member *made = new_member(type, name, of);
    long size = size_of(place, of);
    long offset = 0;
    if (type->kind == STRUCT)
        offset = rounded((type->bits + 7) / 8, of->align);
    made->offset = offset;
    if (type->align < of->align)
        type->align = of->align;
    if (type->bits < (offset + size) * 8)
        type->bits = (offset + size) * 8;
}

// Adds a bit-field: in a unit of its type, and at the next one's begin where it would go over the end. One of no width ends the unit;
// one of no name has no say in the alignment.
void place_bits(struct word *place, struct type *type, struct name *name, struct type *of, long width) {
    if (!is_integer(of) || of->size > 4)
        refuse(place, "a bit-field of another type than int or below", 0);
    long unit = of->size * 8;
    if (width < 0 || width > unit || (width == 0 && name != 0))
        refuse(place, "a bit-field of a wrong width", 0);
    long bit = 0;
    if (type->kind == STRUCT)
        bit = type->bits;
    if (width == 0 || bit / unit != (bit + width - 1) / unit)
        bit = rounded(bit, unit);
    if (type->kind == STRUCT || type->bits < width)
        type->bits = bit + width;
    if (name == 0)
        return;
    if (type->align < of->align)
        type->align = of->align;
    struct member *made = new_member(type, name, of);
    made->offset = bit / unit * of->size;
    made->first = bit % unit;
    if (width < unit)
        made->width = width;
}

void end_members(struct word *place, struct type *type) {
    if (type->bits == 0)
        refuse(place, "a structure without members", 0);
    type->size = rounded((type->bits + 7) / 8, type->align);
}

// A member of that name, also one of an anonymous member; `member_offset` is then where its unit begins.
long member_offset;

struct member *find_member(struct type *type, struct name *name) {
    struct member *member = type->members;
    while (member != 0) {
        if (member->name == name) {
            member_offset = member->offset;
            return member;
        }
        if (member->name == 0) {
            struct member *found = find_member(member->type, name);
            if (found != 0) {
                member_offset += member->offset;
                return found;
            }
        }
        member = member->next;
    }
    return 0;
}
