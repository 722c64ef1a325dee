// Trees: an expression's operations, with their types. Conversions are put in, constants are folded, and places are told from values.

// Kinds of nodes. An operation of two operands has its mark as kind, and a comparison too.
// FOLDED: a number. FRAME: an address, so far from x8. ENTRY: a function's address. AT: what stands at the address `left`, perhaps a
// bit-field. MOVED: an address and so many bytes. STEPPED: `left` with `value` added to it, and `right` is set where the value before is
// wanted. STOPPED: floating arithmetic, at which the program stops.
enum {
    FOLDED = 2000, FRAME, ENTRY, AT, MOVED, CONVERTED, NEGATED, COMPLEMENT, NEGATION, ASSIGNED, CHOICE, SEQUENCE, CALLED, STEPPED,
    STOPPED,
};

struct node {
    struct node *next;
    long kind;
    struct type *type;
    struct node *left;
    struct node *right;
    struct node *third;
    long value;
    long first;
    long width;
    long depth;
    struct symbol *symbol;
};

long floats_stop;
// How many bytes below x8 the present function has, now and at most.
long frame_now;
long frame_most;

// Makes a node at least one deeper than one of its operands. A tree of more than DEEPEST operations is refused.
void lie_above(struct node *node, struct node *operand) {
    if (operand == 0 || operand->depth < node->depth)
        return;
    node->depth = operand->depth + 1;
    if (node->depth > DEEPEST)
        refuse(word, "an expression with more than 1000 operations in one another", 0);
}

struct node *new_node(long kind, struct type *type, struct node *left, struct node *right) {
    struct node *made = (struct node *)take(sizeof(struct node));
    made->kind = kind;
    made->type = type;
    made->left = left;
    made->right = right;
    lie_above(made, left);
    lie_above(made, right);
    return made;
}

struct node *number(long value, struct type *type) {
    struct node *made = new_node(FOLDED, type, 0, 0);
    made->value = canonical(value, type);
    return made;
}

struct node *copy_node(struct node *node, struct type *type) {
    struct node *made = new_node(node->kind, type, node->left, node->right);
    made->third = node->third;
    made->depth = node->depth;
    made->value = node->value;
    made->first = node->first;
    made->width = node->width;
    made->symbol = node->symbol;
    return made;
}

// Floating arithmetic: refused, or told and compiled so that the program stops there.
struct node *stopped(struct type *type) {
    if (!floats_stop)
        refuse(word, "floating arithmetic", 0);
    tell_place(word);
    tell("floating arithmetic stops the program\n");
    return new_node(STOPPED, type, 0, 0);
}

// Room in the frame; gives its place from x8, below 0.
long take_frame(long size, long align) {
    frame_now = rounded(frame_now + size, align);
    if (frame_now > 100000000)
        refuse(word, "a function with too many bytes of variables", 0);
    if (frame_most < frame_now)
        frame_most = frame_now;
    return -frame_now;
}

struct node *frame_address(long value, struct type *type) {
    struct node *made = new_node(FRAME, pointer_to(type), 0, 0);
    made->value = value;
    return made;
}

// What stands at an address.
struct node *at(struct node *address, struct type *type) { return new_node(AT, type, address, 0); }

// ---- places and values

// An address and so many bytes, as a pointer of a type.
struct node *moved(struct node *address, long by, struct type *type) {
    struct node *made = copy_node(address, type);
    if (address->kind == FOLDED || address->kind == FRAME || address->kind == MOVED) {
        made->value = address->value + by;
        return made;
    }
    if (by == 0)
        return made;
    made = new_node(MOVED, type, address, 0);
    made->value = by;
    return made;
}

// The address of a place. A structure's value is its address.
struct node *address_of(struct node *place) {
    if (place->kind == AT)
        return copy_node(place->left, pointer_to(place->type));
    if (place->kind == ENTRY || is_structure(place->type))
        return copy_node(place, pointer_to(place->type));
    refuse(word, "the address of something that is no place", 0);
    return place;
}

void refuse_unless(long right, char *what) {
    if (!right)
        refuse(word, what, 0);
}

// A node as a value: an array is the address of its first, a function its address.
struct node *as_value(struct node *node) {
    if (node->type->kind == ARRAY)
        return copy_node(address_of(node), pointer_to(node->type->of));
    if (node->type->kind == FUNCTION)
        return address_of(node);
    return node;
}

struct node *as_scalar(struct node *node) {
    node = as_value(node);
    refuse_unless(is_scalar(node->type), "a value that is no number and no pointer");
    return node;
}

// ---- conversions

struct node *convert(struct node *node, struct type *type) {
    node = as_value(node);
    struct type *from = node->type;
    if (type->kind == VOID)
        return new_node(CONVERTED, type, node, 0);
    if (is_structure(from) || is_structure(type)) {
        refuse_unless(from == type, "a structure of another type");
        return node;
    }
    refuse_unless(is_scalar(from) && is_scalar(type), "a conversion of or to something that is no value");
    if (is_floating(from) || is_floating(type)) {
        refuse_unless(!is_pointer(from) && !is_pointer(type), "a conversion between a floating number and a pointer");
        if (from->kind == type->kind)
            return node;
        return stopped(type);
    }
    if (node->kind == FOLDED) {
        long value = node->value;
        if (from->kind == UNSIGNED && type->size == 8)
            value = value & 4294967295L;
        return number(value, type);
    }
    if (from->kind == type->kind && node->width == 0)
        return copy_node(node, type);
    return new_node(CONVERTED, type, node, 0);
}

// How many bits a value has of a bit-field, or 0.
long width_of(struct node *node) {
    while (node->kind == SEQUENCE)
        node = node->right;
    if (node->kind == ASSIGNED || node->kind == STEPPED)
        return width_of(node->left);
    return node->width;
}

// The type of a value in arithmetic; a bit-field below 32 bits becomes int.
struct node *promote(struct node *node) {
    node = as_value(node);
    if (width_of(node) != 0)
        return convert(node, plain(INT));
    if (is_integer(node->type))
        return convert(node, promoted(node->type));
    return node;
}

long is_null(struct node *node) { return node->kind == FOLDED && node->value == 0; }

// Can a value be given to a place of that type without a cast?
void check_given(struct node *node, struct type *type) {
    struct type *from = as_value(node)->type;
    if (is_structure(type) || is_structure(from))
        refuse_unless(from == type, "a structure of another type");
    if (is_pointer(type) && !is_pointer(from))
        refuse_unless(is_integer(from) && is_null(node), "a number where a pointer is wanted");
    if (is_pointer(from) && !is_pointer(type))
        refuse_unless(type->kind == VOID, "a pointer where a number is wanted");
    if (is_pointer(from) && is_pointer(type) && from->of->kind != VOID && type->of->kind != VOID) {
        long alike = same_type(from->of, type->of);
        if (is_integer(from->of) && is_integer(type->of))
            alike = from->of->size == type->of->size;
        refuse_unless(alike, "a pointer of another type without a cast");
    }
}

struct node *given(struct node *node, struct type *type) {
    check_given(node, type);
    return convert(node, type);
}

// ---- operations on numbers

long is_comparison(long kind) {
    return kind == '<' || kind == '>' || kind == LESS_EQUAL || kind == GREATER_EQUAL || kind == EQUAL || kind == NOT_EQUAL;
}

// A comparison of two numbers that are held as their type says.
long compared(long kind, long one, long other, long without_sign) {
    if (kind == EQUAL)
        return one == other;
    if (kind == NOT_EQUAL)
        return one != other;
    if (kind == '>' || kind == LESS_EQUAL) {
        long kept = one;
        one = other;
        other = kept;
    }
    long less = one < other;
    if (without_sign)
        less = below(one, other);
    if (kind == '<' || kind == '>')
        return less;
    return !less;
}

// A quotient of numbers of a type, the divisor not 0.
long quotient(long one, long other, struct type *type) {
    if (!is_unsigned(type)) {
        if (other == -1)
            return -one;
        return one / other;
    }
    if (type->size == 4)
        return (one & 4294967295L) / (other & 4294967295L);
    return divide(one, other);
}

// An operation carried out on numbers of a type.
long computed(long kind, long one, long other, struct type *type) {
    if (kind == '+')
        return one + other;
    if (kind == '-')
        return one - other;
    if (kind == '*')
        return one * other;
    if (kind == '/')
        return quotient(one, other, type);
    if (kind == '%')
        return one - canonical(quotient(one, other, type), type) * other;
    if (kind == '&')
        return one & other;
    if (kind == '|')
        return one | other;
    if (kind == '^')
        return one ^ other;
    if (kind == SHIFT_LEFT)
        return one << other;
    if (!is_unsigned(type))
        return one >> other;
    if (type->size == 4)
        return shift_right(one & 4294967295L, other);
    return shift_right(one, other);
}

long is_shift(long kind) { return kind == SHIFT_LEFT || kind == SHIFT_RIGHT; }

// An operation on two operands that have their types already.
struct node *operation(long kind, struct node *left, struct node *right, struct type *type) {
    if (left->kind == FOLDED && right->kind == FOLDED) {
        if (is_comparison(kind))
            return number(compared(kind, left->value, right->value, is_unsigned(left->type)), type);
        long outside = is_shift(kind) && (right->value < 0 || right->value >= type->size * 8);
        if (!outside && (right->value != 0 || (kind != '/' && kind != '%')))
            return number(computed(kind, left->value, right->value, type), type);
    }
    return new_node(kind, type, left, right);
}

// ---- pointers

long bits_of_power(long value) {
    long bits = 0;
    long power = 1;
    while (power < value) {
        power = power * 2;
        bits += 1;
    }
    if (power == value)
        return bits;
    return -1;
}

struct node *scaled(struct node *count, long size) {
    long bits = bits_of_power(size);
    if (bits == 0)
        return count;
    if (bits > 0)
        return operation(SHIFT_LEFT, count, number(bits, plain(INT)), plain(LONG));
    return operation('*', count, number(size, plain(LONG)), plain(LONG));
}

struct node *pointer_sum(struct node *pointer, struct node *count, long sign_of_count) {
    refuse_unless(is_integer(count->type), "a pointer and something that is no integer");
    long size = size_of(word, pointer->type->of);
    count = convert(promote(count), plain(LONG));
    if (count->kind == FOLDED)
        return moved(pointer, count->value * size * sign_of_count, pointer->type);
    if (sign_of_count < 0)
        return new_node('-', pointer->type, pointer, scaled(count, size));
    if (pointer->kind == MOVED)
        return moved(new_node('+', pointer->type, pointer->left, scaled(count, size)), pointer->value, pointer->type);
    return new_node('+', pointer->type, pointer, scaled(count, size));
}

struct node *pointer_difference(struct node *left, struct node *right) {
    refuse_unless(is_pointer(right->type) && same_type(left->type->of, right->type->of), "a difference of pointers of two types");
    long size = size_of(word, left->type->of);
    struct type *type = plain(LONG);
    struct node *bytes = operation('-', convert(left, type), convert(right, type), type);
    long bits = bits_of_power(size);
    if (bits == 0)
        return bytes;
    if (bits > 0)
        return operation(SHIFT_RIGHT, bytes, number(bits, plain(INT)), type);
    return operation('/', bytes, number(size, type), type);
}

struct node *pointer_operation(long kind, struct node *left, struct node *right) {
    struct type *address = plain(UNSIGNED_LONG);
    if (is_comparison(kind)) {
        if (is_pointer(left->type))
            check_given(right, left->type);
        else
            check_given(left, right->type);
        return operation(kind, convert(left, address), convert(right, address), plain(INT));
    }
    if (kind == '+' && is_pointer(left->type))
        return pointer_sum(left, right, 1);
    if (kind == '+')
        return pointer_sum(right, left, 1);
    refuse_unless(kind == '-' && is_pointer(left->type), "an operation on pointers that there is not");
    if (is_pointer(right->type))
        return pointer_difference(left, right);
    return pointer_sum(left, right, -1);
}

// ---- operations of C

// Two operands and the operation between them, other than && and ||.
struct node *binary(long kind, struct node *left, struct node *right) {
    left = as_scalar(left);
    right = as_scalar(right);
    if (is_pointer(left->type) || is_pointer(right->type))
        return pointer_operation(kind, left, right);
    left = promote(left);
    right = promote(right);
    struct type *type = common(left->type, right->type);
    if (is_floating(type)) {
        refuse_unless(kind == '+' || kind == '-' || kind == '*' || kind == '/' || is_comparison(kind), "an operation on floating numbers");
        if (is_comparison(kind))
            return stopped(plain(INT));
        return stopped(type);
    }
    if (is_shift(kind))
        return operation(kind, left, right, left->type);
    left = convert(left, type);
    right = convert(right, type);
    if (is_comparison(kind))
        return operation(kind, left, right, plain(INT));
    return operation(kind, left, right, type);
}

// A value that is asked whether it is 0.
struct node *truth(struct node *node) {
    node = as_scalar(node);
    if (is_floating(node->type))
        return stopped(plain(INT));
    return node;
}

struct node *both_or_one(long kind, struct node *left, struct node *right) {
    left = truth(left);
    right = truth(right);
    if (left->kind == FOLDED && (left->value != 0) != (kind == AND_ALSO))
        return number(kind == OR_ELSE, plain(INT));
    if (left->kind == FOLDED && right->kind == FOLDED)
        return number(right->value != 0, plain(INT));
    return new_node(kind, plain(INT), left, right);
}

struct node *negation(struct node *node) {
    node = truth(node);
    if (node->kind == FOLDED)
        return number(node->value == 0, plain(INT));
    return new_node(NEGATION, plain(INT), node, 0);
}

struct node *negated(struct node *node) {
    node = promote(as_scalar(node));
    if (is_floating(node->type))
        return stopped(node->type);
    refuse_unless(is_integer(node->type), "a sign before a pointer");
    if (node->kind == FOLDED)
        return number(-node->value, node->type);
    return new_node(NEGATED, node->type, node, 0);
}

struct node *complement(struct node *node) {
    node = promote(as_scalar(node));
    refuse_unless(is_integer(node->type), "~ before something that is no integer");
    if (node->kind == FOLDED)
        return number(~node->value, node->type);
    return new_node(COMPLEMENT, node->type, node, 0);
}

// The type of `c ? one : other`.
struct type *chosen_type(struct node *one, struct node *other) {
    if (is_arithmetic(one->type) && is_arithmetic(other->type))
        return common(promote(one)->type, promote(other)->type);
    if (one->type->kind == VOID || is_structure(one->type)) {
        refuse_unless(same_type(one->type, other->type), "a choice between two types");
        return one->type;
    }
    if (!is_pointer(one->type) || (is_pointer(other->type) && is_null(one) && one->type->of->kind == VOID)) {
        check_given(one, other->type);
        return other->type;
    }
    check_given(other, one->type);
    if (is_pointer(other->type) && other->type->of->kind == VOID && !is_null(other))
        return other->type;
    return one->type;
}

struct node *choice(struct node *condition, struct node *one, struct node *other) {
    condition = truth(condition);
    one = as_value(one);
    other = as_value(other);
    struct type *type = chosen_type(one, other);
    one = convert(one, type);
    other = convert(other, type);
    if (condition->kind == FOLDED && condition->value != 0)
        return one;
    if (condition->kind == FOLDED)
        return other;
    struct node *made = new_node(CHOICE, type, one, other);
    made->third = condition;
    lie_above(made, condition);
    return made;
}

// ---- assignments

void check_place(struct node *node) {
    refuse_unless(node->kind == AT && (is_scalar(node->type) || is_structure(node->type)), "an assignment to something that is no place");
    size_of(word, node->type);
}

struct node *assigned(struct node *place, struct node *value) {
    check_place(place);
    return new_node(ASSIGNED, place->type, place, given(value, place->type));
}

// Is the value the same whenever it is asked for, and has it no effect?
long is_fixed(struct node *node) { return node->kind == FOLDED || node->kind == FRAME; }

// Can the node be brought into one register without another?
long is_simple(struct node *node) {
    while (node->kind == AT || node->kind == MOVED || node->kind == CONVERTED || node->kind == NEGATED || node->kind == COMPLEMENT
           || node->kind == NEGATION)
        node = node->left;
    return is_fixed(node) || node->kind == ENTRY;
}

// Has the node no effect?
long is_pure(struct node *node) {
    if (node == 0)
        return 1;
    if (node->kind == ASSIGNED || node->kind == CALLED || node->kind == STEPPED || node->kind == STOPPED)
        return 0;
    return is_pure(node->left) && is_pure(node->right) && is_pure(node->third);
}

// `place op= value`. The place's address is taken once: where it is not fixed it is kept in the frame.
struct node *assigned_with(long kind, struct node *place, struct node *value) {
    check_place(place);
    struct node *address = place->left;
    if (is_fixed(address) || (is_simple(address) && is_pure(value)))
        return new_node(ASSIGNED, place->type, place, convert(binary(kind, place, value), place->type));
    struct type *type = pointer_to(place->type);
    struct node *kept = at(frame_address(take_frame(8, 8), type), type);
    struct node *first = new_node(ASSIGNED, type, kept, convert(address, type));
    struct node *again = copy_node(place, place->type);
    again->left = kept;
    struct node *then = new_node(ASSIGNED, place->type, again, convert(binary(kind, again, value), place->type));
    return new_node(SEQUENCE, place->type, first, then);
}

// A place that goes up or down by one; `before` is set where its value before that is wanted.
struct node *stepped(struct node *place, long by, long before) {
    check_place(place);
    refuse_unless(is_scalar(place->type), "a step of something that is no number and no pointer");
    if (is_floating(place->type))
        return stopped(place->type);
    if (place->width != 0 && !before)
        return assigned_with('+', place, number(by, plain(INT)));
    struct node *made = new_node(STEPPED, place->type, place, 0);
    made->value = by;
    if (is_pointer(place->type))
        made->value = by * size_of(word, place->type->of);
    if (before)
        made->right = place;
    return made;
}
