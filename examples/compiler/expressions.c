// Expressions: one function a level, from what binds closest on. Each gives a tree.

struct node *cast_expression(void);
struct node *assignment_expression(void);
struct node *expression(void);
struct type *type_name(void);

// The function that is compiled, or 0, and how many bytes of its parameters have names.
struct symbol *present;
long named_arguments;

// ---- constants and texts

// A number has the first of these types that holds it: int, long, and where it is not decimal or has a U, the unsigned ones too.
struct node *number_node(void) {
    long suffix = read_number(word);
    long value = word->value;
    long kind = LONG;
    if (!(suffix & WITH_L) && value >= 0 && value <= 2147483647)
        kind = INT;
    else if (!(suffix & WITH_L) && !(suffix & DECIMAL) && value >= 0 && value <= 4294967295L)
        kind = UNSIGNED;
    else if (value < 0 && (suffix & DECIMAL) && !(suffix & WITH_U))
        refuse(word, "a decimal number above 2^63 - 1", 0);
    else if (value < 0)
        kind = UNSIGNED_LONG;
    if (suffix & WITH_U) {
        kind = UNSIGNED_LONG;
        if (!(suffix & WITH_L) && value >= 0 && value <= 4294967295L)
            kind = UNSIGNED;
    }
    advance();
    return number(value, plain(kind));
}

// The bytes of the texts that stand here, one behind the other, and a zero byte. `text_length` counts it.
long text_length;

char *take_text(void) {
    char *text = "";
    long room = 0;
    text_length = 0;
    while (sign == TEXT) {
        long wanted = text_length + word->length + 1;
        if (wanted > room) {
            room = 2 * wanted;
            char *longer = take(room);
            copy_bytes(longer, text, text_length);
            text = longer;
        }
        text_length += read_text(word, text + text_length);
        advance();
    }
    text_length += 1;
    return text;
}

// Puts bytes into the data, as an array of char.
struct node *text_node(char *text, long length) {
    struct type *type = array_of(word, plain(CHAR), length);
    long address = take_data(length, 1);
    copy_bytes(data_at(address), text, length);
    return at(number(address, pointer_to(type)), type);
}

// ---- names

// The address of an object; where it has none yet, it is given its place now. As an initialiser may follow, a small one, and one that was not
// defined yet, stands in the file.
long address_of_object(struct symbol *symbol) {
    symbol->is_used = 1;
    if (symbol->value == 0) {
        long size = symbol->type->size;
        if (size == UNKNOWN)
            refuse(word, "an object that is used before its size is known:", symbol->name);
        if (symbol->is_defined && size > PAGE)
            symbol->value = take_zeros(size, symbol->type->align);
        else
            symbol->value = take_data(size, symbol->type->align);
        symbol->room = size;
    }
    return symbol->value;
}

struct node *name_node(void) {
    struct symbol *symbol = word->name->symbol;
    if (symbol == 0)
        refuse(word, "a name that was not declared:", word->name);
    if (symbol->kind == TYPE_NAME)
        refuse(word, "the name of a type in an expression:", word->name);
    struct node *made = 0;
    struct type *type = symbol->type;
    if (symbol->kind == ENUMERATOR)
        made = number(symbol->value, plain(INT));
    else if (symbol->kind == LOCAL)
        made = at(frame_address(symbol->value, type), type);
    else if (symbol->kind == OBJECT)
        made = at(number(address_of_object(symbol), pointer_to(type)), type);
    else {
        made = new_node(ENTRY, type, 0, 0);
        made->symbol = symbol;
        symbol->is_used = 1;
    }
    advance();
    return made;
}

// ---- arguments that have no names

struct node *va_start_node(void) {
    advance();
    expect('(', "(");
    struct node *list = assignment_expression();
    expect(',', ",");
    if (present == 0 || !present->type->is_variadic)
        refuse(word, "va_start in a function that is not variadic", 0);
    if (sign != NAME || word->name->symbol == 0 || word->name->symbol->value != 8 + named_arguments)
        refuse_word("the last parameter");
    advance();
    expect(')', ")");
    return assigned(list, convert(frame_address(16 + named_arguments, plain(CHAR)), list->type));
}

struct node *va_arg_node(void) {
    advance();
    expect('(', "(");
    struct node *list = assignment_expression();
    expect(',', ",");
    struct type *type = type_name();
    expect(')', ")");
    if (!is_scalar(type) || is_by_address(type))
        refuse(word, "va_arg of a structure or long double", 0);
    struct node *next = assigned_with('+', list, number(8, plain(LONG)));
    return at(moved(next, -8, pointer_to(type)), type);
}

struct node *va_end_node(void) {
    advance();
    expect('(', "(");
    struct node *list = assignment_expression();
    expect(')', ")");
    return convert(list, plain(VOID));
}

struct node *va_copy_node(void) {
    advance();
    expect('(', "(");
    struct node *to = assignment_expression();
    expect(',', ",");
    struct node *from = assignment_expression();
    expect(')', ")");
    return convert(assigned(to, from), plain(VOID));
}

// ---- the closest level

struct node *primary(void) {
    struct node *made = 0;
    if (sign == NAME)
        return name_node();
    if (sign == NUMBER)
        return number_node();
    if (sign == CHARACTER) {
        read_character(word);
        made = number(word->value, plain(INT));
        advance();
    } else if (sign == TEXT) {
        char *text = take_text();
        made = text_node(text, text_length);
    } else if (sign == KEY_FUNCTION_NAME && present != 0) {
        advance();
        made = text_node(joined(present->name->text, present->name->length, "", 0), present->name->length + 1);
    } else if (sign == KEY_VA_START) {
        made = va_start_node();
    } else if (sign == KEY_VA_ARG) {
        made = va_arg_node();
    } else if (sign == KEY_VA_END) {
        made = va_end_node();
    } else if (sign == KEY_VA_COPY) {
        made = va_copy_node();
    } else {
        if (sign != '(')
            refuse_word("an expression");
        advance();
        if (sign == '{')
            refuse(word, "a statement as an expression", 0);
        made = expression();
        expect(')', ")");
    }
    return made;
}

// A member of a structure that stands at an address.
struct node *member_at(struct node *address, struct type *type) {
    if (!is_structure(type) || sign != NAME)
        refuse(word, "a member of something that is no structure:", word->name);
    size_of(word, type);
    struct member *member = find_member(type, word->name);
    if (member == 0)
        refuse(word, "a member that the structure has not:", word->name);
    advance();
    struct node *made = at(moved(address, member_offset, pointer_to(member->type)), member->type);
    made->first = member->first;
    made->width = member->width;
    return made;
}

// An argument without a parameter: what is below int becomes int.
struct node *open_argument(struct node *node) {
    node = as_value(node);
    if (is_integer(node->type))
        return promote(node);
    if (node->type->kind == FLOAT)
        return stopped(plain(DOUBLE));
    return node;
}

struct node *take_call_argument(struct parameter *parameter, struct type *type) {
    struct node *made = assignment_expression();
    if (parameter != 0)
        made = given(made, parameter->type);
    else if (type->is_prototype && !type->is_variadic)
        refuse(word, "an argument more than the function has", 0);
    else
        made = open_argument(made);
    if (is_structure(made->type))
        refuse(word, "a structure as argument", 0);
    if (made->type->kind == LONG_DOUBLE)
        return stopped(plain(LONG));
    refuse_unless(is_scalar(made->type), "an argument without a value");
    return made;
}

// A call, of which `(` stands here.
struct node *call(struct node *function) {
    function = as_value(function);
    refuse_unless(is_pointer(function->type) && function->type->of->kind == FUNCTION, "a call of something that is no function");
    struct type *type = function->type->of;
    struct node *made = new_node(CALLED, type->of, function, 0);
    struct parameter *parameter = type->parameters;
    struct node *last = 0;
    advance();
    while (sign != ')') {
        struct node *argument = take_call_argument(parameter, type);
        if (last == 0)
            made->right = argument;
        else
            last->next = argument;
        last = argument;
        lie_above(made, argument);
        made->value += 1;
        refuse_unless(made->value < 256, "a call with more than 255 arguments");
        if (parameter != 0)
            parameter = parameter->next;
        if (sign != ')') {
            expect(',', ", or )");
            if (sign == ')')
                refuse_word("an argument");
        }
    }
    advance();
    refuse_unless(parameter == 0, "a call with too few arguments");
    if (type->of->kind == LONG_DOUBLE)
        return stopped(type->of);
    return made;
}

struct node *postfix(void) {
    struct node *made = primary();
    while (1) {
        if (sign == '[') {
            advance();
            made = binary('+', made, expression());
            expect(']', "]");
            refuse_unless(is_pointer(made->type), "an index of something that is no pointer");
            made = at(made, made->type->of);
        } else if (sign == '(') {
            made = call(made);
        } else if (sign == '.') {
            advance();
            refuse_unless(is_structure(made->type), "a member of something that is no structure");
            made = member_at(address_of(made), made->type);
        } else if (sign == ARROW) {
            advance();
            made = as_value(made);
            refuse_unless(is_pointer(made->type), "-> behind something that is no pointer");
            made = member_at(made, made->type->of);
        } else if (sign == INCREMENT || sign == DECREMENT) {
            made = stepped(made, 1 - 2 * (sign == DECREMENT), 1);
            advance();
        } else {
            return made;
        }
    }
}

// ---- what stands before

// The size of a type or of what an expression would give, which is not computed.
struct node *size_node(void) {
    struct type *type = 0;
    advance();
    if (sign == '(') {
        long next = following_sign();
        struct word *behind = following;
        if ((next >= KEY_INT && next < KEY_LAST_OF_TYPES)
            || (next == NAME && behind->name->symbol != 0 && behind->name->symbol->kind == TYPE_NAME)) {
            advance();
            type = type_name();
            expect(')', ")");
            if (sign == '{')
                refuse(word, "a compound literal", 0);
        }
    }
    if (type == 0) {
        struct node *node = cast_expression();
        refuse_unless(node->width == 0, "the size of a bit-field");
        type = node->type;
    }
    return number(size_of(word, type), plain(UNSIGNED_LONG));
}

struct node *pointed_at(struct node *pointer) {
    pointer = as_value(pointer);
    refuse_unless(is_pointer(pointer->type), "* before something that is no pointer");
    return at(pointer, pointer->type->of);
}

struct node *unary(void) {
    long mark = sign;
    if (mark == KEY_SIZEOF)
        return size_node();
    if (mark == AND_ALSO)
        refuse(word, "the address of a label", 0);
    if (mark != '-' && mark != '+' && mark != '!' && mark != '~' && mark != '*' && mark != '&' && mark != INCREMENT
        && mark != DECREMENT)
        return postfix();
    advance();
    struct node *node = cast_expression();
    if (mark == '-')
        return negated(node);
    if (mark == '!')
        return negation(node);
    if (mark == '~')
        return complement(node);
    if (mark == '*')
        return pointed_at(node);
    if (mark == '+') {
        refuse_unless(is_arithmetic(node->type), "+ before something that is no number");
        return copy_node(promote(node), promote(node)->type);
    }
    if (mark == '&') {
        refuse_unless(node->width == 0, "the address of a bit-field");
        refuse_unless(node->kind == AT || node->kind == ENTRY, "the address of something that is no place");
        return address_of(node);
    }
    return stepped(node, 1 - 2 * (mark == DECREMENT), 0);
}

// A cast, or what stands in parentheses, of which `(` stands here.
struct node *cast_or_parentheses(void) {
    long next = following_sign();
    if (next == NAME) {
        struct symbol *symbol = following->name->symbol;
        if (symbol == 0 || symbol->kind != TYPE_NAME)
            return unary();
    } else if (next < KEY_INT || next >= KEY_LAST_OF_TYPES) {
        return unary();
    }
    advance();
    struct type *type = type_name();
    expect(')', ")");
    if (sign == '{')
        refuse(word, "a compound literal", 0);
    struct node *node = cast_expression();
    refuse_unless(type->kind == VOID || is_scalar(type), "a cast to something that is no number and no pointer");
    node = convert(node, type);
    if (node->kind == AT)
        return new_node(CONVERTED, type, node, 0);
    return node;
}

struct node *cast_expression(void) {
    struct node *made = 0;
    go_deeper();
    if (sign == '(')
        made = cast_or_parentheses();
    else
        made = unary();
    nesting -= 1;
    return made;
}

// ---- between two operands

// How close an operation binds; 0 for a word that is none.
long level_of(long mark) {
    if (mark == '*' || mark == '/' || mark == '%')
        return 10;
    if (mark == '+' || mark == '-')
        return 9;
    if (mark == SHIFT_LEFT || mark == SHIFT_RIGHT)
        return 8;
    if (mark == '<' || mark == '>' || mark == LESS_EQUAL || mark == GREATER_EQUAL)
        return 7;
    if (mark == EQUAL || mark == NOT_EQUAL)
        return 6;
    if (mark == '&')
        return 5;
    if (mark == '^')
        return 4;
    if (mark == '|')
        return 3;
    if (mark == AND_ALSO)
        return 2;
    if (mark == OR_ELSE)
        return 1;
    return 0;
}

struct node *operations(long level) {
    struct node *left = cast_expression();
    long found = level_of(sign);
    while (found >= level && found != 0) {
        long mark = sign;
        advance();
        struct node *right = operations(found + 1);
        if (mark == AND_ALSO || mark == OR_ELSE)
            left = both_or_one(mark, left, right);
        else
            left = binary(mark, left, right);
        found = level_of(sign);
    }
    return left;
}

struct node *conditional_expression(void) {
    struct node *condition = operations(1);
    if (sign != '?')
        return condition;
    advance();
    if (sign == ':')
        refuse(word, "a choice without its middle", 0);
    struct node *one = expression();
    expect(':', ":");
    go_deeper();
    struct node *other = conditional_expression();
    nesting -= 1;
    return choice(condition, one, other);
}

struct node *assignment_expression(void) {
    struct node *left = conditional_expression();
    long mark = sign;
    if (mark != '=' && (mark < ASSIGN_WITH || mark >= KEY_INT))
        return left;
    advance();
    go_deeper();
    struct node *right = assignment_expression();
    nesting -= 1;
    if (mark == '=')
        return assigned(left, right);
    return assigned_with(mark - ASSIGN_WITH, left, right);
}

struct node *expression(void) {
    struct node *left = assignment_expression();
    while (sign == ',') {
        advance();
        struct node *right = as_value(assignment_expression());
        left = new_node(SEQUENCE, right->type, as_value(left), right);
    }
    return left;
}

// An integer that is known now, as a type holds it.
long constant_of(struct type *type) {
    struct node *node = conditional_expression();
    refuse_unless(node->kind == FOLDED && is_integer(node->type), "an expression that is not constant");
    return convert(node, type)->value;
}

long constant_expression(void) { return constant_of(plain(LONG)); }
