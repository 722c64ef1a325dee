// Declarations: types, the names that get them, functions, and units.

// What stands before the names: typedef, extern or static, or 0.
long storage;
// The word of the name that was declared, or 0.
struct word *declared;
// Had the last structure no name?
long without_name;

// A part of a declarator: pointer, array or function. The first is the closest to the name.
struct part {
    struct part *next;
    long kind;
    long count;
    struct type *function;
};

struct type *specifiers(void);
struct type *declarator(struct type *base);

// ---- what stands before the names

// Each word for a plain type counts in a place of its own.
enum {
    IS_VOID = 1, IS_CHAR = 4, IS_SHORT = 16, IS_INT = 64, IS_LONG = 256, IS_FLOAT = 4096, IS_DOUBLE = 16384, IS_SIGNED = 65536,
    IS_UNSIGNED = 262144,
};

long weight_of(long key) {
    if (key == KEY_VOID)
        return IS_VOID;
    if (key == KEY_CHAR)
        return IS_CHAR;
    if (key == KEY_SHORT)
        return IS_SHORT;
    if (key == KEY_INT)
        return IS_INT;
    if (key == KEY_LONG)
        return IS_LONG;
    if (key == KEY_FLOAT)
        return IS_FLOAT;
    if (key == KEY_DOUBLE)
        return IS_DOUBLE;
    if (key == KEY_SIGNED)
        return IS_SIGNED;
    if (key == KEY_UNSIGNED)
        return IS_UNSIGNED;
    return 0;
}

// The plain type of a sum of words, or 0 where they say none.
long kind_of(long sum) {
    if (sum == IS_VOID)
        return VOID;
    if (sum == IS_CHAR || sum == IS_CHAR + IS_UNSIGNED)
        return CHAR;
    if (sum == IS_CHAR + IS_SIGNED)
        return SIGNED_CHAR;
    if (sum == IS_FLOAT)
        return FLOAT;
    if (sum == IS_DOUBLE)
        return DOUBLE;
    if (sum == IS_LONG + IS_DOUBLE)
        return LONG_DOUBLE;
    if (sum & IS_INT)
        sum -= IS_INT;
    if (sum == IS_SHORT || sum == IS_SHORT + IS_SIGNED)
        return SHORT;
    if (sum == IS_SHORT + IS_UNSIGNED)
        return UNSIGNED_SHORT;
    if (sum == 0 || sum == IS_SIGNED)
        return INT;
    if (sum == IS_UNSIGNED)
        return UNSIGNED;
    if (sum == IS_LONG || sum == IS_LONG + IS_SIGNED || sum == 2 * IS_LONG || sum == 2 * IS_LONG + IS_SIGNED)
        return LONG;
    if (sum == IS_LONG + IS_UNSIGNED || sum == 2 * IS_LONG + IS_UNSIGNED)
        return UNSIGNED_LONG;
    return 0;
}

long is_known_attribute(void) {
    char *text = joined(word->text, word->length, "", 0);
    return same_text(text, "noreturn") || same_text(text, "__noreturn__") || same_text(text, "format") || same_text(text, "__format__")
        || same_text(text, "unused") || same_text(text, "__unused__") || same_text(text, "noinline") || same_text(text, "__noinline__");
}

// Goes past what stands in parentheses, of which the first stands here.
void skip_parentheses(void) {
    long open = 1;
    advance();
    while (open > 0) {
        if (sign == END)
            refuse_word(")");
        open += (sign == '(') - (sign == ')');
        advance();
    }
}

// Attributes that change nothing of what is made.
void attributes(void) {
    while (taken(KEY_ATTRIBUTE)) {
        expect('(', "((");
        expect('(', "((");
        while (sign != ')') {
            if (!is_known_attribute())
                refuse(word, "the attribute", word->name);
            advance();
            if (sign == '(')
                skip_parentheses();
            if (sign != ')')
                expect(',', ", or )");
        }
        advance();
        expect(')', "))");
    }
}

// ---- structures

void take_bit_field(struct type *type, struct word *name, struct type *of) {
    struct name *named = 0;
    if (name != 0)
        named = name->name;
    advance();
    place_bits(word, type, named, of, constant_expression());
}

// Refuses a name of a member, or of one of an anonymous member, that the structure has already.
void check_members(struct type *type, struct type *anonymous) {
    struct member *member = anonymous->members;
    while (member != 0) {
        if (member->name == 0)
            check_members(type, member->type);
        else if (find_member(type, member->name) != 0)
            refuse(word, "a member that stands twice:", member->name);
        member = member->next;
    }
}

// The members of one declaration, up to its `;`.
void member_declaration(struct type *type) {
    struct type *base = specifiers();
    if (storage != 0)
        refuse(word, "a member that is static, extern or a typedef", 0);
    if (sign == ';') {
        if (!is_structure(base) || !without_name)
            refuse(word, "a declaration of no member", 0);
        check_members(type, base);
        place_member(word, type, 0, base);
    }
    while (sign != ';') {
        struct type *of = base;
        declared = 0;
        if (sign != ':')
            of = declarator(base);
        if (declared != 0 && find_member(type, declared->name) != 0)
            refuse(declared, "a member that stands twice:", declared->name);
        if (sign == ':') {
            take_bit_field(type, declared, of);
        } else {
            if (declared == 0)
                refuse_word("the name of a member");
            if (of->kind == ARRAY && of->count == UNKNOWN)
                refuse(declared, "a member of no known size:", declared->name);
            place_member(declared, type, declared->name, of);
        }
        if (sign != ';')
            expect(',', ", or ;");
    }
    advance();
}

// A structure's type by its name: here, where it is declared anew, else in the blocks around.
struct type *tagged_type(struct name *name, long kind) {
    long anew = sign == '{' || sign == ';';
    struct tag *tag = name->tag;
    if (tag != 0 && (!anew || tag->depth == depth)) {
        if (tag->type->kind != kind)
            refuse(word, "another kind of type than was declared before:", name);
        return tag->type;
    }
    struct type *made = new_type(kind, UNKNOWN, 1);
    bind_tag(name, made);
    return made;
}

struct type *structure(void) {
    long kind = STRUCT;
    if (sign == KEY_UNION)
        kind = UNION;
    advance();
    attributes();
    struct type *type = 0;
    long has_name = sign == NAME;
    if (has_name) {
        struct name *name = word->name;
        advance();
        type = tagged_type(name, kind);
    } else {
        if (sign != '{')
            refuse_word("the name of a structure, or {");
        type = new_type(kind, UNKNOWN, 1);
    }
    if (sign == '{') {
        if (type->size != UNKNOWN)
            refuse(word, "a structure that is declared twice", 0);
        advance();
        while (sign != '}')
            member_declaration(type);
        end_members(word, type);
        advance();
        attributes();
    }
    without_name = !has_name;
    return type;
}

// The constants of an enumeration. Gives whether one of them is below 0.
long enumerators(void) {
    long next = 0;
    long negative = 0;
    while (sign != '}') {
        if (sign != NAME)
            refuse_word("the name of a constant");
        struct word *name = word;
        advance();
        if (taken('='))
            next = constant_expression();
        if (next < -2147483648L || next > 2147483647)
            refuse(name, "a constant that is no int:", name->name);
        negative = negative || next < 0;
        declare(name, ENUMERATOR, plain(INT))->value = next;
        next += 1;
        if (sign != '}')
            expect(',', ", or }");
    }
    advance();
    return negative;
}

// An enumeration is unsigned, or int where one of its constants is below 0.
struct type *enumeration(void) {
    advance();
    struct name *name = 0;
    if (sign == NAME) {
        name = word->name;
        advance();
    }
    if (sign != '{') {
        if (name == 0 || name->tag == 0 || !is_integer(name->tag->type))
            refuse(word, "an enumeration that was not declared", name);
        return name->tag->type;
    }
    advance();
    struct type *type = plain(UNSIGNED);
    if (enumerators())
        type = plain(INT);
    if (name != 0)
        bind_tag(name, type);
    return type;
}

// ---- the words of a declaration

struct type *type_word(void) {
    struct type *type = 0;
    if (sign == KEY_STRUCT || sign == KEY_UNION) {
        go_deeper();
        type = structure();
        nesting -= 1;
        return type;
    }
    if (sign == KEY_ENUM)
        return enumeration();
    if (sign == KEY_VA_LIST)
        type = pointer_to(plain(CHAR));
    else
        type = word->name->symbol->type;
    advance();
    return type;
}

// The type that stands before the names; `storage` is then what stood with it.
struct type *specifiers(void) {
    struct type *type = 0;
    long sum = 0;
    long found = 0;
    while (begins_type()) {
        long weight = weight_of(sign);
        if (sign == KEY_TYPEDEF || sign == KEY_EXTERN || sign == KEY_STATIC) {
            if (found != 0)
                refuse(word, "two of typedef, extern and static", 0);
            found = sign;
            advance();
        } else if (sign == KEY_ATTRIBUTE) {
            attributes();
        } else if (weight != 0) {
            sum += weight;
            if (type != 0 || kind_of(sum) == 0)
                refuse(word, "types that are none together", 0);
            advance();
        } else if (sign == KEY_CONST || sign == KEY_INLINE || sign == KEY_REGISTER || sign == KEY_RESTRICT || sign == KEY_AUTO) {
            advance();
        } else {
            if (sign == NAME && (type != 0 || sum != 0))
                break;
            if (type != 0 || sum != 0)
                refuse(word, "types that are none together", 0);
            type = type_word();
        }
    }
    if (type == 0 && sum == 0)
        refuse_word("a type");
    storage = found;
    if (type == 0)
        return plain(kind_of(sum));
    return type;
}

// ---- declarators

struct part *new_part(long kind) {
    struct part *made = (struct part *)take(sizeof(struct part));
    made->kind = kind;
    return made;
}

struct type *as_parameter(struct type *type) {
    if (type->kind == ARRAY)
        return pointer_to(type->of);
    if (type->kind == FUNCTION)
        return pointer_to(type);
    if (is_structure(type))
        refuse(word, "a structure as parameter", 0);
    return type;
}

struct parameter *take_parameter(void) {
    struct parameter *made = (struct parameter *)take(sizeof(struct parameter));
    if (sign == NAME && !begins_type())
        refuse(word, "a parameter without its type:", word->name);
    struct type *base = specifiers();
    declared = 0;
    made->type = as_parameter(declarator(base));
    made->place = declared;
    attributes();
    return made;
}

// The parameters behind `(`, as a function's type that gives nothing yet.
struct type *take_parameters(void) {
    struct type *type = new_type(FUNCTION, UNKNOWN, 1);
    struct parameter *last = 0;
    type->is_prototype = sign != ')';
    if (sign == KEY_VOID && following_sign() == ')')
        advance();
    while (sign != ')') {
        if (sign == ELLIPSIS && last != 0) {
            type->is_variadic = 1;
            advance();
            break;
        }
        struct parameter *made = take_parameter();
        refuse_unless(made->type->kind != VOID, "a parameter of the type void");
        if (last == 0)
            type->parameters = made;
        else
            last->next = made;
        last = made;
        if (sign != ')') {
            expect(',', ", or )");
            if (sign == ')')
                refuse_word("a parameter");
        }
    }
    expect(')', ")");
    return type;
}

// What stands behind a name, from left to right.
struct part *take_suffix(void) {
    struct part *made = 0;
    if (taken('[')) {
        made = new_part(ARRAY);
        made->count = UNKNOWN;
        if (sign != ']')
            made->count = constant_expression();
        expect(']', "]");
    } else {
        advance();
        made = new_part(FUNCTION);
        made->function = take_parameters();
    }
    return made;
}

struct part *add_part(struct part *first, struct part *made) {
    struct part *each = first;
    long count = 1;
    if (first == 0)
        return made;
    while (each->next != 0) {
        each = each->next;
        count += 1;
    }
    refuse_unless(count < DEEPEST, "a declarator of more than 1000 parts");
    each->next = made;
    return first;
}

// Does `(` open a declarator in parentheses, and no parameters?
long opens_declarator(void) {
    if (sign != '(')
        return 0;
    long next = following_sign();
    if (next == NAME)
        return following->name->symbol == 0 || following->name->symbol->kind != TYPE_NAME;
    return next == '*' || next == '(' || next == '[';
}

// The parts of a declarator, the closest to the name first. `declared` becomes its name, if it has one.
struct part *take_parts(void) {
    struct part *first = 0;
    long stars = 0;
    go_deeper();
    while (sign == '*' || sign == KEY_CONST || sign == KEY_RESTRICT || sign == KEY_ATTRIBUTE) {
        stars += sign == '*';
        if (sign == KEY_ATTRIBUTE)
            attributes();
        else
            advance();
    }
    if (opens_declarator()) {
        advance();
        first = take_parts();
        expect(')', ")");
    } else if (sign == NAME) {
        declared = word;
        advance();
    }
    struct word *name = declared;
    while (sign == '[' || sign == '(')
        first = add_part(first, take_suffix());
    declared = name;
    while (stars > 0) {
        first = add_part(first, new_part(POINTER));
        stars -= 1;
    }
    nesting -= 1;
    return first;
}

// The type of which all parts are made, from the last on.
struct type *applied(struct part *part, struct type *base) {
    if (part == 0)
        return base;
    go_deeper();
    struct type *of = applied(part->next, base);
    nesting -= 1;
    if (part->kind == POINTER)
        return pointer_to(of);
    if (part->kind == ARRAY)
        return array_of(word, of, part->count);
    struct type *made = function_of(word, of);
    made->parameters = part->function->parameters;
    made->is_variadic = part->function->is_variadic;
    made->is_prototype = part->function->is_prototype;
    return made;
}

struct type *declarator(struct type *base) { return applied(take_parts(), base); }

// A type as it stands in a cast or behind sizeof.
struct type *type_name(void) {
    struct type *base = specifiers();
    if (storage != 0)
        refuse(word, "a type that is static, extern or a typedef", 0);
    declared = 0;
    struct type *type = declarator(base);
    if (declared != 0)
        refuse(declared, "a name in a type:", declared->name);
    return type;
}
