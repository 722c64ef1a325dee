// Units: objects, functions and names of types, at file level and in blocks.

// A type that a later declaration of the same name completes.
struct type *completed(struct word *place, struct type *before, struct type *type) {
    if (!same_type(before, type))
        refuse(place, "another type than was declared before:", place->name);
    if (type->kind == ARRAY && type->count == UNKNOWN)
        return before;
    if (type->kind == FUNCTION && !type->is_prototype)
        return before;
    return type;
}

// An object that was used before has to have the size then that it has now.
void check_room(struct symbol *symbol) {
    if (symbol->room != 0 && symbol->type->size != UNKNOWN && symbol->room != symbol->type->size)
        refuse(word, "another size than where it was used:", symbol->name);
}

// The object or function of a name that other units, or the functions of this one, know too.
struct symbol *shared_symbol(struct word *place, long kind, struct type *type) {
    struct symbol *symbol = symbol_here(place->name);
    // In a block it is the one of file level that is seen there, also where that is static.
    if (symbol == 0 && place->name->symbol != 0 && place->name->symbol->depth == 0 && place->name->symbol->kind == kind)
        symbol = place->name->symbol;
    if (symbol != 0) {
        if (symbol->kind != kind)
            refuse(place, "another kind of name than was declared before:", place->name);
        symbol->type = completed(place, symbol->type, type);
        if (depth > 0)
            bind(symbol);
        return symbol;
    }
    if (storage != KEY_STATIC)
        symbol = place->name->global;
    if (symbol == 0) {
        symbol = new_symbol(place, kind, type);
        symbol->depth = 0;
        symbol->next = symbols;
        symbols = symbol;
        if (storage != KEY_STATIC)
            place->name->global = symbol;
    }
    if (symbol->kind != kind)
        refuse(place, "another kind of name than in another unit:", place->name);
    symbol->type = type;
    check_room(symbol);
    bind(symbol);
    return symbol;
}

void declare_type(struct word *place, struct type *type) {
    struct symbol *before = symbol_here(place->name);
    if (before != 0 && before->kind == TYPE_NAME && same_type(before->type, type))
        return;
    declare(place, TYPE_NAME, type);
}

// ---- objects

// Puts an object with an initialiser into the data.
void define_content(struct symbol *symbol) {
    symbol->type = take_initialiser(symbol->type);
    check_room(symbol);
    if (symbol->has_content)
        refuse(symbol->place, "an object with two initialisers:", symbol->name);
    if (symbol->value >= ZERO_BASE)
        refuse(symbol->place, "a large object that is used before its initialiser:", symbol->name);
    if (symbol->value == 0)
        symbol->value = take_data(symbol->type->size, symbol->type->align);
    symbol->has_content = 1;
    put_items(symbol->value);
}

void shared_object(struct word *place, struct type *type) {
    struct symbol *symbol = shared_symbol(place, OBJECT, type);
    if (storage != KEY_EXTERN || sign == '=') {
        symbol->is_defined = 1;
        symbol->place = place;
    }
    if (depth > 0 && sign == '=')
        refuse(place, "an initialiser behind extern:", place->name);
    if (taken('='))
        define_content(symbol);
    else if (symbol->is_defined && type->kind == ARRAY && type->count == UNKNOWN && storage == KEY_STATIC)
        refuse(place, "an array without a count:", place->name);
}

void static_object(struct word *place, struct type *type) {
    struct symbol *symbol = declare(place, OBJECT, type);
    symbol->is_defined = 1;
    if (taken('='))
        define_content(symbol);
    else
        symbol->value = take_zeros(size_of(place, type), type->align);
}

void frame_object(struct word *place, struct type *type) {
    struct symbol *symbol = declare(place, LOCAL, type);
    if (type->kind != ARRAY || type->count != UNKNOWN)
        symbol->value = take_frame(rounded(size_of(place, type), 8), 8);
    if (taken('=')) {
        symbol->type = take_initialiser(type);
        if (symbol->value == 0)
            symbol->value = take_frame(rounded(symbol->type->size, 8), 8);
        store_items(symbol->type, symbol->value);
    }
    size_of(place, symbol->type);
}

// ---- declarations in blocks

void local_name(struct word *place, struct type *type) {
    if (storage == KEY_TYPEDEF)
        declare_type(place, type);
    else if (type->kind == FUNCTION)
        shared_symbol(place, CODE, type);
    else if (storage == KEY_EXTERN)
        shared_object(place, type);
    else if (type->kind == VOID)
        refuse(place, "an object of the type void:", place->name);
    else if (storage == KEY_STATIC)
        static_object(place, type);
    else
        frame_object(place, type);
}

void local_declaration(void) {
    struct type *base = specifiers();
    long found = storage;
    while (sign != ';') {
        declared = 0;
        struct type *type = declarator(base);
        if (declared == 0)
            refuse_word("a name");
        attributes();
        storage = found;
        local_name(declared, type);
        if (sign != ';')
            expect(',', ", or ;");
    }
    advance();
}

// ---- functions

void declare_parameters(struct type *type) {
    struct parameter *parameter = type->parameters;
    named_arguments = 0;
    while (parameter != 0) {
        if (parameter->place == 0)
            refuse(word, "a parameter without a name", 0);
        if (parameter->type->kind == LONG_DOUBLE)
            refuse(parameter->place, "a long double as parameter of a function:", parameter->place->name);
        declare(parameter->place, LOCAL, parameter->type)->value = 16 + named_arguments;
        named_arguments += 8;
        parameter = parameter->next;
    }
}

// A function's begin. The instruction at the place that it gives takes the frame off the stack.
long open_frame(void) {
    immediate(ADDI, 2, 2, -16);
    store_at(SD, 1, 2, 8);
    store_at(SD, 8, 2, 0);
    immediate(ADDI, 8, 2, 0);
    return jump(0);
}

// A function's end, and the frame's size at its begin: a jump there and back where it is too large for one instruction.
void close_frame(long place) {
    arrive(return_chain, code_length);
    immediate(ADDI, 2, 8, 16);
    immediate(LD, 1, 8, 8);
    immediate(LD, 8, 8, 0);
    immediate(JALR, 0, 1, 0);
    long size = rounded(frame_most, 16);
    if (is_short(-size)) {
        set_word(place, ADDI | (2 << 7) | (2 << 15) | ((-size & 4095) << 20));
    } else {
        set_jump(place, code_length);
        add_number(2, 2, -size);
        jump_to(place + 4);
    }
}

// The body of a function, whose `{` stands here.
void define_function(struct symbol *symbol) {
    struct binding *before = bindings;
    if (symbol->is_defined)
        refuse(word, "a function with two bodies:", symbol->name);
    symbol->is_defined = 1;
    symbol->value = code_length;
    present = symbol;
    frame_now = 0;
    frame_most = 0;
    return_chain = 0;
    open_scope();
    declare_parameters(symbol->type);
    long place = open_frame();
    advance();
    block_items();
    if (symbol->name == name_of("main"))
        load_number(0, 10);
    close_frame(place);
    forget_labels();
    close_scope(before);
    present = 0;
}

// ---- file level

void file_name(struct word *place, struct type *type) {
    if (storage == KEY_TYPEDEF)
        declare_type(place, type);
    else if (type->kind == FUNCTION)
        shared_symbol(place, CODE, type);
    else if (type->kind == VOID)
        refuse(place, "an object of the type void:", place->name);
    else
        shared_object(place, type);
}

void file_declaration(void) {
    struct type *base = specifiers();
    long found = storage;
    while (sign != ';') {
        declared = 0;
        struct type *type = declarator(base);
        struct word *place = declared;
        if (place == 0)
            refuse_word("a name");
        attributes();
        storage = found;
        if (sign == '{' && type->kind == FUNCTION && storage != KEY_TYPEDEF) {
            struct symbol *symbol = shared_symbol(place, CODE, type);
            symbol->type = type;
            define_function(symbol);
            return;
        }
        file_name(place, type);
        if (sign != ';')
            expect(',', ", or ;");
    }
    advance();
}

// All declarations of a unit.
void unit(void) {
    following = 0;
    depth = 0;
    advance();
    while (sign != END) {
        if (!taken(';'))
            file_declaration();
    }
    close_scope(0);
}
