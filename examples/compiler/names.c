// Names: what they mean, in which block, and in which unit. And the parser's place in the words.

// What a name can be.
enum { OBJECT = 1, LOCAL, CODE, TYPE_NAME, ENUMERATOR, };

// OBJECT: `value` is its address, or 0 before it has one. LOCAL: its place from x8. CODE: its place in the code, where it is defined.
// ENUMERATOR: its value. An object that has its address has so much `room` there. `depth` is that of the block in which it stands.
struct symbol {
    struct symbol *next;
    struct name *name;
    struct type *type;
    struct word *place;
    struct use *uses;
    long kind;
    long value;
    long depth;
    long is_defined;
    long is_used;
    long has_content;
    long room;
};

struct tag {
    struct type *type;
    long depth;
};

// What a name was before a block gave it another meaning.
struct binding {
    struct binding *next;
    struct name *name;
    struct symbol *symbol;
    struct tag *tag;
};

struct binding *bindings;
long depth;
// All objects and functions of file level, of all units.
struct symbol *symbols;

struct word *word;
struct word *following;
long sign;

// Keywords, as signs.
enum {
    KEY_INT = 1024, KEY_CHAR, KEY_LONG, KEY_SHORT, KEY_UNSIGNED, KEY_SIGNED, KEY_VOID, KEY_FLOAT, KEY_DOUBLE, KEY_STRUCT, KEY_UNION,
    KEY_ENUM, KEY_CONST, KEY_INLINE, KEY_REGISTER, KEY_RESTRICT, KEY_VA_LIST, KEY_TYPEDEF, KEY_EXTERN, KEY_STATIC, KEY_AUTO,
    KEY_ATTRIBUTE, KEY_LAST_OF_TYPES, KEY_IF, KEY_ELSE, KEY_WHILE, KEY_DO, KEY_FOR, KEY_SWITCH, KEY_CASE, KEY_DEFAULT, KEY_BREAK,
    KEY_CONTINUE, KEY_GOTO, KEY_RETURN, KEY_SIZEOF, KEY_VA_START, KEY_VA_ARG, KEY_VA_END, KEY_VA_COPY, KEY_FUNCTION_NAME, KEY_REFUSED,
};

void set_keyword(char *text, long keyword) { name_of(text)->keyword = keyword; }

void set_types_keywords(void) {
    set_keyword("int", KEY_INT);
    set_keyword("char", KEY_CHAR);
    set_keyword("long", KEY_LONG);
    set_keyword("short", KEY_SHORT);
    set_keyword("unsigned", KEY_UNSIGNED);
    set_keyword("signed", KEY_SIGNED);
    set_keyword("void", KEY_VOID);
    set_keyword("float", KEY_FLOAT);
    set_keyword("double", KEY_DOUBLE);
    set_keyword("struct", KEY_STRUCT);
    set_keyword("union", KEY_UNION);
    set_keyword("enum", KEY_ENUM);
    set_keyword("const", KEY_CONST);
    // Every load and store that the source says is made, so volatile asks for nothing more.
    set_keyword("volatile", KEY_CONST);
    set_keyword("__volatile__", KEY_CONST);
    set_keyword("inline", KEY_INLINE);
    set_keyword("__inline", KEY_INLINE);
    set_keyword("__inline__", KEY_INLINE);
    set_keyword("register", KEY_REGISTER);
    set_keyword("restrict", KEY_RESTRICT);
    set_keyword("__builtin_va_list", KEY_VA_LIST);
    set_keyword("typedef", KEY_TYPEDEF);
    set_keyword("extern", KEY_EXTERN);
    set_keyword("static", KEY_STATIC);
    set_keyword("auto", KEY_AUTO);
    set_keyword("__attribute__", KEY_ATTRIBUTE);
}

void set_keywords(void) {
    set_types_keywords();
    set_keyword("if", KEY_IF);
    set_keyword("else", KEY_ELSE);
    set_keyword("while", KEY_WHILE);
    set_keyword("do", KEY_DO);
    set_keyword("for", KEY_FOR);
    set_keyword("switch", KEY_SWITCH);
    set_keyword("case", KEY_CASE);
    set_keyword("default", KEY_DEFAULT);
    set_keyword("break", KEY_BREAK);
    set_keyword("continue", KEY_CONTINUE);
    set_keyword("goto", KEY_GOTO);
    set_keyword("return", KEY_RETURN);
    set_keyword("sizeof", KEY_SIZEOF);
    set_keyword("__builtin_va_start", KEY_VA_START);
    set_keyword("__builtin_va_arg", KEY_VA_ARG);
    set_keyword("__builtin_va_end", KEY_VA_END);
    set_keyword("__builtin_va_copy", KEY_VA_COPY);
    set_keyword("__FUNCTION__", KEY_FUNCTION_NAME);
    set_keyword("__func__", KEY_FUNCTION_NAME);
    set_keyword("asm", KEY_REFUSED);
    set_keyword("__asm__", KEY_REFUSED);
    set_keyword("typeof", KEY_REFUSED);
    set_keyword("__typeof__", KEY_REFUSED);
    set_keyword("_Alignas", KEY_REFUSED);
    set_keyword("_Alignof", KEY_REFUSED);
    set_keyword("_Atomic", KEY_REFUSED);
    set_keyword("_Bool", KEY_REFUSED);
    set_keyword("_Complex", KEY_REFUSED);
    set_keyword("_Generic", KEY_REFUSED);
    set_keyword("_Imaginary", KEY_REFUSED);
    set_keyword("_Noreturn", KEY_REFUSED);
    set_keyword("_Static_assert", KEY_REFUSED);
    set_keyword("_Thread_local", KEY_REFUSED);
}

// ---- the words, as the parser sees them

// What a word is to the parser: a mark, a keyword, or a kind of word.
long sign_of(struct word *seen) {
    if (seen->kind == MARK)
        return seen->value;
    if (seen->kind != NAME || seen->name->keyword == 0)
        return seen->kind;
    if (seen->name->keyword == KEY_REFUSED)
        refuse(seen, "the keyword", seen->name);
    return seen->name->keyword;
}

void advance(void) {
    word = following;
    following = 0;
    if (word == 0)
        word = expanded_word();
    sign = sign_of(word);
}

// The sign of the word behind this one.
long following_sign(void) {
    if (following == 0)
        following = expanded_word();
    return sign_of(following);
}

// Refuses what stands here, where something else has to stand.
void refuse_word(char *what) {
    if (word->kind == END)
        refuse(word, "the end of a file", 0);
    tell_place(word);
    tell("refused: ");
    write_all(2, word->text, word->length);
    tell(" where ");
    tell(what);
    tell(" has to stand\n");
    finish(REFUSED);
}

// Takes a sign if it stands here.
long taken(long wanted) {
    if (sign != wanted)
        return 0;
    advance();
    return 1;
}

void expect(long wanted, char *what) {
    if (!taken(wanted))
        refuse_word(what);
}

// ---- scopes

void keep_binding(struct name *name) {
    struct binding *made = (struct binding *)take(sizeof(struct binding));
    made->next = bindings;
    made->name = name;
    made->symbol = name->symbol;
    made->tag = name->tag;
    bindings = made;
}

void open_scope(void) { depth += 1; }

// Gives all names the meaning back that they had before the bindings behind `before`.
void close_scope(struct binding *before) {
    while (bindings != before) {
        bindings->name->symbol = bindings->symbol;
        bindings->name->tag = bindings->tag;
        bindings = bindings->next;
    }
    depth -= 1;
}

struct symbol *new_symbol(struct word *place, long kind, struct type *type) {
    struct symbol *made = (struct symbol *)take(sizeof(struct symbol));
    made->name = place->name;
    made->place = place;
    made->kind = kind;
    made->type = type;
    made->depth = depth;
    return made;
}

void bind(struct symbol *symbol) {
    keep_binding(symbol->name);
    symbol->name->symbol = symbol;
}

// What a name means if it was declared in this very block, or 0.
struct symbol *symbol_here(struct name *name) {
    if (name->symbol != 0 && name->symbol->depth == depth)
        return name->symbol;
    return 0;
}

// Declares a name that may be declared once in a block.
struct symbol *declare(struct word *place, long kind, struct type *type) {
    if (symbol_here(place->name) != 0)
        refuse(place, "declared twice:", place->name);
    struct symbol *made = new_symbol(place, kind, type);
    bind(made);
    return made;
}

// Gives a structure's name its type in this block.
void bind_tag(struct name *name, struct type *type) {
    struct tag *made = (struct tag *)take(sizeof(struct tag));
    made->type = type;
    made->depth = depth;
    keep_binding(name);
    name->tag = made;
}

// Does a declaration begin here?
long begins_type(void) {
    if (sign == NAME)
        return word->name->symbol != 0 && word->name->symbol->kind == TYPE_NAME;
    return sign >= KEY_INT && sign < KEY_LAST_OF_TYPES;
}
