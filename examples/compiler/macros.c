// Macros: words are taken from the files, macros are expanded, and what the parser is given has no macro in it.
//
// A word that comes of a macro carries the names that may not be expanded in it again: the macro's, and those that its call carried.

struct macro {
    struct name *name;
    struct macro *next;
    long has_arguments;
    long count;
    struct word *parameters;
    struct word *body;
};

struct hidden {
    struct hidden *next;
    struct name *name;
};

struct argument {
    struct argument *next;
    struct word *words;
    struct word *expanded;
    long is_expanded;
};

// A row of words that grows at its end.
struct row {
    struct word *first;
    struct word *last;
};

// Words that come before those of the file. A word of the kind END stands behind words that are taken alone.
struct word *pending;
struct macro *macros;
// Names that stand for their place or the time.
struct name *name_line;
struct name *name_file;
struct name *name_date;
struct name *name_time;

struct word *file_word(void);
struct word *expanded_word(void);

struct row *new_row(void) { return (struct row *)take(sizeof(struct row)); }

void append(struct row *row, struct word *word) {
    if (row->last == 0)
        row->first = word;
    else
        row->last->next = word;
    row->last = word;
}

struct word *copy_word(struct word *from) {
    struct word *made = (struct word *)take(sizeof(struct word));
    made->kind = from->kind;
    made->value = from->value;
    made->text = from->text;
    made->length = from->length;
    made->name = from->name;
    made->hidden = from->hidden;
    made->file = from->file;
    made->line = from->line;
    made->space = from->space;
    return made;
}

long is_hidden(struct hidden *hidden, struct name *name) {
    while (hidden != 0) {
        if (hidden->name == name)
            return 1;
        hidden = hidden->next;
    }
    return 0;
}

struct hidden *with_name(struct hidden *hidden, struct name *name) {
    if (is_hidden(hidden, name))
        return hidden;
    struct hidden *made = (struct hidden *)take(sizeof(struct hidden));
    made->next = hidden;
    made->name = name;
    return made;
}

struct hidden *both_hidden(struct hidden *one, struct hidden *other) {
    if (one == 0)
        return other;
    while (other != 0) {
        one = with_name(one, other->name);
        other = other->next;
    }
    return one;
}

// ---- taking words

// The next word, not expanded.
struct word *raw_word(void) {
    struct word *taken = pending;
    if (taken == 0)
        return file_word();
    if (taken->kind != END)
        pending = taken->next;
    return taken;
}

// Puts a row before what is to come. Its last word's `next` is set.
void put_before(struct row *row) {
    if (row->first != 0) {
        row->last->next = pending;
        pending = row->first;
    }
}

// All words of a row as they are expanded when they stand alone. The row itself is used up.
struct word *expand_alone(struct word *words) {
    struct word *before = pending;
    struct row *alone = new_row();
    alone->first = words;
    alone->last = words;
    while (alone->last != 0 && alone->last->next != 0)
        alone->last = alone->last->next;
    append(alone, new_word(END));
    pending = alone->first;
    struct row *row = new_row();
    go_deeper();
    struct word *taken = expanded_word();
    while (taken->kind != END) {
        append(row, taken);
        taken->next = 0;
        taken = expanded_word();
    }
    nesting -= 1;
    pending = before;
    return row->first;
}

struct word *copy_words(struct word *from) {
    struct row *row = new_row();
    while (from != 0) {
        append(row, copy_word(from));
        from = from->next;
    }
    return row->first;
}

// ---- arguments

struct argument *new_argument(struct row *row) {
    struct argument *made = (struct argument *)take(sizeof(struct argument));
    made->words = row->first;
    return made;
}

// Takes the words of one argument. `ending` is the mark behind it.
long ending;

struct argument *take_argument(struct word *call) {
    struct row *row = new_row();
    long depth = 0;
    while (1) {
        struct word *taken = raw_word();
        if (taken->kind == END)
            refuse(call, "a macro's arguments without end:", call->name);
        if (is_mark(taken, '('))
            depth += 1;
        if (depth > DEEPEST)
            refuse(call, "an argument with more than 1000 parentheses in one another:", call->name);
        if ((is_mark(taken, ')') || is_mark(taken, ',')) && depth == 0) {
            ending = taken->value;
            return new_argument(row);
        }
        if (is_mark(taken, ')'))
            depth -= 1;
        append(row, taken);
        taken->next = 0;
    }
}

// Takes the arguments of a call, whose `(` was taken.
struct argument *take_arguments(struct word *call, struct macro *macro) {
    struct argument *first = take_argument(call);
    struct argument *last = first;
    long count = 1;
    while (ending == ',') {
        last->next = take_argument(call);
        last = last->next;
        count += 1;
    }
    if (macro->count == 0 && count == 1 && first->words == 0)
        count = 0;
    if (count != macro->count)
        refuse(call, "another count of arguments than the macro has:", call->name);
    return first;
}

struct argument *argument_at(struct argument *argument, long number) {
    while (number > 0) {
        argument = argument->next;
        number -= 1;
    }
    return argument;
}

struct word *expanded_argument(struct argument *argument) {
    if (!argument->is_expanded) {
        argument->expanded = expand_alone(copy_words(argument->words));
        argument->is_expanded = 1;
    }
    return argument->expanded;
}

// ---- the body

// The words of an argument as a text: `#`.
struct word *as_text(struct word *place, struct word *words) {
    long room = 3;
    struct word *each = words;
    while (each != 0) {
        room += each->length * 2 + 1;
        each = each->next;
    }
    char *text = take(room);
    long length = 1;
    text[0] = '"';
    each = words;
    while (each != 0) {
        if (each->space && each != words) {
            text[length] = ' ';
            length += 1;
        }
        long at = 0;
        while (at < each->length) {
            long byte = each->text[at];
            if ((each->kind == TEXT || each->kind == CHARACTER) && (byte == '"' || byte == '\\')) {
                text[length] = '\\';
                length += 1;
            }
            text[length] = byte;
            length += 1;
            at += 1;
        }
        each = each->next;
    }
    text[length] = '"';
    struct word *made = copy_word(place);
    made->kind = TEXT;
    made->text = text;
    made->length = length + 1;
    return made;
}

// One word of two: `##`.
struct word *paste(struct word *one, struct word *other) {
    struct file *outer = file;
    long length = one->length + other->length;
    char *text = joined(one->text, one->length, other->text, other->length);
    text = joined(text, length, "\n", 1);
    open_text(one->file->name, text)->line = one->line;
    struct word *made = cut_word(1);
    file = outer;
    if (made == 0 || made->length != length)
        refuse(one, "## that makes no word", one->name);
    made->file = one->file;
    made->space = one->space;
    made->begin = 0;
    made->hidden = both_hidden(one->hidden, other->hidden);
    return made;
}

// What a body's word stands for: copies of itself, of an argument's words, or of those expanded.
struct word *stands_for(struct word *word, struct argument *arguments, long expanded) {
    if (word->kind == PARAMETER) {
        struct argument *argument = argument_at(arguments, word->value);
        if (expanded)
            return copy_words(expanded_argument(argument));
        return copy_words(argument->words);
    }
    return copy_word(word);
}

// Appends words; the first of them is pasted to the row's last where `pasted` is set.
void append_all(struct row *row, struct word *words, long pasted) {
    if (pasted && words != 0 && row->last != 0) {
        struct word *made = paste(row->last, words);
        struct word *each = row->first;
        if (each == row->last) {
            row->first = 0;
            row->last = 0;
        } else {
            while (each->next != row->last)
                each = each->next;
            row->last = each;
        }
        append(row, made);
        words = words->next;
    }
    while (words != 0) {
        struct word *next = words->next;
        words->next = 0;
        append(row, words);
        words = next;
    }
}

// The words that a body's operands of `##` make, in `row`. Gives the last operand.
struct word *paste_operands(struct row *row, struct word *word, struct argument *arguments) {
    append_all(row, stands_for(word, arguments, 0), 0);
    while (is_mark(word->next, PASTE)) {
        word = word->next->next;
        append_all(row, stands_for(word, arguments, 0), 1);
    }
    return word;
}

// The words that a macro's call stands for.
struct row *expansion(struct word *call, struct macro *macro, struct argument *arguments) {
    struct row *row = new_row();
    struct hidden *hidden = with_name(call->hidden, macro->name);
    struct word *word = macro->body;
    while (word != 0) {
        struct word *made = 0;
        long space = word->space;
        if (is_mark(word->next, PASTE)) {
            struct row *pasted = new_row();
            word = paste_operands(pasted, word, arguments);
            made = pasted->first;
        } else if (is_mark(word, '#') && macro->has_arguments) {
            word = word->next;
            made = as_text(word, argument_at(arguments, word->value)->words);
        } else {
            made = stands_for(word, arguments, 1);
        }
        if (made != 0)
            made->space = space;
        append_all(row, made, 0);
        word = word->next;
    }
    word = row->first;
    while (word != 0) {
        word->hidden = both_hidden(word->hidden, hidden);
        word->file = call->file;
        word->line = call->line;
        word = word->next;
    }
    if (row->first != 0) {
        row->first->space = call->space;
        row->first->begin = call->begin;
    }
    return row;
}

// The text of a number, without a sign.
char *decimal(long value) {
    char *digits = take(24);
    long at = 23;
    while (value > 9) {
        at -= 1;
        digits[at] = '0' + value % 10;
        value = value / 10;
    }
    digits[at - 1] = '0' + value;
    return digits + at - 1;
}

// __LINE__ and __FILE__ become what they stand for; 0 for any other name. What a day or an hour changes is refused.
struct word *of_place(struct word *word) {
    if (word->name == name_date || word->name == name_time)
        refuse(word, "the name", word->name);
    if (word->name != name_line && word->name != name_file)
        return 0;
    struct word *made = copy_word(word);
    made->begin = word->begin;
    made->kind = NUMBER;
    made->text = decimal(word->line);
    if (word->name == name_file) {
        made->kind = TEXT;
        made->text = joined("\"", 1, joined(word->file->name, length_of(word->file->name), "\"", 1), length_of(word->file->name) + 1);
    }
    made->length = length_of(made->text);
    return made;
}

// Expands a name, if a macro of that name is called. Its words are then those to come.
long expand(struct word *word) {
    struct macro *macro = word->name->macro;
    if (macro == 0 || is_hidden(word->hidden, word->name))
        return 0;
    struct argument *arguments = 0;
    if (macro->has_arguments) {
        struct word *next = raw_word();
        if (!is_mark(next, '(')) {
            if (next->kind != END) {
                next->next = pending;
                pending = next;
            }
            return 0;
        }
        arguments = take_arguments(word, macro);
    }
    put_before(expansion(word, macro, arguments));
    return 1;
}

// The next word with all macros expanded.
struct word *expanded_word(void) {
    while (1) {
        struct word *word = raw_word();
        if (word->kind != NAME)
            return word;
        if (!expand(word)) {
            struct word *made = of_place(word);
            if (made != 0)
                return made;
            return word;
        }
    }
}

// ---- definitions

// The parameters of a macro, whose `(` was taken.
void read_parameters(struct macro *macro) {
    struct row *row = new_row();
    struct word *word = cut_word(1);
    while (word != 0 && !is_mark(word, ')')) {
        if (is_mark(word, ELLIPSIS))
            refuse(word, "a variadic macro:", macro->name);
        if (word->kind != NAME)
            refuse(word, "a macro's parameter that is no name:", macro->name);
        append(row, word);
        macro->count += 1;
        word = cut_word(1);
        if (is_mark(word, ','))
            word = cut_word(1);
        else if (!is_mark(word, ')'))
            refuse_here("a macro's parameters without end");
    }
    if (word == 0)
        refuse_here("a macro's parameters without end");
    macro->has_arguments = 1;
    macro->parameters = row->first;
}

// Makes a name in a body a parameter, if it is one.
void find_parameter(struct macro *macro, struct word *word) {
    struct word *parameter = macro->parameters;
    long number = 0;
    while (parameter != 0) {
        if (word->kind == NAME && parameter->name == word->name) {
            word->kind = PARAMETER;
            word->value = number;
        }
        parameter = parameter->next;
        number += 1;
    }
}

void read_body(struct macro *macro) {
    struct row *row = new_row();
    struct word *word = cut_word(1);
    while (word != 0) {
        find_parameter(macro, word);
        if (macro->has_arguments && is_mark(row->last, '#') && word->kind != PARAMETER)
            refuse(word, "# before no parameter in the macro", macro->name);
        if (is_mark(word, PASTE) && row->last == 0)
            refuse(word, "## at an end of the macro", macro->name);
        append(row, word);
        word = cut_word(1);
    }
    if (is_mark(row->last, PASTE) || (macro->has_arguments && is_mark(row->last, '#')))
        refuse(row->last, "# or ## at the end of the macro", macro->name);
    macro->body = row->first;
}

long same_words(struct word *one, struct word *other) {
    while (one != 0 && other != 0) {
        if (one->length != other->length || one->kind != other->kind || !same_bytes(one->text, other->text, one->length))
            return 0;
        one = one->next;
        other = other->next;
    }
    return one == other;
}

struct name *directive_name(void) {
    struct word *word = cut_word(1);
    if (word == 0 || word->kind != NAME)
        refuse_here("a directive without its name");
    return word->name;
}

void define(void) {
    struct macro *macro = (struct macro *)take(sizeof(struct macro));
    macro->name = directive_name();
    struct macro *before = macro->name->macro;
    if (*file->at == '(') {
        cut_word(1);
        read_parameters(macro);
    }
    read_body(macro);
    if (before != 0 && (before->has_arguments != macro->has_arguments || !same_words(before->parameters, macro->parameters)
                        || !same_words(before->body, macro->body)))
        refuse_here("another definition of a macro");
    macro->next = macros;
    macros = macro;
    macro->name->macro = macro;
}

// Takes away all macros, at a unit's end.
void forget_macros(void) {
    while (macros != 0) {
        macros->name->macro = 0;
        macros = macros->next;
    }
}
