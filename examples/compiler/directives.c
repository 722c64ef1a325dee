// Directives: conditions, files that are included, and the words of the files without them.

enum { DEFINE = 1, UNDEF, INCLUDE, IF, IFDEF, IFNDEF, ELIF, ELSE, ENDIF, LINE, ERROR, PRAGMA, WARNING, };

// So many files may include one another.
enum { MOST_INCLUDED = 200, };

// A group between #if and #endif. `taken`: one of its branches was taken.
struct group {
    struct group *outer;
    struct word *place;
    long taken;
    long has_else;
};

// A folder in which files are sought.
struct folder {
    struct folder *next;
    char *name;
};

struct folder *folders;
struct folder *last_folder;
struct name *name_defined;
struct word *condition_word;

void set_directive(char *text, long directive) { name_of(text)->directive = directive; }

void set_directives(void) {
    set_directive("define", DEFINE);
    set_directive("undef", UNDEF);
    set_directive("include", INCLUDE);
    set_directive("if", IF);
    set_directive("ifdef", IFDEF);
    set_directive("ifndef", IFNDEF);
    set_directive("elif", ELIF);
    set_directive("else", ELSE);
    set_directive("endif", ENDIF);
    set_directive("line", LINE);
    set_directive("error", ERROR);
    set_directive("pragma", PRAGMA);
    set_directive("warning", WARNING);
    name_defined = name_of("defined");
    name_line = name_of("__LINE__");
    name_file = name_of("__FILE__");
    name_date = name_of("__DATE__");
    name_time = name_of("__TIME__");
}

// ---- conditions

long condition_value(long level);

void next_in_condition(void) { condition_word = expanded_word(); }

// The level at which a mark binds in a condition: the higher, the closer. 0 for none.
long condition_level(struct word *word) {
    if (word->kind != MARK)
        return 0;
    long mark = word->value;
    if (mark == OR_ELSE)
        return 1;
    if (mark == AND_ALSO)
        return 2;
    if (mark == EQUAL || mark == NOT_EQUAL)
        return 3;
    if (mark == '<' || mark == '>' || mark == LESS_EQUAL || mark == GREATER_EQUAL)
        return 4;
    if (mark == '+' || mark == '-')
        return 5;
    if (mark == '*')
        return 6;
    return 0;
}

// What stands between a mark and the rest: a number, or what is in parentheses, of which `word` is the first.
long condition_primary(struct word *word) {
    if (is_mark(word, '(')) {
        long value = condition_value(1);
        if (!is_mark(condition_word, ')'))
            refuse(word, "a condition without its )", 0);
        next_in_condition();
        return value;
    }
    if (word->kind == NAME)
        return 0;
    if (word->kind != NUMBER)
        refuse(word, "in a condition of the preprocessor something that is no number", 0);
    if (read_number(word) & WITH_U)
        refuse(word, "an unsigned number in a condition of the preprocessor", 0);
    if (word->value < 0)
        refuse(word, "a number above 2^63 - 1 in a condition of the preprocessor", 0);
    return word->value;
}

long condition_operand(void) {
    struct word *word = condition_word;
    long value = 0;
    go_deeper();
    next_in_condition();
    if (is_mark(word, '!'))
        value = !condition_operand();
    else if (is_mark(word, '-'))
        value = -condition_operand();
    else
        value = condition_primary(word);
    nesting -= 1;
    return value;
}

long condition_result(long mark, long left, long right) {
    if (mark == OR_ELSE)
        return left != 0 || right != 0;
    if (mark == AND_ALSO)
        return left != 0 && right != 0;
    if (mark == EQUAL)
        return left == right;
    if (mark == NOT_EQUAL)
        return left != right;
    if (mark == '<')
        return left < right;
    if (mark == '>')
        return left > right;
    if (mark == LESS_EQUAL)
        return left <= right;
    if (mark == GREATER_EQUAL)
        return left >= right;
    if (mark == '+')
        return left + right;
    if (mark == '-')
        return left - right;
    return left * right;
}

long condition_value(long level) {
    long value = condition_operand();
    long found = condition_level(condition_word);
    while (found >= level && found != 0) {
        long mark = condition_word->value;
        next_in_condition();
        value = condition_result(mark, value, condition_value(found + 1));
        found = condition_level(condition_word);
    }
    return value;
}

// `defined NAME` or `defined (NAME)`, of which the first word was taken, as a number.
struct word *read_defined(struct word *place) {
    struct word *word = cut_word(1);
    long closed = is_mark(word, '(');
    if (closed)
        word = cut_word(1);
    if (word == 0 || word->kind != NAME)
        refuse(place, "defined without a name", 0);
    long is_defined = word->name->macro != 0;
    if (closed && !is_mark(cut_word(1), ')'))
        refuse(place, "defined without its )", 0);
    struct word *made = new_word(NUMBER);
    made->text = "0";
    if (is_defined)
        made->text = "1";
    made->length = 1;
    return made;
}

// The condition that stands up to the line's end.
long condition_of_line(void) {
    struct word *before = pending;
    struct row *row = new_row();
    struct word *word = cut_word(1);
    while (word != 0) {
        if (word->kind == NAME && word->name == name_defined)
            word = read_defined(word);
        append(row, word);
        word = cut_word(1);
    }
    append(row, new_word(END));
    pending = row->first;
    next_in_condition();
    long value = condition_value(1);
    if (condition_word->kind != END)
        refuse(condition_word, "in a condition of the preprocessor", condition_word->name);
    pending = before;
    return value;
}

// ---- groups

void end_of_line(void) {
    struct word *word = cut_word(1);
    if (word != 0)
        refuse(word, "words behind a directive", word->name);
}

void open_group(struct word *place, long taken) {
    struct group *made = (struct group *)take(sizeof(struct group));
    made->outer = file->groups;
    made->place = place;
    made->taken = taken;
    file->groups = made;
}

// Goes to the end of a line that is skipped; comments that begin in it are gone past.
void skip_line(void) {
    char *at = file->at;
    while (*at != '\n') {
        if (*at == '/' && at[1] == '*')
            at = over_comment(at);
        else if (*at == '/' && at[1] == '/')
            at = over_line(at);
        else if (*at == '"' || *at == '\'')
            at = over_quoted(at);
        else
            at += 1;
    }
    file->at = at;
}

// The directive at the begin of a line, or 0. In a line that is skipped, so nothing else is refused.
long directive_of_line(void) {
    over_blanks(1);
    if (*file->at != '#')
        return 0;
    file->at += 1;
    over_blanks(1);
    long first = *file->at;
    if (class_of[first] != IN_NAME)
        return 0;
    return cut_word(1)->name->directive;
}

// #elif, #else or #endif of the innermost group. Is what follows taken?
long other_branch(long directive, struct word *place) {
    struct group *group = file->groups;
    if (group == 0)
        refuse(place, "a directive without its #if", 0);
    if (directive == ENDIF) {
        end_of_line();
        file->groups = group->outer;
        return 1;
    }
    if (group->has_else)
        refuse(place, "a directive behind #else", 0);
    if (directive == ELSE) {
        end_of_line();
        group->has_else = 1;
    }
    if (group->taken)
        return 0;
    long taken = 1;
    if (directive == ELIF)
        taken = condition_of_line() != 0;
    group->taken = taken;
    return taken;
}

// Skips lines up to a branch of the innermost group that is taken, or its end.
void skip_group(struct word *place) {
    long depth = 0;
    while (1) {
        skip_line();
        if (file->at[1] == 0)
            refuse(place, "a directive without its #endif", 0);
        file->at += 1;
        file->line += 1;
        long directive = directive_of_line();
        if (directive == IF || directive == IFDEF || directive == IFNDEF)
            depth += 1;
        else if (depth > 0 && directive == ENDIF)
            depth -= 1;
        else if (depth == 0 && (directive == ELIF || directive == ELSE || directive == ENDIF)
                 && other_branch(directive, new_word(END)))
            return;
    }
}

// Begins a group behind a condition, of which the line ends here.
void begin_group(struct word *place, long taken) {
    end_of_line();
    open_group(place, taken);
    if (!taken)
        skip_group(place);
}

// ---- files

void add_folder(char *name) {
    struct folder *made = (struct folder *)take(sizeof(struct folder));
    long length = length_of(name);
    made->name = name;
    if (length > 0 && name[length - 1] != '/')
        made->name = joined(name, length, "/", 1);
    if (folders == 0)
        folders = made;
    else
        last_folder->next = made;
    last_folder = made;
}

// Opens a file of that name in that folder, if it is there.
long open_in(char *folder, long length, char *name) {
    char *path = joined(folder, length, name, length_of(name));
    char *text = read_file(path);
    if (text == 0)
        return 0;
    open_text(path, text);
    return 1;
}

void include(struct word *place) {
    over_blanks(1);
    long last = *file->at;
    if (last == '<')
        last = '>';
    else if (last != '"')
        refuse(place, "#include without the name of a file", 0);
    char *from = file->at + 1;
    char *at = from;
    while (*at != last && *at != '\n')
        at += 1;
    if (*at != last)
        refuse(place, "#include without the name of a file", 0);
    char *name = joined(from, at - from, "", 0);
    file->at = at + 1;
    end_of_line();
    if (file->depth >= MOST_INCLUDED)
        refuse(place, "a file that more than 200 others include:", name_of(name));
    if (last == '"') {
        long length = length_of(file->name);
        while (length > 0 && file->name[length - 1] != '/')
            length -= 1;
        if (open_in(file->name, length, name))
            return;
    }
    struct folder *folder = folders;
    while (folder != 0) {
        if (open_in(folder->name, length_of(folder->name), name))
            return;
        folder = folder->next;
    }
    refuse(place, "a file that is not there:", name_of(name));
}

// Carries out a directive, whose # was taken.
void directive(struct word *place) {
    struct word *word = cut_word(1);
    if (word == 0)
        return;
    long which = 0;
    if (word->kind == NAME)
        which = word->name->directive;
    if (which == DEFINE)
        define();
    else if (which == UNDEF) {
        directive_name()->macro = 0;
        end_of_line();
    } else if (which == INCLUDE)
        include(place);
    else if (which == IF)
        begin_group(place, condition_of_line() != 0);
    else if (which == IFDEF)
        begin_group(place, directive_name()->macro != 0);
    else if (which == IFNDEF)
        begin_group(place, directive_name()->macro == 0);
    else if (which == ELIF || which == ELSE) {
        if (file->groups == 0)
            refuse(place, "a directive without its #if", 0);
        file->groups->taken = 1;
        skip_line();
        if (file->groups->has_else)
            refuse(place, "a directive behind #else", 0);
        file->groups->has_else = which == ELSE;
        skip_group(place);
    } else if (which == ENDIF)
        other_branch(ENDIF, place);
    else
        refuse(place, "the directive", word->name);
}

// The next word of the files: directives are carried out, and behind an included file its outer one goes on. END at the end.
struct word *file_word(void) {
    while (1) {
        struct word *word = cut_word(0);
        if (word == 0 && file->groups != 0)
            refuse(file->groups->place, "a directive without its #endif", 0);
        if (word == 0 && file->outer == 0)
            return new_word(END);
        if (word == 0)
            file = file->outer;
        else if (word->begin && is_mark(word, '#'))
            directive(word);
        else
            return word;
    }
}
