// cc [-E] [-floats-stop] [-I DIR].. [-D NAME[=WORDS]].. -o OUT FILE..: makes a program of C sources, each of them a unit. With -E, puts out their
// words. -D defines a macro, as 1 where no words are given for it.

long only_words;
char *output_name;
// What every unit begins with, line by line.
char *predefined;

void add_line(char *line) {
    line = joined(line, length_of(line), "\n", 1);
    predefined = joined(predefined, length_of(predefined), line, length_of(line));
}

void predefine(void) {
    predefined = "";
    add_line("#define __STDC__ 1");
    add_line("#define __STDC_VERSION__ 199901L");
    add_line("#define __SIZE_TYPE__ unsigned long");
    add_line("#define __PTRDIFF_TYPE__ long");
    add_line("#define __WCHAR_TYPE__ int");
    add_line("#define __LP64__ 1");
    add_line("#define __ORDER_LITTLE_ENDIAN__ 1234");
    add_line("#define __ORDER_BIG_ENDIAN__ 4321");
    add_line("#define __BYTE_ORDER__ __ORDER_LITTLE_ENDIAN__");
}

// A macro as the command line defines it: NAME, or NAME=WORDS.
void define_by_word(char *word) {
    long length = 0;
    while (word[length] != 0 && word[length] != '=')
        length += 1;
    char *words = " 1";
    if (word[length] == '=')
        words = joined(" ", 1, word + length + 1, length_of(word + length + 1));
    char *line = joined("#define ", 8, word, length);
    add_line(joined(line, length_of(line), words, length_of(words)));
}

void open_unit(char *name) {
    char *text = read_file(name);
    if (text == 0)
        stop(NO_FILE, "is not there: ", name);
    file = 0;
    open_text(name, text);
    open_text("cc", joined(predefined, length_of(predefined), "\n", 1));
}

// Puts out all words of a unit, each line's in a line.
void put_words(void) {
    struct word *word = expanded_word();
    while (word->kind != END) {
        if (word->begin)
            put("\n", 1);
        else
            put(" ", 1);
        put(word->text, word->length);
        word = expanded_word();
    }
    put("\n", 1);
}

void compile(char *name) {
    open_unit(name);
    if (only_words)
        put_words();
    else
        unit();
    forget_macros();
}

void wrong_words(void) { stop(WRONG_WORDS, "cc [-E] [-floats-stop] [-I DIR].. [-D NAME[=WORDS]].. -o OUT FILE..", ""); }

// Takes the options; gives the place of the first file's name.
long read_options(char **words, long count) {
    long at = 1;
    while (at < count && *words[at] == '-') {
        char *word = words[at];
        at += 1;
        if (same_text(word, "-E")) {
            only_words = 1;
        } else if (same_text(word, "-floats-stop")) {
            floats_stop = 1;
        } else if (same_text(word, "-I") && at < count) {
            add_folder(words[at]);
            at += 1;
        } else if (same_text(word, "-D") && at < count) {
            define_by_word(words[at]);
            at += 1;
        } else if (same_text(word, "-o") && at < count) {
            output_name = words[at];
            at += 1;
        } else {
            wrong_words();
        }
    }
    return at;
}

// Linux begins here, with the address at which the count of words stands, and the words' addresses above it.
long begin(long *stack) {
    char **words = (char **)(stack + 1);
    long count = *stack;
    predefine();
    long at = read_options(words, count);
    if (at >= count || output_name == 0)
        wrong_words();
    fill_classes();
    set_directives();
    set_keywords();
    make_types();
    make_segments();
    emit_start();
    emit_jumps();
    while (at < count) {
        compile(words[at]);
        at += 1;
    }
    if (!only_words) {
        fill_uses();
        put_program();
    }
    write_output(output_name);
    return DONE;
}
