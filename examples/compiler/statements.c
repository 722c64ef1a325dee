// Statements: each is compiled as it is read. Jumps whose target is not known yet are kept in chains.

// A case of a switch: the value, and where its statements are in the code.
struct choice_case {
    struct choice_case *next;
    long value;
    long place;
};

struct switch_cases {
    struct switch_cases *outer;
    struct type *type;
    struct choice_case *cases;
    long count;
    long other;
};

// A label of a function: its place, or 0, and the jumps to it before it is known.
struct label {
    struct label *next;
    struct word *first_use;
    long place;
    long chain;
};

struct switch_cases *present_switch;
struct label *labels;
long return_chain;
// The jumps of break and continue, and in how many statements these may stand.
long break_chain;
long continue_chain;
long breaks;
long continues;

void statement(void);
void local_declaration(void);

// The code of an expression whose value is not wanted.
void effect(struct node *node) {
    if (node->kind == SEQUENCE) {
        effect(node->left);
        effect(node->right);
        return;
    }
    if (node->kind == STEPPED) {
        node = copy_node(node, node->type);
        node->right = 0;
    }
    value(node, 10);
}

void expression_statement(void) {
    long before = frame_now;
    effect(as_value(expression()));
    frame_now = before;
}

// Statements and declarations up to `}`, whose `{` was taken.
void block_items(void) {
    while (sign != '}') {
        if (begins_type() && following_sign() != ':')
            local_declaration();
        else
            statement();
    }
    advance();
}

void block(void) {
    struct binding *before = bindings;
    long frame = frame_now;
    open_scope();
    block_items();
    close_scope(before);
    frame_now = frame;
}

struct node *condition_in_parentheses(void) {
    expect('(', "(");
    struct node *node = truth(expression());
    expect(')', ")");
    return node;
}

// ---- conditions and loops

void if_statement(void) {
    advance();
    long no = jump_if(condition_in_parentheses(), 0, 0);
    statement();
    if (sign != KEY_ELSE) {
        arrive(no, code_length);
        return;
    }
    advance();
    long over = jump(0);
    arrive(no, code_length);
    statement();
    arrive(over, code_length);
}

// The body of a loop. Gives the chain of its breaks; `ended_continues` is then that of its continues.
long ended_continues;

long loop_body(void) {
    long outer_breaks = break_chain;
    long outer_continues = continue_chain;
    break_chain = 0;
    continue_chain = 0;
    breaks += 1;
    continues += 1;
    statement();
    breaks -= 1;
    continues -= 1;
    long chain = break_chain;
    ended_continues = continue_chain;
    break_chain = outer_breaks;
    continue_chain = outer_continues;
    return chain;
}

void while_statement(void) {
    advance();
    long begin_place = code_length;
    long out = jump_if(condition_in_parentheses(), 0, 0);
    long chain = loop_body();
    arrive(ended_continues, begin_place);
    jump_to(begin_place);
    arrive(out, code_length);
    arrive(chain, code_length);
}

void do_statement(void) {
    advance();
    long begin_place = code_length;
    long chain = loop_body();
    arrive(ended_continues, code_length);
    expect(KEY_WHILE, "while");
    struct node *condition = condition_in_parentheses();
    expect(';', ";");
    arrive(jump_if(condition, 1, 0), begin_place);
    arrive(chain, code_length);
}

void for_statement(void) {
    struct binding *before = bindings;
    struct node *condition = 0;
    struct node *last = 0;
    long frame = frame_now;
    long out = 0;
    open_scope();
    advance();
    expect('(', "(");
    if (begins_type()) {
        local_declaration();
    } else {
        if (sign != ';')
            expression_statement();
        expect(';', ";");
    }
    long begin_place = code_length;
    if (sign != ';')
        condition = truth(expression());
    expect(';', ";");
    if (condition != 0)
        out = jump_if(condition, 0, 0);
    if (sign != ')')
        last = as_value(expression());
    expect(')', ")");
    long chain = loop_body();
    arrive(ended_continues, code_length);
    if (last != 0)
        effect(last);
    jump_to(begin_place);
    arrive(out, code_length);
    arrive(chain, code_length);
    close_scope(before);
    frame_now = frame;
}

// ---- switch

// Is a case's value below another, in the type of the switch?
long is_below(long one, long other) {
    if (is_unsigned(present_switch->type))
        return below(one, other);
    return one < other;
}

// Puts a case into the row of its switch, which is kept in order.
void add_case(long case_value) {
    struct choice_case *made = (struct choice_case *)take(sizeof(struct choice_case));
    made->value = canonical(case_value, present_switch->type);
    made->place = code_length;
    present_switch->count += 1;
    struct choice_case *before = 0;
    struct choice_case *next = present_switch->cases;
    while (next != 0 && is_below(next->value, made->value)) {
        before = next;
        next = next->next;
    }
    if (next != 0 && next->value == made->value)
        refuse(word, "a case that stands twice", 0);
    made->next = next;
    if (before == 0)
        present_switch->cases = made;
    else
        before->next = made;
}

void case_label(void) {
    if (present_switch == 0)
        refuse(word, "a case outside of a switch", 0);
    if (taken(KEY_DEFAULT)) {
        if (present_switch->other != 0)
            refuse(word, "default twice", 0);
        present_switch->other = code_length;
    } else {
        advance();
        long case_value = constant_of(present_switch->type);
        if (sign == ELLIPSIS)
            refuse(word, "a range of cases", 0);
        add_case(case_value);
    }
    expect(':', ":");
}

// Jumps to the case whose value is in x10: among many by halves.
void seek_case(struct choice_case *first, long count, long other) {
    struct choice_case *middle = first;
    if (count > 4) {
        long at = 0;
        while (at < count / 2) {
            middle = middle->next;
            at += 1;
        }
        load_number(middle->value, 11);
        if (is_unsigned(present_switch->type))
            skip(BGEU, 10, 11);
        else
            skip(BGE, 10, 11);
        long lower = jump(0);
        seek_case(middle, count - count / 2, other);
        arrive(lower, code_length);
        seek_case(first, count / 2, other);
        return;
    }
    while (count > 0) {
        load_number(middle->value, 11);
        skip(BNE, 10, 11);
        jump_to(middle->place);
        middle = middle->next;
        count -= 1;
    }
    jump_to(other);
}

void switch_statement(void) {
    struct switch_cases *made = (struct switch_cases *)take(sizeof(struct switch_cases));
    long outer = break_chain;
    advance();
    expect('(', "(");
    struct node *node = promote(as_value(expression()));
    refuse_unless(is_integer(node->type), "a switch on something that is no integer");
    expect(')', ")");
    value(node, 10);
    long to_cases = jump(0);
    made->outer = present_switch;
    made->type = node->type;
    present_switch = made;
    break_chain = 0;
    breaks += 1;
    statement();
    breaks -= 1;
    long out = jump(break_chain);
    arrive(to_cases, code_length);
    // Without a default all others go behind the switch: to a jump of its own, as that place is not known yet.
    if (made->other == 0) {
        long over = jump(0);
        made->other = code_length;
        out = jump(out);
        arrive(over, code_length);
    }
    seek_case(made->cases, made->count, made->other);
    arrive(out, code_length);
    break_chain = outer;
    present_switch = made->outer;
}

// ---- jumps

struct label *label_of(struct word *place) {
    struct label *label = place->name->label;
    if (label == 0) {
        label = (struct label *)take(sizeof(struct label));
        label->next = labels;
        label->first_use = place;
        labels = label;
        place->name->label = label;
    }
    return label;
}

void goto_statement(void) {
    advance();
    if (sign != NAME)
        refuse_word("a label");
    struct label *label = label_of(word);
    advance();
    if (label->place != 0)
        jump_to(label->place);
    else
        label->chain = jump(label->chain);
}

void set_label(void) {
    struct label *label = label_of(word);
    if (label->place != 0)
        refuse(word, "a label that stands twice:", word->name);
    label->place = code_length;
    arrive(label->chain, code_length);
    advance();
    advance();
}

// At a function's end: each label has to stand somewhere, and means nothing behind it.
void forget_labels(void) {
    while (labels != 0) {
        if (labels->place == 0)
            refuse(labels->first_use, "a label that stands nowhere:", labels->first_use->name);
        labels->first_use->name->label = 0;
        labels = labels->next;
    }
}

void return_statement(void) {
    struct type *type = present->type->of;
    advance();
    if (sign != ';') {
        struct node *node = expression();
        if (type->kind == VOID)
            refuse_unless(node->type->kind == VOID, "a value of a function that gives none");
        node = given(node, type);
        if (is_by_address(type))
            node = stopped(type);
        value(node, 10);
    }
    return_chain = jump(return_chain);
}

void jump_statement(void) {
    if (taken(KEY_BREAK)) {
        if (breaks == 0)
            refuse(word, "break outside of a loop or switch", 0);
        break_chain = jump(break_chain);
    } else if (taken(KEY_CONTINUE)) {
        if (continues == 0)
            refuse(word, "continue outside of a loop", 0);
        continue_chain = jump(continue_chain);
    } else if (sign == KEY_GOTO) {
        goto_statement();
    } else {
        return_statement();
    }
    expect(';', ";");
}

// A statement behind its labels.
void statement_alone(void) {
    if (sign == '{') {
        advance();
        block();
    } else if (sign == KEY_IF) {
        if_statement();
    } else if (sign == KEY_WHILE) {
        while_statement();
    } else if (sign == KEY_FOR) {
        for_statement();
    } else if (sign == KEY_DO) {
        do_statement();
    } else if (sign == KEY_SWITCH) {
        switch_statement();
    } else if (sign == KEY_BREAK || sign == KEY_CONTINUE || sign == KEY_GOTO || sign == KEY_RETURN) {
        jump_statement();
    } else {
        if (sign != ';')
            expression_statement();
        expect(';', ";");
    }
}

void statement(void) {
    while (1) {
        if (sign == KEY_CASE || sign == KEY_DEFAULT)
            case_label();
        else if (sign == NAME && following_sign() == ':')
            set_label();
        else
            break;
    }
    go_deeper();
    statement_alone();
    nesting -= 1;
}
