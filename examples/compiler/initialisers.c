// Initialisers: what stands behind `=` becomes a row of items, each of them a value for one place of the object. They are then put into the
// data, or stored by the code.

// A value for what lies at an offset of the object: a node, or the bytes of a text.
struct item {
    struct item *next;
    struct type *type;
    struct node *node;
    char *text;
    long length;
    long offset;
    long first;
    long width;
};

struct item *items;
struct item *last_item;
// An expression that was read before it was known whose value it is, or 0.
struct node *ready;
// How many elements the last list of an array had, or the last text for one.
long elements;

void initialise(struct type *type, long offset);

struct item *add_item(struct type *type, long offset) {
    struct item *made = (struct item *)take(sizeof(struct item));
    made->type = type;
    made->offset = offset;
    if (items == 0)
        items = made;
    else
        last_item->next = made;
    last_item = made;
    return made;
}

long is_text_array(struct type *type) { return type->kind == ARRAY && (type->of->kind == CHAR || type->of->kind == SIGNED_CHAR); }

// A text for an array of char. Its zero byte may have no room.
void initialise_text(struct type *type, long offset) {
    char *text = take_text();
    elements = text_length;
    if (type->count != UNKNOWN && text_length > type->count) {
        refuse_unless(text_length - 1 == type->count, "a text that is longer than its array");
        text_length -= 1;
    }
    struct item *made = add_item(type, offset);
    made->text = text;
    made->length = text_length;
}

struct node *ready_or_next(void) {
    struct node *node = ready;
    ready = 0;
    if (node == 0)
        return assignment_expression();
    return node;
}

void initialise_scalar(struct type *type, long offset) {
    struct node *node = ready_or_next();
    add_item(type, offset)->node = given(node, type);
}

// Does another value of the list follow? In braces a comma may stand at the end; without, the comma before a `}` is that of the outer list.
long another(long braced) {
    if (sign != ',')
        return 0;
    if (!braced && following_sign() == '}')
        return 0;
    if (braced) {
        advance();
        return sign != '}';
    }
    return 1;
}

void refuse_designator(void) {
    if (sign == '.' || sign == '[')
        refuse(word, "a designator", 0);
}

void initialise_array(struct type *type, long offset, long braced) {
    long at = 0;
    long more = 1;
    while (more) {
        refuse_unless(at < type->count, "more values than the array has elements");
        refuse_designator();
        initialise(type->of, offset + at * type->of->size);
        at += 1;
        more = (braced || at < type->count) && another(braced);
        if (more && !braced)
            advance();
    }
    elements = at;
}

void initialise_members(struct type *type, long offset, long braced) {
    struct member *member = type->members;
    long more = 1;
    while (more) {
        refuse_unless(member != 0, "more values than the structure has members");
        refuse_designator();
        initialise(member->type, offset + member->offset);
        if (member->width != 0) {
            last_item->first = member->first;
            last_item->width = member->width;
        }
        member = member->next;
        if (type->kind == UNION)
            member = 0;
        more = (braced || member != 0) && another(braced);
        if (more && !braced)
            advance();
    }
}

void initialise_list(struct type *type, long offset, long braced) {
    if (type->kind == ARRAY)
        initialise_array(type, offset, braced);
    else
        initialise_members(type, offset, braced);
}

void initialise_braced(struct type *type, long offset) {
    go_deeper();
    advance();
    refuse_unless(sign != '}', "an initialiser without values");
    if (is_text_array(type) && sign == TEXT) {
        initialise_text(type, offset);
        taken(',');
    } else if (type->kind == ARRAY || is_structure(type)) {
        refuse_unless(type->kind == ARRAY || type->size != UNKNOWN, "an object of a type that is not known");
        initialise_list(type, offset, 1);
    } else {
        initialise(type, offset);
        taken(',');
    }
    expect('}', "}");
    nesting -= 1;
}

// Takes the values of an object. `items` gets them.
void initialise(struct type *type, long offset) {
    if (ready == 0 && sign == '{') {
        initialise_braced(type, offset);
    } else if (ready == 0 && is_text_array(type) && sign == TEXT) {
        initialise_text(type, offset);
    } else if (type->kind == ARRAY || is_structure(type)) {
        if (ready == 0 && sign != TEXT)
            ready = assignment_expression();
        if (ready != 0 && ready->type == type && is_structure(type))
            add_item(type, offset)->node = ready_or_next();
        else
            initialise_list(type, offset, 0);
    } else {
        initialise_scalar(type, offset);
    }
}

// Takes an object's initialiser, behind `=`, and gives its type, in which an unknown count is known now.
struct type *take_initialiser(struct type *type) {
    items = 0;
    last_item = 0;
    ready = 0;
    refuse_unless(sign == '{' || type->kind != ARRAY || (is_text_array(type) && sign == TEXT), "an array's initialiser without braces");
    if (is_structure(type) && sign != '{')
        initialise_scalar(type, 0);
    else
        initialise(type, 0);
    if (type->kind == ARRAY && type->count == UNKNOWN)
        return array_of(word, type->of, elements);
    size_of(word, type);
    return type;
}

// ---- where the values go

void put_bits(struct item *item, long address) {
    long bit = 1;
    long mask = (bit << item->width) - 1;
    char *to = data_at(address);
    long size = item->type->size;
    while (size > 0) {
        size -= 1;
        long shift = size * 8;
        to[size] = to[size] | ((((item->node->value & mask) << item->first) >> shift) & 255);
    }
}

// Puts the items into the data, where the object stands.
void put_items(long address) {
    struct item *item = items;
    while (item != 0) {
        struct node *node = item->node;
        long place = address + item->offset;
        if (item->text != 0) {
            copy_bytes(data_at(place), item->text, item->length);
        } else if (node->kind == ENTRY && node->type->size == 8) {
            add_use(node->symbol, IN_DATA, place, 0);
        } else {
            refuse_unless(node->kind == FOLDED, "an initialiser that is not constant");
            if (item->width != 0)
                put_bits(item, place);
            else
                put_number(data_at(place), node->value, item->type->size);
        }
        item = item->next;
    }
}

// Stores a text from the data into the frame.
void store_text(struct item *item, long place) {
    struct type *bytes = new_type(STRUCT, item->length, 1);
    struct node *text = text_node(item->text, item->length);
    value(text->left, 10);
    value(frame_address(place, bytes), 11);
    copy_structure(bytes);
}

// Stores the items into an object of the frame. One of several parts is set to 0 before.
void store_items(struct type *type, long place) {
    struct item *item = items;
    long whole = item->next == 0 && item->text == 0 && item->type == type;
    if (!whole)
        clear(frame_address(place, type), rounded(type->size, 8));
    while (item != 0) {
        if (item->text != 0) {
            store_text(item, place + item->offset);
        } else {
            struct node *to = at(frame_address(place + item->offset, item->type), item->type);
            to->first = item->first;
            to->width = item->width;
            value(new_node(ASSIGNED, to->type, to, item->node), 10);
        }
        item = item->next;
    }
}
