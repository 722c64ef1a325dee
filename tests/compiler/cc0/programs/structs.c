// Structs by pointer: lists, trees, members of the same name in two structs, a struct that is named before it is known.
struct tree { struct tree *left; struct tree *right; long key; char *text; struct list *seen; };
struct list { struct list *next; long key; };
struct only { char *left; };
char heap[20000];
long used;
struct list *all;
struct list *tree; // a name of another space
char *take(long size) { char *at = heap + used; used += size; return at; }
struct list *cons(long key, struct list *next) {
    struct list *one = (struct list *)take(sizeof(struct list));
    one->key = key;
    one->next = next;
    return one;
}
struct tree *insert(struct tree *tree, long key) {
    if (tree == 0) {
        tree = (struct tree *)take(sizeof(struct tree));
        tree->key = key; tree->text = "leaf "; tree->seen = cons(key * 2, all); all = tree->seen;
        return tree;
    }
    if (key < tree->key) tree->left = insert(tree->left, key);
    else if (key > tree->key) tree->right = insert(tree->right, key);
    else tree->text = "twice ";
    return tree;
}
void show(struct tree *tree) { if (!tree) return; show(tree->left); number(tree->key); say(tree->text); number(tree->seen->key); show(tree->right); }
long begin(long *stack) {
    struct tree *root = 0; long i = 0; long key = 1;
    while (i < 40) { root = insert(root, key); key = (key * 37 + 11) % 61; i += 1; }
    insert(root, 1); show(root); line();
    struct list *one = all; long sum = 0;
    while (one != 0) { sum = sum * 3 + one->key; one = one->next; }
    number(sum); number(sizeof(struct tree)); number(sizeof(struct list)); number(sizeof(struct only)); number(sizeof(struct tree *)); line();
    struct only *only = (struct only *)take(sizeof(struct only)); only->left = "left"; say(only->left); number(only->left[1]); number((*&only)->left[0]); line();
    struct tree **place = &root->left; *place = 0; number(root->left == 0); tree = all; number(tree->key); number(tree->next->next->key); line();
    number((long)&root->seen - (long)root); number((long)&((struct tree *)heap)->right - (long)heap); line();
    return 0;
}
