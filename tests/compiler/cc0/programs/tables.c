// A longer program: a table of names by hashing, sorting, and a calculator of texts.
enum { ROWS = 64, MOST = 200 };
struct name { struct name *next; char *text; long length; long count; };
struct name *rows[ROWS];
struct name *sorted[MOST];
long names;
char memory[50000];
long used;
char *at;
char *take(long size) { char *one = memory + used; used += (size + 7) & ~7; return one; }
long hash(char *text, long length) { long sum = 0; long i = 0; while (i < length) { sum = sum * 31 + text[i]; i += 1; } return sum & (ROWS - 1); }
long same(char *one, char *other, long length) { long i = 0; while (i < length && one[i] == other[i]) i += 1; return i == length; }
struct name *find(char *text, long length) {
    long row = hash(text, length);
    struct name *one = rows[row];
    while (one && !(one->length == length && same(one->text, text, length))) one = one->next;
    if (one == 0) {
        one = (struct name *)take(sizeof(struct name));
        one->text = text; one->length = length; one->next = rows[row]; one->count = 0; rows[row] = one; sorted[names] = one; names += 1;
    }
    return one;
}
long is_letter(long one) { return one >= 'a' && one <= 'z'; }
void count(char *text) {
    while (*text != 0) {
        if (!is_letter(*text)) { text += 1; continue; }
        char *start = text;
        while (is_letter(*text)) text += 1;
        struct name *one = find(start, text - start);
        one->count += 1;
    }
}
long before(struct name *one, struct name *other) {
    if (one->count != other->count) return one->count > other->count;
    long i = 0;
    while (i < one->length && i < other->length) { if (one->text[i] != other->text[i]) return one->text[i] < other->text[i]; i += 1; }
    return one->length < other->length;
}
void sort(void) {
    long i = 1;
    while (i < names) {
        struct name *kept = sorted[i]; long j = i;
        while (j > 0 && before(kept, sorted[j - 1])) { sorted[j] = sorted[j - 1]; j -= 1; }
        sorted[j] = kept; i += 1;
    }
}
long sum(void);
long factor(void) {
    long value = 0;
    if (*at == '-') { at += 1; return -factor(); }
    if (*at == '(') { at += 1; value = sum(); at += 1; return value; }
    while (*at >= '0' && *at <= '9') { value = value * 10 + *at - '0'; at += 1; }
    return value;
}
long product(void) {
    long value = factor();
    while (*at == '*' || *at == '/') { long sign = *at; at += 1; if (sign == '*') value *= factor(); else value /= factor(); }
    return value;
}
long sum(void) {
    long value = product();
    while (*at == '+' || *at == '-') { long sign = *at; at += 1; if (sign == '+') value += product(); else value -= product(); }
    return value;
}
long calculate(char *text) { at = text; return sum(); }
long begin(long *stack) {
    count("the quick brown fox jumps over the lazy dog and the fox is quick and the dog is lazy and so on and on");
    sort();
    long i = 0;
    while (i < names) { system_call(WRITE, 1, (long)sorted[i]->text, sorted[i]->length, 0); say(" "); number(sorted[i]->count); i += 1; }
    line();
    number(calculate("1+2*3")); number(calculate("(1+2)*3")); number(calculate("-(4-10)/-2*7")); number(calculate("100000*100000*100-1")); number(calculate("2*(3+4)*(5-6)-7/2"));
    line();
    return 0;
}
