// begin's words, the heap, a status.
char name[100];
char buffer[64];
long begin(long *stack) {
    long count = *stack;
    char **words = (char **)(stack + 1);
    number(count);
    say(words[1]); say(" "); say(words[2]); say(" "); number(words[3] == 0); line();
    long here = system_call(BRK, 0, 0, 0, 0);
    long more = system_call(BRK, here + 5000, 0, 0, 0);
    number(more - here); char *heap = (char *)here; heap[4999] = 9; number(heap[4999]); number(heap[0]); line();
    number(system_call(56, -100, (long)"no such file", 0, 0)); number(system_call(57, 77, 0, 0, 0)); number(system_call(READ, 0, (long)buffer, 64, 0)); line();
    if (count == 3) system_call(EXIT, 42, 0, 0, 0);
    say("no");
    return 1;
}
