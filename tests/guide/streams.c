// The three streams: what goes where, in order, and what is there at an exit.
#include <stdio.h>
#include <unistd.h>

int main(void) {
    printf("%d %s %c %5.2f %x\n", -5, "text", 'c', 2.5, 255u);
    fprintf(stderr, "to the other stream\n");
    fputs("no line's end", stderr);
    int byte = getchar();
    printf("input: %d, at its end: %d\n", byte, feof(stdin) != 0);
    int number = 0;
    printf("read %d\n", (int)read(0, &number, 1));
    printf("items %d\n", scanf("%d", &number));
    for (int i = 0; i < 3000; i += 1)
        printf("%d ", i * i);
    putchar('\n');
    fflush(stdout);
    write(1, "by its number\n", 14);
    printf("terminals: %d %d %d\n", isatty(0), isatty(1), isatty(2));
    printf("seek %d\n", (int)lseek(1, 0, SEEK_CUR));
    fputs("and no line's end", stdout);
    return 0;
}
