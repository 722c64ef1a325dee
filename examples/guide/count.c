// count SOURCE: prints how many lines and bytes a file has. Its status is 2 where the file cannot be read.

#include <stdio.h>

int main(int count, char **words) {
    FILE *file = count == 2 ? fopen(words[1], "r") : NULL;
    if (file == NULL)
        return 2;
    long lines = 0;
    long bytes = 0;
    for (int byte = getc(file); byte != EOF; byte = getc(file)) {
        bytes += 1;
        lines += byte == '\n';
    }
    printf("%ld lines, %ld bytes\n", lines, bytes);
    return 0;
}
