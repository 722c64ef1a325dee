// Files, by the library's functions and by the system's.
#define _GNU_SOURCE
#include <errno.h>
#include <fcntl.h>
#include <stdio.h>
#include <stdlib.h>
#include <string.h>
#include <sys/stat.h>
#include <unistd.h>

static void show(const char *name) {
    FILE *file = fopen(name, "r");
    if (file == NULL) {
        printf("%s: %s\n", name, errno == ENOENT ? "absent" : "another error");
        return;
    }
    printf("%s:", name);
    for (int byte = getc(file); byte != EOF; byte = getc(file))
        printf(byte == '\n' ? "|" : "%c", byte);
    printf("\n");
    fclose(file);
}

// What a call answered, and whether a refusal is for this cause.
static void told(const char *what, int answer, int error) {
    printf("%s %d%s\n", what, answer, answer < 0 && errno != error ? ", another error" : "");
}

static void put(const char *name, const char *mode, const char *text) {
    FILE *file = fopen(name, mode);
    if (file == NULL || fputs(text, file) == EOF || fclose(file) != 0)
        printf("%s: not written\n", name);
}

static void names(void) {
    put("one", "w", "first\nsecond\n");
    put("one", "a", "third\n");
    show("./one");
    printf("rename %d\n", rename("one", "two"));
    show("one");
    show("two");
    told("rename", rename("one", "three"), ENOENT);
    printf("rename to itself %d\n", rename("two", "./two"));
    show("two");
    put("three", "w", "of three, longer than two is\n");
    printf("rename over %d\n", rename("two", "three"));
    show("three");
    told("remove", remove("three"), 0);
    told("remove", remove("three"), ENOENT);
    told("access", access("three", F_OK), ENOENT);
    told("exclusive", close(open("exclusive", O_WRONLY | O_CREAT | O_EXCL, 0644)), 0);
    told("exclusive", open("exclusive", O_WRONLY | O_CREAT | O_EXCL, 0644), EEXIST);
    char longest[300];
    memset(longest, 'a', 299);
    longest[299] = 0;
    told("a long name", open(longest, O_RDONLY), ENAMETOOLONG);
}

static void states(void) {
    put("sized", "w", "0123456789");
    put("other", "w", "0123456789");
    struct stat named, opened, other, stream;
    FILE *file = fopen("sized", "r+");
    getc(file);
    told("stat", stat("sized", &named), 0);
    told("stat", stat("other", &other), 0);
    told("fstat", fstat(fileno(file), &opened), 0);
    told("fstat", fstat(1, &stream), 0);
    printf("sizes %d %d, a file %d, a pipe %d\n", (int)named.st_size, (int)opened.st_size, S_ISREG(named.st_mode), S_ISFIFO(stream.st_mode));
    printf("the same %d, another %d\n", named.st_dev == opened.st_dev && named.st_ino == opened.st_ino,
           !(named.st_dev == other.st_dev && named.st_ino == other.st_ino));
    printf("behind stat %c\n", getc(file));
    fclose(file);
    told("stat", stat("none", &named), ENOENT);
    told("chmod", chmod("sized", 0600), 0);
    told("chmod", chmod("none", 0600), ENOENT);
    told("access", access("sized", R_OK | W_OK), 0);
    told("fstat", fstat(77, &named), EBADF);
    told("isatty", isatty(77) - 1, EBADF);
}

static void places(void) {
    FILE *file = fopen("places", "w+");
    fputs("0123456789", file);
    fpos_t place;
    fseek(file, 3, SEEK_SET);
    fgetpos(file, &place);
    printf("at 3 %c", getc(file));
    printf(", at %ld", ftell(file));
    fsetpos(file, &place);
    printf(", again %c\n", getc(file));
    fseek(file, 12, SEEK_SET);
    putc('x', file);
    fflush(file);
    char bytes[4] = "...";
    told("pread", pread(fileno(file), bytes, 3, 5), 0);
    told("pwrite", pwrite(fileno(file), "ab", 2, 0), 0);
    printf("read %s, at %ld\n", bytes, (long)lseek(fileno(file), 0, SEEK_CUR));
    told("fsync", fsync(fileno(file)), 0);
    fclose(file);
    struct stat about;
    stat("places", &about);
    printf("%d bytes\n", (int)about.st_size);
    file = fopen("places", "r");
    file = freopen("other", "r", file);
    printf("reopened %c\n", getc(file));
    fclose(file);
}

static void temporary(void) {
    FILE *file = tmpfile();
    fputs("kept for a while", file);
    rewind(file);
    char text[40];
    printf("temporary %s\n", fgets(text, sizeof text, file));
    fclose(file);
    char name[] = "fileXXXXXX";
    int made = mkstemp(name);
    printf("mkstemp %d %d\n", made >= 0, strncmp(name, "file", 4));
    close(made);
    remove(name);
}

int main(void) {
    names();
    states();
    places();
    temporary();
    // These are open at the exit, which has to write what they hold; more than one buffer of the first.
    FILE *held = fopen("held", "w");
    for (int i = 0; i < 1000; i += 1)
        fprintf(held, "line %d\n", i);
    fputs("appended", fopen("exclusive", "a"));
    FILE *closed = fopen("closed", "w");
    fclose(closed);
    fputs("twice", fopen("closed", "w"));
    fflush(NULL);
    show("closed");
    return 0;
}
