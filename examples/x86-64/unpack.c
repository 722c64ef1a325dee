// From Debian's archive of a source to the files that a compiler is given. bzip2's own library takes out of the compression; the rest is here.
//
//     unpack bunzip2 FROM TO                     what lies in a file that bzip2 compressed
//     unpack file ARCHIVE LIST MACHINE NAME TO   the file NAME of a tar archive, with the lines changed that LIST names for MACHINE
//
// LIST has the form of ../tinycc/lines.txt. It ends with status 1, and leaves nothing, where something is not as it should be.
#include <fcntl.h>
#include <stdio.h>
#include <stdlib.h>
#include <string.h>
#include <unistd.h>
#include "bzlib.h"

enum { BLOCK = 512, NAME_BYTES = 100, SIZE_AT = 124, SIZE_BYTES = 12, KIND_AT = 156, MOST_UNPACKED = 1 << 26 };

struct text {
    char *bytes;
    unsigned length;
};

static void fail(const char *what, const char *name) {
    fprintf(stderr, "unpack: %s %s\n", what, name);
    exit(1);
}

// bzip2's library calls this where it finds itself in error.
void bz_internal_error(int number) { fail("bzip2's library is in error", ""); }

static char *room(unsigned length) {
    char *made = malloc(length + 1);
    if (made == 0)
        fail("no more memory", "");
    made[length] = 0;
    return made;
}

static void read_file(struct text *made, const char *name) {
    int descriptor = open(name, O_RDONLY);
    long length = descriptor < 0 ? -1 : lseek(descriptor, 0, SEEK_END);
    if (length < 0 || length > MOST_UNPACKED || lseek(descriptor, 0, SEEK_SET) != 0)
        fail("cannot be read:", name);
    made->length = length;
    made->bytes = room(length);
    for (long done = 0, count; done < length; done += count) {
        count = read(descriptor, made->bytes + done, length - done);
        if (count <= 0)
            fail("cannot be read:", name);
    }
    close(descriptor);
}

static void write_file(const char *name, const struct text *text) {
    FILE *file = fopen(name, "w");
    if (file == 0 || fwrite(text->bytes, 1, text->length, file) != text->length || fclose(file) != 0)
        fail("cannot be written:", name);
}

static void bunzip2(const char *from, const char *to) {
    struct text packed, made;
    read_file(&packed, from);
    made.length = MOST_UNPACKED;
    made.bytes = room(made.length);
    if (BZ2_bzBuffToBuffDecompress(made.bytes, &made.length, packed.bytes, packed.length, 0, 0) != BZ_OK)
        fail("is not compressed by bzip2, or is too long:", from);
    write_file(to, &made);
}

// ---- an archive

static unsigned octal(const char *digits, int count) {
    unsigned value = 0;
    for (int i = 0; i < count && digits[i] >= '0' && digits[i] <= '7'; i += 1)
        value = value * 8 + digits[i] - '0';
    return value;
}

static void take_file(struct text *found, const struct text *archive, const char *name) {
    for (unsigned at = 0; at + BLOCK <= archive->length;) {
        const char *head = archive->bytes + at;
        unsigned length = octal(head + SIZE_AT, SIZE_BYTES);
        if (length > archive->length - at - BLOCK)
            fail("an archive that ends in a file before", name);
        if (strlen(name) < NAME_BYTES && strcmp(head, name) == 0 && head[KIND_AT] == '0') {
            found->length = length;
            found->bytes = room(length);
            memcpy(found->bytes, head + BLOCK, length);
            return;
        }
        at += BLOCK + (length + BLOCK - 1) / BLOCK * BLOCK;
    }
    fail("not in the archive:", name);
}

// ---- changed lines

static char *end_of_line(char *at) {
    while (*at != 0 && *at != '\n')
        at += 1;
    return at;
}

// The begin of the line behind this one.
static char *next_line(char *at) {
    at = end_of_line(at);
    return *at == 0 ? at : at + 1;
}

// The bytes of a line without its first two.
static char *words_of(char *line) {
    int length = end_of_line(line) - line - 2;
    char *made = room(length < 0 ? 0 : length);
    if (length > 0)
        memcpy(made, line + 2, length);
    return made;
}

static char *found_in(char *line, const char *wanted) {
    for (; *line != 0 && *line != '\n'; line += 1)
        if (strncmp(line, wanted, strlen(wanted)) == 0)
            return line;
    return 0;
}

static void change_line(struct text *text, int number, const char *old, const char *new, const char *name) {
    struct text made;
    char *line = text->bytes, *place;
    for (int i = 1; i < number; i += 1)
        line = next_line(line);
    place = found_in(line, old);
    if (place == 0 || found_in(place + 1, old) != 0)
        fail("a line that is to be changed is another one, of", name);
    made.length = text->length - strlen(old) + strlen(new);
    made.bytes = room(made.length);
    memcpy(made.bytes, text->bytes, place - text->bytes);
    strcpy(made.bytes + (place - text->bytes), new);
    memcpy(made.bytes + (place - text->bytes) + strlen(new), place + strlen(old), text->length - (place - text->bytes) - strlen(old));
    *text = made;
}

// Does a line say `NAME NUMBER MACHINE`, or `both` for the machine? Its number, or 0.
static int number_for(char *line, const char *name, const char *machine) {
    char *after;
    int number;
    if (strncmp(line, name, strlen(name)) != 0 || line[strlen(name)] != ' ')
        return 0;
    number = strtol(line + strlen(name) + 1, &after, 10);
    if (found_in(after, " both") != after && found_in(after, machine) != after + 1)
        return 0;
    return number;
}

static void change_lines(struct text *text, char *list, const char *machine, const char *name) {
    for (char *line = list; *line != 0; line = next_line(line)) {
        int number = number_for(line, name, machine);
        if (number != 0) {
            char *old = next_line(next_line(line)), *new = next_line(old);
            if (*old != '<' || *new != '>')
                fail("a change that is none, of", name);
            change_line(text, number, words_of(old), words_of(new), name);
        }
    }
}

int main(int count, char **words) {
    if (count == 4 && strcmp(words[1], "bunzip2") == 0) {
        bunzip2(words[2], words[3]);
    } else if (count == 7 && strcmp(words[1], "file") == 0) {
        struct text archive, list, made;
        char *last = strrchr(words[5], '/');
        read_file(&archive, words[2]);
        read_file(&list, words[3]);
        take_file(&made, &archive, words[5]);
        change_lines(&made, list.bytes, words[4], last == 0 ? words[5] : last + 1);
        write_file(words[6], &made);
    } else {
        fail("wrong words:", words[0]);
    }
    return 0;
}
