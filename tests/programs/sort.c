// sort FILE [RESULT]: the lines of a file in the order of their bytes, to stream 1 or into RESULT, which may be FILE.
//
// The lines and the tables over them stand on the heap, which grows by brk as they need it and is given back at the end. It ends with 1
// where there are not one or two words, 2 where the file cannot be read, 3 where the result cannot be made, 4 where the heap is too small.

#include "guest.h"

static const char own_name[] = "sort";

struct line {
    const byte *at;
    word64 length;
};

// The heap's end.
static word64 heap_end;

// More bytes at the heap's end, a multiple of 8; null where there are none. Only the first call asks where the heap begins.
static void *more_heap(word64 count) {
    if (heap_end == 0)
        heap_end = call(BRK, 0, 0, 0, 0);
    word64 at = heap_end;
    word64 end = at + ((count + 7) & ~7UL);
    if ((word64)call(BRK, end, 0, 0, 0) != end)
        return 0;
    heap_end = end;
    return (void *)at;
}

static int is_before(const struct line *one, const struct line *other) {
    word64 shorter = one->length < other->length ? one->length : other->length;
    for (word64 i = 0; i < shorter; i += 1) {
        if (one->at[i] != other->at[i])
            return one->at[i] < other->at[i];
    }
    return one->length < other->length;
}

// The file's bytes, on the heap; its status is 0, 2 or 4.
static int read_file(const char *name, byte **content, word64 *length) {
    long file = open_file(name, O_RDONLY);
    long answer = file;
    if (file >= 0) {
        answer = call(LSEEK, file, 0, SEEK_END, 0);
        *length = answer;
        call(LSEEK, file, 0, SEEK_SET, 0);
    }
    if (answer >= 0) {
        *content = more_heap(*length);
        if (*content == 0)
            return 4;
        word64 done = 0;
        while (done < *length && (answer = read_bytes(file, *content + done, *length - done)) > 0)
            done += answer;
    }
    close_file(file);
    if (answer < 0)
        say_error(name, answer);
    return answer < 0 ? 2 : 0;
}

// The lines of the content, a table that grows at the heap's end line by line; null where the heap is too small.
static struct line *lines_of(const byte *content, word64 length, word64 *count) {
    struct line *lines = more_heap(0);
    const byte *end = content + length;
    *count = 0;
    while (lines != 0 && content < end) {
        struct line *line = more_heap(sizeof *line);
        if (line == 0)
            return 0;
        line->at = content;
        while (content < end && *content != '\n')
            content += 1;
        line->length = content - line->at;
        content += 1;
        *count += 1;
    }
    return lines;
}

// Merges the two sorted runs from..middle and middle..end of one table into the other.
static void merge(const struct line *lines, struct line *into, word64 from, word64 middle, word64 end) {
    word64 left = from;
    word64 right = middle;
    for (word64 i = from; i < end; i += 1) {
        int is_right = left == middle || (right < end && is_before(&lines[right], &lines[left]));
        into[i] = is_right ? lines[right] : lines[left];
        right += is_right;
        left += !is_right;
    }
}

// The sorted table: runs of 1, 2, 4.. lines are merged, from one table into the other and back.
static struct line *sorted(struct line *lines, struct line *other, word64 count) {
    for (word64 width = 1; width < count; width *= 2) {
        for (word64 from = 0; from < count; from += 2 * width) {
            word64 middle = from + width < count ? from + width : count;
            word64 end = middle + width < count ? middle + width : count;
            merge(lines, other, from, middle, end);
        }
        struct line *filled = other;
        other = lines;
        lines = filled;
    }
    return lines;
}

// Writes the lines, each with its end; 0, or the error.
static long write_lines(long file, const struct line *lines, word64 count) {
    long answer = 0;
    for (word64 i = 0; i < count && answer == 0; i += 1) {
        answer = write_bytes(file, lines[i].at, lines[i].length);
        if (answer == 0)
            answer = write_text(file, "\n");
    }
    return answer;
}

// The result as a new file, in place of an older one; 0, or the error.
static long write_result(const char *name, const struct line *lines, word64 count) {
    call(UNLINKAT, AT_FDCWD, (long)name, 0, 0);
    long file = open_file(name, O_WRONLY | O_CREAT | O_EXCL);
    if (file < 0)
        return file;
    long answer = write_lines(file, lines, count);
    close_file(file);
    return answer;
}

static int run(long count, char **words) {
    byte *content = 0;
    word64 length = 0;
    word64 lines_count = 0;
    if (count != 1 && count != 2) {
        write_text(2, "sort FILE [RESULT]\n");
        return 1;
    }
    word64 heap_start = call(BRK, 0, 0, 0, 0);
    int status = read_file(words[0], &content, &length);
    if (status == 2)
        return status;
    struct line *lines = status == 0 ? lines_of(content, length, &lines_count) : 0;
    struct line *other = lines == 0 ? 0 : more_heap(lines_count * sizeof *lines);
    if (other == 0) {
        write_text(2, "sort: the heap is too small\n");
        return 4;
    }
    lines = sorted(lines, other, lines_count);
    long answer = count == 2 ? write_result(words[1], lines, lines_count) : write_lines(1, lines, lines_count);
    if (answer < 0) {
        say_error(count == 2 ? words[1] : "stream 1", answer);
        return 3;
    }
    return (word64)call(BRK, heap_start, 0, 0, 0) == heap_start ? 0 : 4;
}
