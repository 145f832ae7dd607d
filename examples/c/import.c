/* Imports a sample through the C library, and prints what each call comes to. It is given the names of an export and of a layout. */
#include "neskvaru.h"

#include <stdio.h>
#include <string.h>

#define NEWLINE "newline", 7
#define ASCII "ascii", 5

static unsigned char layout[4096], file[65536], out[65536];
static size_t layout_length, file_length;

/* Reads a file of at most so many bytes; 0 where that fails. */
static int read_file(const char *name, unsigned char *bytes, size_t room, size_t *length) {
    FILE *from = fopen(name, "rb");
    if (!from)
        return 0;
    *length = fread(bytes, 1, room, from);
    int whole = !ferror(from) && fgetc(from) == EOF;
    fclose(from);
    return whole;
}

/* What is done with the whole sample. */
static void import(void) {
    size_t length = 0;
    printf("layout: status %d\n", neskvaru_check_layout(ASCII, layout, layout_length));
    int status = neskvaru_trace(NEWLINE, ASCII, layout, layout_length, file, file_length, out, sizeof out, &length);
    printf("trace: status %d, length %zu\n", status, length);
    fwrite(out, 1, length, stdout);
    status = neskvaru_print(NEWLINE, ASCII, layout, layout_length, file, file_length, out, sizeof out, &length);
    int same = length == file_length && memcmp(out, file, length) == 0;
    printf("print: status %d, length %zu, %s\n", status, length, same ? "the file" : "another file");
}

/* What the matches below answer. */
static struct neskvaru_answer answer;
static struct neskvaru_refused refused;

/* Matches the sample with a file that was sent again; a place for what is answered may be NULL. */
static void match_at(const char *what, const void *resent, size_t resent_length, struct neskvaru_answer *to, struct neskvaru_refused *where) {
    struct neskvaru_answer no_answer = {99, 99};
    struct neskvaru_refused not_refused = {99, 99};
    answer = no_answer;
    refused = not_refused;
    int status = neskvaru_match(NEWLINE, ASCII, layout, layout_length, file, file_length, resent, resent_length, to, where);
    printf("match, %s: status %d, how %u, row %u; refused: side %u, row %u\n", what, status, (unsigned)answer.how, (unsigned)answer.row,
           (unsigned)refused.side, (unsigned)refused.row);
}

static void match(const char *what, const void *resent, size_t resent_length) {
    match_at(what, resent, resent_length, &answer, &refused);
}

static void match_all(void) {
    size_t rows_before = file_length;
    while (rows_before > 0 && file[rows_before - 1] != '\n')
        rows_before--;
    match("the same file", file, file_length);
    match("without its last byte", file, file_length - 1);
    match("without its last row", file, rows_before);
    memcpy(out, file, file_length);
    out[file_length] = '\n';
    match("with a newline at its end", out, file_length + 1);
    match("no bytes", NULL, 0);
    memset(out, '1', 5000);
    match("a row too long", out, 5000);
    match_at("no place for the answer", file, file_length, NULL, &refused);
    match_at("no place for a refusal", file, file_length, &answer, NULL);
}

/* The length that the calls below tell; it is 77 before the first. */
static size_t told = 77;

/* Tells a refused call, and whether buffer and length are as they were. */
static void refused_call(const char *what, int status) {
    size_t touched = 0;
    for (size_t i = 0; i < sizeof out; i++)
        touched += out[i] != 170;
    printf("refused, %s: status %d, length %zu, %zu bytes changed\n", what, status, told, touched);
}

/* Of several refusals the first in order is told. */
static void orders(void) {
    static unsigned char long_file[16777217];
    refused_call("no rule, no family", neskvaru_trace("fixed", 5, "ebcdic", 6, NULL, 0, long_file, sizeof long_file, out, 0, &told));
    refused_call("no family, a file too long", neskvaru_trace("fixed:1", 7, "ebcdic", 6, NULL, 0, long_file, sizeof long_file, out, 0, &told));
    refused_call("a file too long, an empty layout", neskvaru_trace("fixed:1", 7, ASCII, NULL, 0, long_file, sizeof long_file, out, 0, &told));
    refused_call("an empty layout, no room", neskvaru_trace("fixed:1", 7, ASCII, NULL, 0, long_file, 5000, out, 0, &told));
    refused_call("a row too long, no room", neskvaru_print(NEWLINE, ASCII, layout, layout_length, long_file, 5000, out, 0, &told));
    refused_call("no place for the length, no rule", neskvaru_trace("fixed:0", 7, "ebcdic", 6, NULL, 0, long_file, sizeof long_file, out, 0, NULL));
}

static void check(const char *what, const char *family, const void *bytes, size_t length) {
    printf("layout, %s: status %d\n", what, neskvaru_check_layout(family, strlen(family), bytes, length));
}

static void check_all(void) {
    check("no bytes", "ascii", NULL, 0);
    check("a byte short", "ascii", layout, layout_length - 1);
    check("a kind unknown", "binary", layout, layout_length);
    check("no family, no bytes", "ebcdic", NULL, 0);
}

/* Bytes at NULL whose length is not 0: what no slice of Rust's can be. */
static void nulls(void) {
    static const char *const names[] = {"a null rule", "a null family", "a null layout", "a null file"};
    for (int which = 0; which < 4; which++) {
        const void *at[] = {"newline", "ascii", layout, file};
        at[which] = NULL;
        refused_call(names[which], neskvaru_trace(at[0], 7, at[1], 5, at[2], layout_length, at[3], file_length, out, sizeof out, &told));
        refused_call(names[which], neskvaru_print(at[0], 7, at[1], 5, at[2], layout_length, at[3], file_length, out, sizeof out, &told));
        printf("match, %s: status %d\n", names[which], neskvaru_match(at[0], 7, at[1], 5, at[2], layout_length, at[3], file_length,
                                                                      file, file_length, &answer, &refused));
    }
    match("a null file sent again", NULL, file_length);
    check("a null layout", "ascii", NULL, layout_length);
    printf("layout, a null family: status %d\n", neskvaru_check_layout(NULL, 5, layout, layout_length));
}

static void refuse(void) {
    memset(out, 170, sizeof out);
    refused_call("a width of 0", neskvaru_trace("fixed:0", 7, ASCII, layout, layout_length, file, file_length, out, sizeof out, &told));
    refused_call("no words", neskvaru_trace(NULL, 0, ASCII, layout, layout_length, file, file_length, out, sizeof out, &told));
    refused_call("no family", neskvaru_trace(NEWLINE, "ebcdic", 6, layout, layout_length, file, file_length, out, sizeof out, &told));
    refused_call("an empty layout", neskvaru_trace(NEWLINE, ASCII, NULL, 0, file, file_length, out, sizeof out, &told));
    refused_call("a kind unknown", neskvaru_trace(NEWLINE, "binary", 6, layout, layout_length, file, file_length, out, sizeof out, &told));
    refused_call("a short buffer", neskvaru_trace(NEWLINE, ASCII, layout, layout_length, file, file_length, out, 10, &told));
    refused_call("a buffer a byte short", neskvaru_print(NEWLINE, ASCII, layout, layout_length, file, file_length, out, file_length - 1, &told));
    refused_call("no buffer", neskvaru_print(NEWLINE, ASCII, layout, layout_length, file, file_length, NULL, 0, &told));
    refused_call("a null buffer", neskvaru_print(NEWLINE, ASCII, layout, layout_length, file, file_length, NULL, 10, &told));
    refused_call("no place for the length of a trace", neskvaru_trace(NEWLINE, ASCII, layout, layout_length, file, file_length, out, sizeof out, NULL));
    refused_call("no place for the length of a print", neskvaru_print(NEWLINE, ASCII, layout, layout_length, file, file_length, out, sizeof out, NULL));
    printf("a null file of no bytes: status %d", neskvaru_print(NEWLINE, ASCII, layout, layout_length, NULL, 0, NULL, 0, &told));
    printf(", length %zu\n", told);
    told = 77;
}

int main(int count, char **words) {
    if (count != 3 || !read_file(words[1], file, sizeof file - 2, &file_length) || !read_file(words[2], layout, sizeof layout, &layout_length)) {
        fprintf(stderr, "write: import EXPORT LAYOUT\n");
        return 1;
    }
    import();
    match_all();
    refuse();
    orders();
    check_all();
    nulls();
    return 0;
}
