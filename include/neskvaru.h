/* Neskvaru for C: bank exports checked, traced, written again and matched. docs/EMBEDDING.md tells how it is built in.

   Every call is given all that it needs as bytes, keeps nothing between two calls, and answers a status. Words are those of the
   program's commands, without a zero byte behind them: a rule is `newline`, `fixed:W` or `sample:N:RULE`, a family is `ascii`,
   `binary` or `pair:FAMILY:FAMILY`.

   What C owes: each pointer is valid for the length beside it, or is NULL; `length`, `answer` and `refused` are valid, or NULL. What
   a call writes to (the buffer, `length`, `answer`, `refused`) overlaps nothing else that it is given. What it only reads may
   overlap, so a file may be matched with itself. A NULL with a length of 0 stands for no bytes; any other NULL is refused with
   NESKVARU_BUFFER_TOO_SHORT. A buffer need not be filled before. `malloc`, `realloc` and `free` are from one allocator and align as
   they do in any C library. No call is made from a signal handler, nor in the forked child of a process with threads. */
#ifndef NESKVARU_H
#define NESKVARU_H

#include <stddef.h>
#include <stdint.h>

#ifdef __cplusplus
extern "C" {
#endif

/* Statuses, in the order in which they are tried; the lowest of 1 to 7 that applies. A call that does not answer NESKVARU_DONE has
   changed neither buffer nor length nor answer. */
enum neskvaru_status {
    NESKVARU_DONE = 0,
    NESKVARU_NO_RULE = 11,         /* the words stand for no rule, or a number in them is out of range */
    NESKVARU_NO_FAMILY = 254,      /* the words stand for no family */
    NESKVARU_FILE_TOO_LONG = 8,    /* a file of more than 16,777,216 bytes */
    NESKVARU_LAYOUT_SIZE = 1,      /* the layout file: its length or its counts are wrong, */
    NESKVARU_LAYOUT_BITS = 2,      /* a shape is unknown, or a bit is set that should not be, */
    NESKVARU_LAYOUT_LINKS = 3,     /* a child or a next leads nowhere or back, is missing, or should not be there, */
    NESKVARU_LAYOUT_STRANDED = 4,  /* a node is not child or next of exactly one, */
    NESKVARU_LAYOUT_KIND = 5,      /* a kind is unknown to the family, */
    NESKVARU_LAYOUT_RANGE = 6,     /* a column, a relation or a right side is out of range, */
    NESKVARU_LAYOUT_DEPTH = 7,     /* a node lies too deep */
    NESKVARU_ROW_TOO_LONG = 9,     /* print and match: a row of more than 4,096 bytes is not read */
    NESKVARU_REACH_TOO_FAR = 10,   /* print and match: a row is not read that would have more than 512 lines stand at one time */
    NESKVARU_BUFFER_TOO_SHORT = 15,/* the buffer has no room; or a pointer is NULL that must not be, which is tried first */
    NESKVARU_NO_MEMORY = 255       /* there is no memory, at whatever moment that was found */
};

/* What a match answers. */
enum neskvaru_how {
    NESKVARU_SAME = 0,
    NESKVARU_OTHER_REPORT = 1,     /* the row has another report */
    NESKVARU_OTHER_MARK = 2,       /* the row has the same report and another mark: one is ended, the other is not */
    NESKVARU_NOT_IN_FIRST = 3,     /* the first export has no such row */
    NESKVARU_NOT_IN_RESENT = 4,    /* the resent export has no such row */
    NESKVARU_OTHER_TAIL = 5        /* behind all rows, another tail follows */
};

struct neskvaru_answer {
    uint32_t how;                  /* a number of enum neskvaru_how */
    uint32_t row;                  /* the first row that differs, counted from 1; behind all rows for a tail; 0 where they are the same */
};

/* Where a match is refused with 1 to 10. */
struct neskvaru_refused {
    uint32_t side;                 /* 1 for the first export, 2 for the resent one */
    uint32_t row;                  /* the row that is not read, counted from 1; 0 where the export is not taken */
};

/* The exports of the static library. No pointer may be NULL here; call them by the plain names below, which see to that. */
uint8_t neskvaru_check_layout_bytes(const uint8_t *family, size_t family_length, const uint8_t *layout, size_t layout_length);
uint8_t neskvaru_trace_bytes(const uint8_t *rule, size_t rule_length, const uint8_t *family, size_t family_length,
                             const uint8_t *layout, size_t layout_length, const uint8_t *file, size_t file_length,
                             uint8_t *out, size_t out_length, size_t *length);
uint8_t neskvaru_print_bytes(const uint8_t *rule, size_t rule_length, const uint8_t *family, size_t family_length,
                             const uint8_t *layout, size_t layout_length, const uint8_t *file, size_t file_length,
                             uint8_t *out, size_t out_length, size_t *length);
uint8_t neskvaru_match_bytes(const uint8_t *rule, size_t rule_length, const uint8_t *family, size_t family_length,
                             const uint8_t *layout, size_t layout_length, const uint8_t *first, size_t first_length,
                             const uint8_t *resent, size_t resent_length,
                             struct neskvaru_answer *answer, struct neskvaru_refused *refused);

/* Bytes as a call takes them: a place that is not NULL. */
static inline const uint8_t *neskvaru_at(const void *bytes) {
    static const uint8_t none = 0;
    return bytes ? (const uint8_t *)bytes : &none;
}

/* A NULL whose length is not 0. */
static inline int neskvaru_missing(const void *bytes, size_t length) {
    return !bytes && length != 0;
}

/* What trace and print have in common: a call that writes to `out`, and the number of bytes to `length`. */
typedef uint8_t neskvaru_writing(const uint8_t *rule, size_t rule_length, const uint8_t *family, size_t family_length,
                                 const uint8_t *layout, size_t layout_length, const uint8_t *file, size_t file_length,
                                 uint8_t *out, size_t out_length, size_t *length);

/* Makes such a call, with no NULL. */
static inline int neskvaru_write(neskvaru_writing *call, const void *rule, size_t rule_length, const void *family, size_t family_length,
                                 const void *layout, size_t layout_length, const void *file, size_t file_length,
                                 void *out, size_t out_length, size_t *length) {
    uint8_t none = 0;
    if (neskvaru_missing(rule, rule_length) || neskvaru_missing(family, family_length) || neskvaru_missing(layout, layout_length)
        || neskvaru_missing(file, file_length) || neskvaru_missing(out, out_length) || !length)
        return NESKVARU_BUFFER_TOO_SHORT;
    return call(neskvaru_at(rule), rule_length, neskvaru_at(family), family_length, neskvaru_at(layout), layout_length,
                neskvaru_at(file), file_length, out ? (uint8_t *)out : &none, out_length, length);
}

/* Checks a layout file under a family. */
static inline int neskvaru_check_layout(const void *family, size_t family_length, const void *layout, size_t layout_length) {
    if (neskvaru_missing(family, family_length) || neskvaru_missing(layout, layout_length))
        return NESKVARU_BUFFER_TOO_SHORT;
    return neskvaru_check_layout_bytes(neskvaru_at(family), family_length, neskvaru_at(layout), layout_length);
}

/* Writes the trace of a file at the beginning of `out`, and its length to `length`; bytes of `out` behind it stay. A trace is text,
   one record a line, with no zero byte behind it; a row that is not read is told there and refuses nothing. The records:
       row NUMBER START LENGTH MARK                 a row is opened; MARK is `ended` or `unended`
       line NODE OUTCOME START LENGTH NUMBER        a line of its report
       kept-text HEX                                the report's kept text; the word alone where there is none
       faults COUNT                                 how many of the lines are faults
       refused NUMBER                               in place of these three, where the row is not read: 9 or 10
       filed kept, filed set-aside                  how the row is filed: kept exactly if it was read without faults
       tail START LENGTH                            behind the rows
       counts OPENED KEPT SETASIDE                  at the end */
static inline int neskvaru_trace(const void *rule, size_t rule_length, const void *family, size_t family_length,
                                 const void *layout, size_t layout_length, const void *file, size_t file_length,
                                 void *out, size_t out_length, size_t *length) {
    return neskvaru_write(neskvaru_trace_bytes, rule, rule_length, family, family_length, layout, layout_length,
                          file, file_length, out, out_length, length);
}

/* Writes a file again at the beginning of `out`, from the reports of its rows alone, and its length to `length`; bytes of `out`
   behind it stay. A row that is not read refuses it. */
static inline int neskvaru_print(const void *rule, size_t rule_length, const void *family, size_t family_length,
                                 const void *layout, size_t layout_length, const void *file, size_t file_length,
                                 void *out, size_t out_length, size_t *length) {
    return neskvaru_write(neskvaru_print_bytes, rule, rule_length, family, family_length, layout, layout_length,
                          file, file_length, out, out_length, length);
}

/* Matches a resent export against the first, by reports, marks and tails, row by row. Where it is done, `answer` tells how they
   differ; where it is refused with 1 to 10, `refused` tells where. Each of the two stays in all other cases. */
static inline int neskvaru_match(const void *rule, size_t rule_length, const void *family, size_t family_length,
                                 const void *layout, size_t layout_length, const void *first, size_t first_length,
                                 const void *resent, size_t resent_length,
                                 struct neskvaru_answer *answer, struct neskvaru_refused *refused) {
    if (neskvaru_missing(rule, rule_length) || neskvaru_missing(family, family_length) || neskvaru_missing(layout, layout_length)
        || neskvaru_missing(first, first_length) || neskvaru_missing(resent, resent_length) || !answer || !refused)
        return NESKVARU_BUFFER_TOO_SHORT;
    return neskvaru_match_bytes(neskvaru_at(rule), rule_length, neskvaru_at(family), family_length, neskvaru_at(layout), layout_length,
                                neskvaru_at(first), first_length, neskvaru_at(resent), resent_length, answer, refused);
}

#ifdef __cplusplus
}
#endif

#endif
