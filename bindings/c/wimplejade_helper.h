/* What callers of wimplejade.h would each write again, in plain C: the slices in one struct, the list at a position, a
 * refusal in words, the name on a kept line, the name of a number in a row. Nothing of it is proved, and nothing else needs it:
 * all of it is here, as static functions.
 */
#ifndef WIMPLEJADE_HELPER_H
#define WIMPLEJADE_HELPER_H

#include "wimplejade.h"

#include <string.h>

/* The slices of a call, long enough for every file: some 530 KB, so a static object or one from calloc. Its words have to be
 * written once before the first call, which both of these do; after that it serves any number of calls, one at a time. */
struct wimplejade_slices {
    uint32_t working[6][WIMPLEJADE_WORKING_WORDS];
    uint32_t result[WIMPLEJADE_MOST_KEPT];
    struct wimplejade_row rows[WIMPLEJADE_MOST_LATE_ROWS];
};

/* Filters a file with these slices. slices->result then holds the lists, which wimplejade_list_at finds; refusals 7 and 8 do
 * not occur. */
static inline struct wimplejade_answer wimplejade_run(const uint8_t *file, size_t file_bytes, struct wimplejade_slices *slices)
{
    uint32_t (*working)[WIMPLEJADE_WORKING_WORDS] = slices->working;
    return wimplejade_filter(
        file, file_bytes,
        working[0], WIMPLEJADE_WORKING_WORDS, working[1], WIMPLEJADE_WORKING_WORDS, working[2], WIMPLEJADE_WORKING_WORDS,
        working[3], WIMPLEJADE_WORKING_WORDS, working[4], WIMPLEJADE_WORKING_WORDS, working[5], WIMPLEJADE_WORKING_WORDS,
        slices->result, WIMPLEJADE_MOST_KEPT);
}

/* Says why each fact came along, with these slices. slices->rows then holds the rows; refusal 7 does not occur. */
static inline struct wimplejade_reasons wimplejade_run_why(const uint8_t *file, size_t file_bytes, size_t position,
                                                           struct wimplejade_slices *slices)
{
    uint32_t (*working)[WIMPLEJADE_WORKING_WORDS] = slices->working;
    return wimplejade_why(
        file, file_bytes, position,
        working[0], WIMPLEJADE_WORKING_WORDS, working[1], WIMPLEJADE_WORKING_WORDS, working[2], WIMPLEJADE_WORKING_WORDS,
        working[3], WIMPLEJADE_WORKING_WORDS, working[4], WIMPLEJADE_WORKING_WORDS, working[5], WIMPLEJADE_WORKING_WORDS,
        slices->rows, WIMPLEJADE_MOST_LATE_ROWS);
}

/* Filters a file by the second engine, with these slices. slices->result then holds the lists, which wimplejade_swept_at finds;
 * refusals 7 and 8 do not occur. */
static inline struct wimplejade_swept wimplejade_run_sweep(const uint8_t *file, size_t file_bytes,
                                                           struct wimplejade_slices *slices)
{
    uint32_t (*working)[WIMPLEJADE_WORKING_WORDS] = slices->working;
    return wimplejade_sweep(
        file, file_bytes,
        working[0], WIMPLEJADE_WORKING_WORDS, working[1], WIMPLEJADE_WORKING_WORDS, working[2], WIMPLEJADE_WORKING_WORDS,
        working[3], WIMPLEJADE_WORKING_WORDS, working[4], WIMPLEJADE_WORKING_WORDS, working[5], WIMPLEJADE_WORKING_WORDS,
        slices->result, WIMPLEJADE_MOST_KEPT);
}

/* Checks what must come before what, with these slices. slices->rows then holds the rows; refusals 7 and 8 do not occur. */
static inline struct wimplejade_late wimplejade_run_order(const uint8_t *file, size_t file_bytes,
                                                          struct wimplejade_slices *slices)
{
    uint32_t (*working)[WIMPLEJADE_WORKING_WORDS] = slices->working;
    return wimplejade_order(
        file, file_bytes,
        working[0], WIMPLEJADE_WORKING_WORDS, working[1], WIMPLEJADE_WORKING_WORDS, working[2], WIMPLEJADE_WORKING_WORDS,
        working[3], WIMPLEJADE_WORKING_WORDS, working[4], WIMPLEJADE_WORKING_WORDS, working[5], WIMPLEJADE_WORKING_WORDS,
        slices->rows, WIMPLEJADE_MOST_LATE_ROWS);
}

/* How many ask and also lines were answered: none after a refusal. */
static inline uint32_t wimplejade_asks(const struct wimplejade_answer *answer)
{
    uint32_t asks = 0;
    while (asks < WIMPLEJADE_MOST_ASKS && answer->rounds[asks] > 0) {
        asks++;
    }
    return asks;
}

/* What one ask or also line keeps: `kept` line numbers, a part of the result slice, and the counts of its run or stretch. */
struct wimplejade_list {
    const uint32_t *lines;
    uint32_t kept;
    uint32_t visits;
    uint32_t rounds;
};

/* The list of the ask or also line at a position, which is counted from 1 as lines are: position 2 is line 2. `result` is the
 * start of the call's result slice. Where no line is answered at the position, all counts are 0. */
static inline struct wimplejade_list wimplejade_list_at(const struct wimplejade_answer *answer, const uint32_t *result,
                                                        uint32_t position)
{
    struct wimplejade_list list = {result, 0, 0, 0};
    if (position == 0 || position > WIMPLEJADE_MOST_ASKS) {
        return list;
    }
    for (uint32_t before = 0; before < position - 1; before++) {
        list.lines += answer->kept[before];
    }
    list.kept = answer->kept[position - 1];
    list.visits = answer->visits[position - 1];
    list.rounds = answer->rounds[position - 1];
    return list;
}

/* What one ask or also line keeps by the second engine, and its passes; no passes where no line is answered. */
struct wimplejade_swept_list {
    const uint32_t *lines;
    uint32_t kept;
    uint32_t passes;
};

/* The list of the second engine for the ask or also line at a position, as wimplejade_list_at finds that of the first. */
static inline struct wimplejade_swept_list wimplejade_swept_at(const struct wimplejade_swept *answer, const uint32_t *result,
                                                               uint32_t position)
{
    struct wimplejade_swept_list list = {result, 0, 0};
    if (position == 0 || position > WIMPLEJADE_MOST_ASKS) {
        return list;
    }
    for (uint32_t before = 0; before < position - 1; before++) {
        list.lines += answer->kept[before];
    }
    list.kept = answer->kept[position - 1];
    list.passes = answer->passes[position - 1];
    return list;
}

/* A refusal in words. */
static inline const char *wimplejade_words(uint32_t refusal)
{
    switch (refusal) {
    case WIMPLEJADE_ACCEPTED: return "accepted";
    case WIMPLEJADE_FORM: return "not a line of a fact file";
    case WIMPLEJADE_NAME: return "a field is no name";
    case WIMPLEJADE_NUMBER: return "a field is no number, or one out of its range";
    case WIMPLEJADE_TERM: return "no term line before has this number";
    case WIMPLEJADE_REPEATED: return "the name is taken by an earlier assume, fun or def";
    case WIMPLEJADE_FULL_NAMES: return "the file has more than 2,048 names";
    case WIMPLEJADE_WORKING: return "a working slice, or the table of reasons, is too short";
    case WIMPLEJADE_ROOM: return "the result slice, or the table of the order check, is too short";
    case WIMPLEJADE_SIZE: return "the file has more than 65,535 bytes";
    case WIMPLEJADE_FULL_TERMS: return "the file has more than 4,096 term lines or 16,384 references";
    case WIMPLEJADE_FULL_RECORDS: return "the file has more than 1,024 record lines";
    case WIMPLEJADE_FULL_TRIGGERS: return "the file has more than 2,048 trigger entries or 6,144 name uses";
    case WIMPLEJADE_FULL_ASKS: return "the file has more than 16 ask and also lines";
    case WIMPLEJADE_POSITION: return "the file has no ask or also line at this position";
    default: return "a refusal that this header does not know";
    }
}

/* The sort of a row of wimplejade_order in words. */
static inline const char *wimplejade_sort_words(uint32_t sort)
{
    switch (sort) {
    case WIMPLEJADE_LATER: return "its def or fun stands on the same line or a later one";
    case WIMPLEJADE_NEITHER: return "it has neither a def nor a fun";
    default: return "a sort that this header does not know";
    }
}

/* Whether the place of a refusal is a line. */
static inline int wimplejade_has_line(uint32_t refusal)
{
    return refusal != WIMPLEJADE_ACCEPTED && refusal != WIMPLEJADE_WORKING && refusal != WIMPLEJADE_ROOM
           && refusal != WIMPLEJADE_SIZE && refusal != WIMPLEJADE_POSITION;
}

/* A name: a part of the file, without a byte 0 at its end. */
struct wimplejade_name {
    const uint8_t *bytes;
    size_t length;
};

/* A field of a line, counted from the kind as 0; `end` is the end of the file. `bytes` is null where the line has no such
 * field. */
static inline struct wimplejade_name wimplejade_field(const uint8_t *line, const uint8_t *end, uint32_t index)
{
    struct wimplejade_name field = {NULL, 0};
    const uint8_t *at = line;
    for (; index > 0; index--) {
        while (at < end && *at != ',' && *at != '\n') {
            at++;
        }
        if (at == end || *at == '\n') {
            return field;
        }
        at++;
    }
    field.bytes = at;
    while (at < end && *at != ',' && *at != '\n') {
        at++;
    }
    field.length = (size_t)(at - field.bytes);
    return field;
}

/* Whether a field or a name is this text. */
static inline int wimplejade_is(struct wimplejade_name field, const char *text)
{
    return field.bytes != NULL && field.length == strlen(text) && memcmp(field.bytes, text, field.length) == 0;
}

/* The name on a line of a file, counted from 1: the line's second field, which in a fact, a definition and a declaration is the
 * record's name; on a root line the third, which is the root's. It is empty where the file has no such line or the line no such
 * field. */
static inline struct wimplejade_name wimplejade_name_on(const uint8_t *file, size_t file_bytes, uint32_t line)
{
    const uint8_t *at = file;
    const uint8_t *end = file + file_bytes;
    struct wimplejade_name name = {file, 0};
    for (uint32_t number = 1; number < line; number++) {
        at = (const uint8_t *)memchr(at, '\n', (size_t)(end - at));
        if (at == NULL) {
            return name;
        }
        at++;
    }
    struct wimplejade_name field = wimplejade_field(at, end, wimplejade_is(wimplejade_field(at, end, 0), "root") ? 2 : 1);
    return field.bytes != NULL ? field : name;
}

/* The names of a file by their numbers, which the rows of a table have, and where its term lines start: some 64 KB. */
struct wimplejade_names {
    uint32_t count;
    uint32_t terms;
    struct wimplejade_name name[2048];
    const uint8_t *term[4096];
};

/* Numbers a name, unless it has a number. */
static inline void wimplejade_spell(struct wimplejade_names *names, struct wimplejade_name name)
{
    if (name.bytes == NULL || names->count == 2048) {
        return;
    }
    for (uint32_t number = 0; number < names->count; number++) {
        if (names->name[number].length == name.length && memcmp(names->name[number].bytes, name.bytes, name.length) == 0) {
            return;
        }
    }
    names->name[names->count++] = name;
}

/* The line of the term that a field names; null where there is none. */
static inline const uint8_t *wimplejade_term(const struct wimplejade_names *names, struct wimplejade_name field)
{
    uint32_t number = 0;
    for (size_t index = 0; index < field.length && index < 5; index++) {
        number = number * 10 + (uint32_t)(field.bytes[index] - '0');
    }
    return field.length > 0 && number < names->terms ? names->term[number] : NULL;
}

/* Whether a term line is a call of this name with so many parts. */
static inline int wimplejade_calls(const uint8_t *line, const uint8_t *end, const char *name, uint32_t parts)
{
    return line != NULL && wimplejade_is(wimplejade_field(line, end, 0), "call")
           && wimplejade_is(wimplejade_field(line, end, 1), name) && wimplejade_field(line, end, 1 + parts).bytes != NULL
           && wimplejade_field(line, end, 2 + parts).bytes == NULL;
}

/* The token that rule 4 of docs/FORMAT.md shortens in a fact, without its last four bytes; `bytes` is null where there is none.
 * The rule is that of a term Valid(ApplyTT(__uu__PartialApp, token)), unless the fact's name starts with `assumption_`. */
static inline struct wimplejade_name wimplejade_trimmed(const struct wimplejade_names *names, const uint8_t *fact,
                                                        const uint8_t *end)
{
    struct wimplejade_name none = {NULL, 0};
    struct wimplejade_name name = wimplejade_field(fact, end, 1);
    struct wimplejade_name group = wimplejade_field(fact, end, 4);
    const uint8_t *term = wimplejade_term(names, group.bytes != NULL ? group : wimplejade_field(fact, end, 3));
    if (name.length >= 11 && memcmp(name.bytes, "assumption_", 11) == 0) {
        return none;
    }
    if (!wimplejade_calls(term, end, "Valid", 1)) {
        return none;
    }
    term = wimplejade_term(names, wimplejade_field(term, end, 2));
    if (!wimplejade_calls(term, end, "ApplyTT", 2)) {
        return none;
    }
    const uint8_t *head = wimplejade_term(names, wimplejade_field(term, end, 2));
    const uint8_t *token = wimplejade_term(names, wimplejade_field(term, end, 3));
    if (head == NULL || token == NULL || !wimplejade_is(wimplejade_field(head, end, 1), "__uu__PartialApp")
        || !(wimplejade_is(wimplejade_field(head, end, 0), "free") || wimplejade_is(wimplejade_field(head, end, 0), "call"))
        || !(wimplejade_is(wimplejade_field(token, end, 0), "free") || wimplejade_is(wimplejade_field(token, end, 0), "call"))
        || wimplejade_field(token, end, 2).bytes != NULL) {
        return none;
    }
    name = wimplejade_field(token, end, 1);
    if (name.length < 4 || memcmp(name.bytes + name.length - 4, "@tok", 4) != 0) {
        return none;
    }
    name.length -= 4;
    return name;
}

/* Numbers the names of an accepted file, as the rows of a table do: names->name[row.number] is then the name of a row. */
static inline void wimplejade_number_names(const uint8_t *file, size_t file_bytes, struct wimplejade_names *names)
{
    const uint8_t *end = file + file_bytes;
    names->count = names->terms = 0;
    for (const uint8_t *line = file; line < end;) {
        struct wimplejade_name kind = wimplejade_field(line, end, 0);
        int is_name_term = wimplejade_is(kind, "free") || wimplejade_is(kind, "call");
        if (is_name_term || wimplejade_is(kind, "leaf") || wimplejade_is(kind, "op") || wimplejade_is(kind, "all")
            || wimplejade_is(kind, "some") || wimplejade_is(kind, "let") || wimplejade_is(kind, "label")) {
            if (names->terms < 4096) {
                names->term[names->terms++] = line;
            }
        }
        if (is_name_term || wimplejade_is(kind, "hide") || wimplejade_is(kind, "fun") || wimplejade_is(kind, "def")) {
            wimplejade_spell(names, wimplejade_field(line, end, 1));
        } else if (wimplejade_is(kind, "root")) {
            wimplejade_spell(names, wimplejade_field(line, end, 2));
        } else if (wimplejade_is(kind, "retain")) {
            struct wimplejade_name name = wimplejade_field(line, end, 1);
            while (name.bytes != NULL) {
                wimplejade_spell(names, name);
                name = wimplejade_field(name.bytes, end, 1);
            }
        } else if (wimplejade_is(kind, "assume")) {
            wimplejade_spell(names, wimplejade_field(line, end, 1));
            wimplejade_spell(names, wimplejade_trimmed(names, line, end));
        }
        const uint8_t *feed = (const uint8_t *)memchr(line, '\n', (size_t)(end - line));
        line = feed != NULL ? feed + 1 : end;
    }
}

#endif
