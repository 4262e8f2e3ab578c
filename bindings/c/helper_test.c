/* Tries the functions of wimplejade_helper.h on the edges that a kept line never shows. */
#include "wimplejade_helper.h"

#include <stdio.h>
#include <stdlib.h>

static int wrong;

static void check(int holds, const char *what)
{
    if (!holds) {
        printf("wrong: %s\n", what);
        wrong = 1;
    }
}

/* Whether a line of a text has this name; the text lies in memory of just its length. */
static int has_name(const char *text, uint32_t line, const char *expected)
{
    size_t bytes = strlen(text);
    uint8_t *file = malloc(bytes > 0 ? bytes : 1);
    if (file == NULL) {
        abort();
    }
    memcpy(file, text, bytes);
    struct wimplejade_name name = wimplejade_name_on(file, bytes, line);
    int same = name.length == strlen(expected) && memcmp(name.bytes, expected, name.length) == 0
               && name.bytes >= file && name.bytes + name.length <= file + bytes;
    free(file);
    return same;
}

static struct wimplejade_slices slices;
static struct wimplejade_names names;

/* Whether the names of a text by number are these, each after a blank. */
static int names_are(const char *text, const char *expected)
{
    char spelled[256] = "";
    wimplejade_number_names((const uint8_t *)text, strlen(text), &names);
    for (uint32_t number = 0; number < names.count; number++) {
        strcat(spelled, " ");
        strncat(spelled, (const char *)names.name[number].bytes, names.name[number].length);
    }
    return strcmp(spelled, expected) == 0;
}

/* Whether a row of the last call of reasons is this one. */
static int row_is(size_t index, uint32_t line, uint32_t number, uint32_t cause)
{
    struct wimplejade_row row = slices.rows[index];
    return row.line == line && row.number == number && row.cause == cause;
}

/* Whether the list of a position has so many lines, and this one first if it has any. */
static int list_is(const struct wimplejade_answer *answer, uint32_t position, uint32_t kept, uint32_t first)
{
    struct wimplejade_list list = wimplejade_list_at(answer, slices.result, position);
    return list.kept == kept && (kept == 0 || list.lines[0] == first);
}

int main(void)
{
    check(has_name("ask,0,0\nfun,f\n", 2, "f"), "the last field of a line");
    check(has_name("ask,0,0\nleaf\nassume,a1,0,0\n", 3, "a1"), "a field in a line");
    check(has_name("ask,0,0\nfun,f", 2, "f"), "a line without its end");
    check(has_name("ask,0,0\nleaf\nfun,f\n", 2, ""), "a line of one field");
    check(has_name("ask,0,0\nfun,\n", 2, ""), "an empty field");
    check(has_name("ask,0,0\n", 2, ""), "the line after the last");
    check(has_name("ask,0,0\n", 9, ""), "a line far behind the last");
    check(has_name("", 1, ""), "no file");
    check(has_name("ask,0,0\nleaf\nroot,7,goal,0\n", 3, "goal"), "the name of a root");
    check(has_name("ask,0,0\nroot,7\n", 2, "") && has_name("root,7", 1, ""), "a root line without a name");

    for (uint32_t refusal = 0; refusal <= 15; refusal++) {
        int has_line = refusal != 0 && refusal != 15 && (refusal < 7 || refusal > 9);
        check(refusal == 14 || wimplejade_has_line(refusal) == has_line, "a line has a refusal");
        for (uint32_t other = 0; other <= 16; other++) {
            int same = refusal == other || (refusal == 14 && other == 16);
            check((strcmp(wimplejade_words(refusal), wimplejade_words(other)) == 0) == same, "words");
        }
    }

    const char *text = "ask,0,0\nleaf\nassume,a,0,0\n";
    struct wimplejade_answer answer = wimplejade_run((const uint8_t *)text, strlen(text), &slices);
    check(answer.refusal == WIMPLEJADE_ACCEPTED && answer.kept[0] == 1 && slices.result[0] == 3, "a call");
    check(wimplejade_asks(&answer) == 1 && list_is(&answer, 1, 1, 3) && list_is(&answer, 2, 0, 0), "one ask line");

    text = "ask,1,0\nask,7,1\nask,0,4\nleaf\nassume,a,0,0\nfree,p\nfun,p\nroot,0,goal,1\n";
    answer = wimplejade_run((const uint8_t *)text, strlen(text), &slices);
    check(wimplejade_asks(&answer) == 3, "three ask lines");
    check(list_is(&answer, 1, 1, 5) && list_is(&answer, 2, 0, 0) && list_is(&answer, 3, 2, 5), "three lists");
    check(wimplejade_list_at(&answer, slices.result, 3).lines[1] == 7, "the second line of the third list");
    check(wimplejade_list_at(&answer, slices.result, 2).rounds == 1, "the rounds of an empty list");
    check(list_is(&answer, 0, 0, 0) && list_is(&answer, 4, 0, 0) && list_is(&answer, 17, 0, 0), "no ask line there");
    for (uint32_t index = 3; index < WIMPLEJADE_MOST_ASKS; index++) {
        check(answer.kept[index] == 0 && answer.visits[index] == 0 && answer.rounds[index] == 0, "counts past the last");
    }

    text = "ask,0,0\nalso,1\nalso,0\nask,1,0\nfree,p\nfree,q\nop,eq,0,0\nassume,on_p,0,2\nop,eq,1,1\nassume,on_q,0,3\n"
           "root,0,goal,0\nroot,1,goal,1\n";
    answer = wimplejade_run((const uint8_t *)text, strlen(text), &slices);
    check(wimplejade_asks(&answer) == 4, "an ask line, two also lines and an ask line");
    check(list_is(&answer, 1, 1, 8) && list_is(&answer, 2, 2, 8) && list_is(&answer, 3, 2, 8) && list_is(&answer, 4, 1, 10),
          "the lists of two chains");
    struct wimplejade_list stretch = wimplejade_list_at(&answer, slices.result, 2);
    check(stretch.lines[1] == 10 && stretch.visits == 2 && stretch.rounds == 2, "a stretch");
    stretch = wimplejade_list_at(&answer, slices.result, 3);
    check(stretch.lines[1] == 10 && stretch.visits == 0 && stretch.rounds == 1, "a stretch that adds nothing");

    text = "ask2,0,0,1\nask2,9,0,2\nalso,0\nask2,0,0,0\nfree,p\nop,eq,0,0\nassume,a,0,0,1\nassume,b,0,1,1\nroot,0,goal,0\n";
    answer = wimplejade_run((const uint8_t *)text, strlen(text), &slices);
    check(wimplejade_asks(&answer) == 4, "three ask lines of the newer form and an also line");
    check(list_is(&answer, 1, 1, 7) && list_is(&answer, 2, 0, 0) && list_is(&answer, 3, 1, 8) && list_is(&answer, 4, 0, 0),
          "the lists of groups");
    check(wimplejade_list_at(&answer, slices.result, 1).visits == 2, "the visits of one group");
    check(has_name(text, 8, "b"), "the name of a fact with a group");

    text = "ask2,0,0,1\nask,0,0\n";
    answer = wimplejade_run((const uint8_t *)text, strlen(text), &slices);
    check(answer.refusal == WIMPLEJADE_FORM && answer.place == 2, "an ask line of the older form after one of the newer");

    text = "ask2,0,0,1\nleaf\nassume,a,0,16,0\n";
    answer = wimplejade_run((const uint8_t *)text, strlen(text), &slices);
    check(answer.refusal == WIMPLEJADE_NUMBER && answer.place == 3, "a group out of its range");

    text = "ask,0,0\nhide,p\nalso,0\n";
    answer = wimplejade_run((const uint8_t *)text, strlen(text), &slices);
    check(answer.refusal == WIMPLEJADE_FORM && answer.place == 3 && wimplejade_asks(&answer) == 0, "an also line after hide");

    text = "ask,0,0\nhide,p\nask,0,0\n";
    answer = wimplejade_run((const uint8_t *)text, strlen(text), &slices);
    check(answer.refusal == WIMPLEJADE_FORM && answer.place == 3 && wimplejade_asks(&answer) == 0, "an ask line after hide");
    check(sizeof answer == 200, "the bytes of an answer");

    check(names_are("ask,1,0\nhide,h\nfree,p\ncall,f,0\nop,eq,0,1\nassume,a,0,2\nretain,p,x,a\nretain\nfun,f\ndef,g,0\n"
                    "root,1,goal,0\nleaf\nall,0,1,1,1\n", " h p f a x g goal"), "names in the order of their first spelling");
    const char *partial = "ask,0,0\nfree,__uu__PartialApp\nfree,f@tok\ncall,ApplyTT,0,1\ncall,Valid,2\n";
    char token[256];
    snprintf(token, sizeof token, "%sassume,t,0,3\nfree,p\nfree,f\n", partial);
    check(names_are(token, " __uu__PartialApp f@tok ApplyTT Valid t f p"), "a trimmed token after the names of its line");
    snprintf(token, sizeof token, "%sassume,assumption_t,0,3\nfree,p\nfree,f\n", partial);
    check(names_are(token, " __uu__PartialApp f@tok ApplyTT Valid assumption_t p f"), "another rule comes first");
    snprintf(token, sizeof token, "ask2,0,0,0%sassume,t,0,4,3\nfree,p\n", partial + 7);
    check(names_are(token, " __uu__PartialApp f@tok ApplyTT Valid t f p"), "a trimmed token of a fact with a group");
    check(names_are("", "") && names_are("assume", "") && names_are("retain,,", " "), "names of files that are refused");
    check(names_are("ask,0,0\nassume,a,0,9\n", " a"), "a fact of a term that is not there");

    text = "ask,0,0\nask,1,0\nfree,p\nfree,q\nall,1,1,1,0\nassume,on_p,0,2\nall,0,1,2,0,1\nassume,on_both,0,3\nroot,0,goal,0\n";
    struct wimplejade_reasons reasons = wimplejade_run_why((const uint8_t *)text, strlen(text), 1, &slices);
    check(reasons.refusal == WIMPLEJADE_ACCEPTED && reasons.place == 0 && reasons.met == 2 && reasons.rows == 3, "reasons");
    check(row_is(0, 8, 0, 9) && row_is(1, 8, 1, 6) && row_is(2, 6, 0, 9), "the rows of reasons");
    reasons = wimplejade_run_why((const uint8_t *)text, strlen(text), 2, &slices);
    check(reasons.refusal == WIMPLEJADE_ACCEPTED && reasons.met == 0 && reasons.rows == 0, "no reasons");
    for (size_t position = 0; position <= 3; position += 3) {
        reasons = wimplejade_run_why((const uint8_t *)text, strlen(text), position, &slices);
        check(reasons.refusal == WIMPLEJADE_POSITION && reasons.place == 0 && reasons.met == 0 && reasons.rows == 0,
              "no position");
    }
    reasons = wimplejade_run_why((const uint8_t *)"ask,0,16\n", 9, 1, &slices);
    check(reasons.refusal == WIMPLEJADE_NUMBER && reasons.place == 1, "reasons of a refused file");
    check(row_is(0, 8, 0, 9) && row_is(1, 8, 1, 6) && row_is(2, 6, 0, 9), "rows that no call has touched");
    check(sizeof(struct wimplejade_row) == 12 && sizeof reasons == 24, "the bytes of a row and of reasons");

    text = "ask,0,0\nalso,1\nask,9,1\nfree,p\nfree,q\nall,0,1,1,1\nassume,on_q,0,2\nall,1,1,1,0\nassume,on_p,0,3\nleaf\n"
           "assume,loose,0,4\nroot,0,goal,0\nroot,1,goal,1\n";
    struct wimplejade_swept swept = wimplejade_run_sweep((const uint8_t *)text, strlen(text), &slices);
    struct wimplejade_swept_list first = wimplejade_swept_at(&swept, slices.result, 1);
    struct wimplejade_swept_list second = wimplejade_swept_at(&swept, slices.result, 2);
    struct wimplejade_swept_list third = wimplejade_swept_at(&swept, slices.result, 3);
    check(swept.refusal == WIMPLEJADE_ACCEPTED && first.kept == 3 && second.kept == 3 && third.kept == 0, "swept lists");
    check(first.lines[0] == 9 && first.lines[1] == 7 && first.lines[2] == 11 && second.lines == first.lines + 3, "swept lines");
    check(first.passes == 3 && second.passes == 2 && third.passes == 1, "passes");
    check(wimplejade_swept_at(&swept, slices.result, 0).passes == 0 && wimplejade_swept_at(&swept, slices.result, 4).passes == 0
              && wimplejade_swept_at(&swept, slices.result, 17).passes == 0,
          "no passes there");
    swept = wimplejade_run_sweep((const uint8_t *)"ask,0,16\n", 9, &slices);
    check(swept.refusal == WIMPLEJADE_NUMBER && swept.place == 1 && swept.passes[0] == 0, "a sweep of a refused file");
    check(sizeof swept == 136, "the bytes of a swept answer");

    text = "ask,0,0\nfree,x\nfree,h\nop,other,0,1\ndef,g,2\ndef,h,0\nfun,f\nfree,f\ndef,k,3\n";
    struct wimplejade_late late = wimplejade_run_order((const uint8_t *)text, strlen(text), &slices);
    check(late.refusal == WIMPLEJADE_ACCEPTED && late.place == 0 && late.rows == 3, "the order check");
    check(row_is(0, 5, 1, WIMPLEJADE_LATER) && row_is(1, 5, 0, WIMPLEJADE_NEITHER) && row_is(2, 6, 0, WIMPLEJADE_NEITHER),
          "the rows of the order check");
    uint32_t (*working)[WIMPLEJADE_WORKING_WORDS] = slices.working;
    const size_t words = WIMPLEJADE_WORKING_WORDS;
    late = wimplejade_order((const uint8_t *)text, strlen(text), working[0], words, working[1], words, working[2], words,
                            working[3], words, working[4], words, working[5], words, slices.rows + 3, 2);
    check(late.refusal == WIMPLEJADE_ROOM && late.place == 3 && late.rows == 0, "a table that is too short");
    late = wimplejade_run_order((const uint8_t *)"ask,0,16\n", 9, &slices);
    check(late.refusal == WIMPLEJADE_NUMBER && late.place == 1 && late.rows == 0, "the order check of a refused file");
    check(sizeof late == 16, "the bytes of an answer of the order check");
    for (uint32_t sort = 0; sort <= 2; sort++) {
        check((strcmp(wimplejade_sort_words(sort), wimplejade_sort_words(3)) == 0) == (sort == 0), "words of a sort");
    }
    return wrong;
}
