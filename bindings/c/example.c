/* Filters one file, or standard input, and prints what the program factfilter prints: a list for each ask and also line, by the
 * first engine or by the second, the rows of reasons at a position, or those of the order check.
 *
 *     example [FILE]
 *     example why POSITION [FILE]
 *     example sweep [FILE]
 *     example order [FILE]
 *
 * A refusal is also said in words on standard error, and ends the program with status 1.
 */
#include "wimplejade_helper.h"

#include <stdio.h>
#include <stdlib.h>

/* One byte more than a file may have, so that a longer one is refused for its length. */
static uint8_t file[WIMPLEJADE_MOST_BYTES + 1];

/* Memory that starts as zeros, so that every word has been written. */
static struct wimplejade_slices slices;

/* The names of the file by number. */
static struct wimplejade_names names;

/* Prints a refusal, and says it in words. */
static int refuse(uint32_t refusal, uint32_t place)
{
    printf("refused,%u,%u\n", (unsigned)refusal, (unsigned)place);
    if (wimplejade_has_line(refusal)) {
        fprintf(stderr, "line %u: ", (unsigned)place);
    }
    fprintf(stderr, "%s\n", wimplejade_words(refusal));
    return 1;
}

/* Prints a name after a comma. */
static void print_name(struct wimplejade_name name)
{
    printf(",%.*s", (int)name.length, (const char *)name.bytes);
}

/* Prints kept lines. */
static void print_kept(size_t bytes, const uint32_t *lines, uint32_t kept)
{
    for (uint32_t index = 0; index < kept; index++) {
        printf("kept,%u", (unsigned)lines[index]);
        print_name(wimplejade_name_on(file, bytes, lines[index]));
        printf("\n");
    }
}

/* Prints the list of each ask and also line. */
static int print_lists(size_t bytes)
{
    struct wimplejade_answer answer = wimplejade_run(file, bytes, &slices);
    if (answer.refusal != WIMPLEJADE_ACCEPTED) {
        return refuse(answer.refusal, answer.place);
    }
    for (uint32_t position = 1; position <= wimplejade_asks(&answer); position++) {
        struct wimplejade_list list = wimplejade_list_at(&answer, slices.result, position);
        print_kept(bytes, list.lines, list.kept);
        printf("sum,%u,%u,%u\n", (unsigned)list.kept, (unsigned)list.visits, (unsigned)list.rounds);
    }
    return 0;
}

/* Prints the rows of reasons at a position. */
static int print_reasons(size_t bytes, size_t position)
{
    struct wimplejade_reasons answer = wimplejade_run_why(file, bytes, position, &slices);
    if (answer.refusal != WIMPLEJADE_ACCEPTED) {
        return refuse(answer.refusal, answer.place);
    }
    wimplejade_number_names(file, bytes, &names);
    for (size_t index = 0; index < answer.rows; index++) {
        struct wimplejade_row row = slices.rows[index];
        printf("row,%u,%u,%u", (unsigned)row.line, (unsigned)row.number, (unsigned)row.cause);
        print_name(wimplejade_name_on(file, bytes, row.line));
        print_name(names.name[row.number]);
        print_name(wimplejade_name_on(file, bytes, row.cause));
        printf("\n");
    }
    printf("met,%zu\nrows,%zu\n", answer.met, answer.rows);
    return 0;
}

/* Prints the list of each ask and also line by the second engine. */
static int print_swept(size_t bytes)
{
    struct wimplejade_swept answer = wimplejade_run_sweep(file, bytes, &slices);
    if (answer.refusal != WIMPLEJADE_ACCEPTED) {
        return refuse(answer.refusal, answer.place);
    }
    for (uint32_t position = 1; wimplejade_swept_at(&answer, slices.result, position).passes > 0; position++) {
        struct wimplejade_swept_list list = wimplejade_swept_at(&answer, slices.result, position);
        print_kept(bytes, list.lines, list.kept);
        printf("pass,%u,%u\n", (unsigned)list.kept, (unsigned)list.passes);
    }
    return 0;
}

/* Prints the rows of the order check. */
static int print_order(size_t bytes)
{
    struct wimplejade_late answer = wimplejade_run_order(file, bytes, &slices);
    if (answer.refusal != WIMPLEJADE_ACCEPTED) {
        return refuse(answer.refusal, answer.place);
    }
    wimplejade_number_names(file, bytes, &names);
    for (size_t index = 0; index < answer.rows; index++) {
        struct wimplejade_row row = slices.rows[index];
        printf("row,%u,%u,%u", (unsigned)row.line, (unsigned)row.number, (unsigned)row.cause);
        print_name(wimplejade_name_on(file, bytes, row.line));
        print_name(names.name[row.number]);
        printf("\n");
    }
    printf("rows,%zu\n", answer.rows);
    return 0;
}

int main(int count, char **arguments)
{
    FILE *input = stdin;
    int why = count > 2 && strcmp(arguments[1], "why") == 0;
    int sweep = count > 1 && strcmp(arguments[1], "sweep") == 0;
    int order = count > 1 && strcmp(arguments[1], "order") == 0;
    int words = why ? 3 : sweep || order ? 2 : 1;
    if (count > words + 1) {
        fprintf(stderr, "usage: example [why POSITION | sweep | order] [FILE]\n");
        return 2;
    }
    if (count > words) {
        input = fopen(arguments[words], "rb");
        if (input == NULL) {
            perror(arguments[words]);
            return 2;
        }
    }
    size_t bytes = fread(file, 1, sizeof file, input);
    if (ferror(input)) {
        perror("example");
        return 2;
    }
    int status = why     ? print_reasons(bytes, strtoul(arguments[2], NULL, 10))
                 : sweep ? print_swept(bytes)
                 : order ? print_order(bytes)
                         : print_lists(bytes);
    if (fflush(stdout) != 0) {
        perror("example");
        return 2;
    }
    return status;
}
