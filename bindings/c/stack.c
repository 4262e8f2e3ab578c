/* Measures the stack that a call of each function takes on files of the deepest terms:
 *
 *     stack
 *
 * Each file is a chain of as many term lines as a file may have, each naming the one before, and three records over it.
 * The call runs in a thread whose stack was painted; what is no longer painted was used.
 */
#define _GNU_SOURCE
#include "wimplejade_helper.h"

#include <limits.h>
#include <pthread.h>
#include <stdio.h>
#include <stdlib.h>
#include <string.h>
#include <sys/mman.h>

#define MOST_TERMS 4096
#define PAINT 0xa5
#define STACK_BYTES ((size_t)64 << 20)

static char file[WIMPLEJADE_MOST_BYTES + 1];
static size_t bytes;
static struct wimplejade_slices slices;
static uint32_t refusal;

/* The ways in which a term names the one before; %d stands for its number. */
static const char *const links[] = {
    "call,f,%d\n", "op,other,%d\n", "op,and,%d\n", "op,eq,%d,%d\n", "all,%d,0\n", "some,%d,0\n", "let,%d\n", "let,0,%d\n",
    "label,%d\n",
};

static void add(const char *format, int number)
{
    bytes += (size_t)snprintf(file + bytes, sizeof file - bytes, format, number, number);
}

/* A chain of one sort of link, with a fact, a definition and a root over its end. */
static void make_file(const char *link)
{
    bytes = 0;
    add("ask,0,4\nfree,p\n", 0);
    int last = 0;
    while (last + 1 < MOST_TERMS && bytes + 100 < WIMPLEJADE_MOST_BYTES) {
        add(link, last);
        last++;
    }
    add("assume,a,0,%d\n", last);
    add("def,d,%d\n", last);
    add("root,0,r,%d\n", last);
}

static void *run_filter(void *unused)
{
    refusal = wimplejade_run((const uint8_t *)file, bytes, &slices).refusal;
    return unused;
}

static void *run_why(void *unused)
{
    refusal = wimplejade_run_why((const uint8_t *)file, bytes, 1, &slices).refusal;
    return unused;
}

static void *run_sweep(void *unused)
{
    refusal = wimplejade_run_sweep((const uint8_t *)file, bytes, &slices).refusal;
    return unused;
}

static void *run_order(void *unused)
{
    refusal = wimplejade_run_order((const uint8_t *)file, bytes, &slices).refusal;
    return unused;
}

/* The functions. */
static const struct {
    const char *name;
    void *(*run)(void *);
} calls[] = {
    {"filter", run_filter},
    {"why", run_why},
    {"sweep", run_sweep},
    {"order", run_order},
};

/* Runs a function in a thread of its own, and tells how much of the thread's stack was used. */
static size_t stack_used(void *(*body)(void *))
{
    void *memory = mmap(NULL, STACK_BYTES, PROT_READ | PROT_WRITE, MAP_PRIVATE | MAP_ANONYMOUS | MAP_STACK, -1, 0);
    if (memory == MAP_FAILED) {
        perror("mmap");
        exit(2);
    }
    memset(memory, PAINT, STACK_BYTES);
    pthread_attr_t attributes;
    pthread_t thread;
    if (pthread_attr_init(&attributes) != 0 || pthread_attr_setstack(&attributes, memory, STACK_BYTES) != 0
        || pthread_create(&thread, &attributes, body, NULL) != 0 || pthread_join(thread, NULL) != 0) {
        fprintf(stderr, "stack: no thread\n");
        exit(2);
    }
    pthread_attr_destroy(&attributes);
    size_t untouched = 0;
    while (untouched < STACK_BYTES && ((const uint8_t *)memory)[untouched] == PAINT) {
        untouched++;
    }
    munmap(memory, STACK_BYTES);
    return STACK_BYTES - untouched;
}

/* What a thread takes of its stack without a call. */
static void *nothing(void *unused)
{
    return unused;
}

int main(void)
{
    size_t own = stack_used(nothing);
    size_t most = 0;
    for (size_t call = 0; call < sizeof calls / sizeof calls[0]; call++) {
        for (size_t index = 0; index < sizeof links / sizeof links[0]; index++) {
            make_file(links[index]);
            size_t used = stack_used(calls[call].run) - own;
            printf("%7zu bytes of stack, %5zu bytes of file, refusal %u: %s, %.*s\n", used, bytes, (unsigned)refusal,
                   calls[call].name, (int)strcspn(links[index], "\n"), links[index]);
            if (refusal != WIMPLEJADE_ACCEPTED) {
                return 1;
            }
            most = used > most ? used : most;
        }
    }
    printf("%7zu bytes at most; the header asks for %u\n", most, WIMPLEJADE_STACK_BYTES);
    return most > WIMPLEJADE_STACK_BYTES;
}
