/*
 * stack CALL BYTES: reads a table from standard input, hands it to one of the library's calls, `check`, `bring_in` or `evaluate`, on a stack of that
 * size that was painted beforehand, and prints how many bytes of the paint are gone, and of the answer which it is, its number and its steps. What
 * would pass the stack's end meets memory that may not be touched. callers/stack.py runs it with the deepest tables.
 */
#define _DEFAULT_SOURCE
#include "ombravelik.h"

#include <inttypes.h>
#include <pthread.h>
#include <stdio.h>
#include <stdlib.h>
#include <string.h>
#include <sys/mman.h>

#define GUARD_BYTES ((size_t)1 << 20)
#define PAINT 0xA5
#define ROOM_WORDS (2 * OMBRAVELIK_MOST_CELLS)

typedef void *call(void *);

static uint8_t table[OMBRAVELIK_MOST_TABLE_BYTES + 1];
static size_t table_bytes;
static uint64_t state[OMBRAVELIK_STATE_WORDS], bound[ROOM_WORDS], cells[ROOM_WORDS], answer[OMBRAVELIK_ANSWER_WORDS];

static void *check(void *nothing) {
    ombravelik_check(table, table_bytes, NULL, 0, answer, OMBRAVELIK_ANSWER_WORDS);
    return nothing;
}

/* Under two names, so that the second call judges a room that holds the value already. */
static void *bring_in(void *nothing) {
    for (size_t name = 0; name < 2; name++)
        ombravelik_bring_in(state, OMBRAVELIK_STATE_WORDS, bound, ROOM_WORDS, NULL, 0, name, table, table_bytes, NULL, 0, answer,
                            OMBRAVELIK_ANSWER_WORDS);
    return nothing;
}

static void *evaluate(void *nothing) {
    ombravelik_evaluate(table, table_bytes, NULL, 0, state, OMBRAVELIK_STATE_WORDS, bound, ROOM_WORDS, NULL, 0, cells, ROOM_WORDS, NULL, 0,
                        OMBRAVELIK_MOST_STEPS, answer, OMBRAVELIK_ANSWER_WORDS);
    return nothing;
}

static call *call_named(const char *name) {
    if (strcmp(name, "check") == 0) return check;
    if (strcmp(name, "bring_in") == 0) return bring_in;
    return strcmp(name, "evaluate") == 0 ? evaluate : NULL;
}

/* Memory for a stack, painted, with memory below it that may not be touched. */
static unsigned char *painted(size_t bytes) {
    unsigned char *guard = mmap(NULL, GUARD_BYTES + bytes, PROT_NONE, MAP_PRIVATE | MAP_ANONYMOUS, -1, 0);
    if (guard == MAP_FAILED || mprotect(guard + GUARD_BYTES, bytes, PROT_READ | PROT_WRITE) != 0) return NULL;
    return memset(guard + GUARD_BYTES, PAINT, bytes);
}

static int ran_on(unsigned char *stack, size_t bytes, call *work) {
    pthread_attr_t attributes;
    pthread_t thread;
    return pthread_attr_init(&attributes) == 0 && pthread_attr_setstack(&attributes, stack, bytes) == 0 &&
           pthread_create(&thread, &attributes, work, NULL) == 0 && pthread_join(thread, NULL) == 0;
}

int main(int count, char **words) {
    call *work = count == 3 ? call_named(words[1]) : NULL;
    size_t bytes = count == 3 ? (size_t)strtoull(words[2], NULL, 10) : 0, left = 0;
    unsigned char *stack = bytes > 0 ? painted(bytes) : NULL;
    if (work == NULL || stack == NULL) return 1;
    table_bytes = fread(table, 1, sizeof table, stdin);
    ombravelik_empty(state, OMBRAVELIK_STATE_WORDS);
    if (!ran_on(stack, bytes, work)) return 1;
    while (left < bytes && stack[left] == PAINT) left++;
    printf("%zu %" PRIu64 " %" PRIu64 " %" PRIu64 "\n", bytes - left, answer[OMBRAVELIK_ANSWER_WHICH], answer[OMBRAVELIK_ANSWER_NUMBER],
           answer[OMBRAVELIK_ANSWER_STEPS]);
    return 0;
}
