/*
 * An example for callers in C: a flight record is brought in under name 0, rules are evaluated over it, and the answers are printed, values by
 * walking them where they lie. Tables and texts are as tools/cel/celtable compiles them. `callers/test` builds and runs this program.
 */
#include "ombravelik.h"

#include <inttypes.h>
#include <stdio.h>
#include <string.h>

#define CELLS 64
#define BYTES 256
#define MOST_PARTS 1000

/* A table with its literal text. */
struct rule {
    const uint8_t *table;
    size_t table_bytes;
    const char *literal;
    size_t literal_bytes;
};

#define RULE(table, literal) { table, sizeof table, literal, sizeof literal - 1 }

/* {"altitude": 1250, "state": "climb", "readings": [3, -1, 7], "raw": b"\x00\xff"} */
static const uint8_t record_table[] = {
    13, 96, 0, 4, 0, 5, 7, 0, 0, 0, 8, 0, 2, 11, 0, 226, 4, 0, 0, 0, 0, 0, 0, 5,
    7, 0, 8, 0, 5, 0, 5, 7, 0, 13, 0, 5, 0, 5, 7, 0, 18, 0, 8, 0, 12, 38, 0, 3,
    0, 2, 11, 0, 3, 0, 0, 0, 0, 0, 0, 0, 2, 11, 0, 255, 255, 255, 255, 255, 255, 255, 255, 2,
    11, 0, 7, 0, 0, 0, 0, 0, 0, 0, 5, 7, 0, 26, 0, 3, 0, 6, 7, 0, 29, 0, 2, 0,
};
static const struct rule record = RULE(record_table, "altitudestateclimbreadingsraw\0\xff");

/* {"fly": r.altitude > 1000 && r.state in ["climb", "cruise"], "rising": r.readings.filter(x, x > 0), "label": r.state + "!",
   "wind": optional.of(r.?wind.orValue(0.5))}, with name 0 for r */
static const uint8_t report_table[] = {
    13, 229, 0, 4, 0, 5, 7, 0, 0, 0, 3, 0, 9, 66, 0, 2, 9, 27, 0, 15, 11, 12, 0, 0,
    3, 0, 8, 0, 7, 4, 0, 0, 2, 11, 0, 232, 3, 0, 0, 0, 0, 0, 0, 9, 35, 0, 17, 11,
    12, 0, 0, 11, 0, 5, 0, 7, 4, 0, 0, 12, 19, 0, 2, 0, 5, 7, 0, 16, 0, 5, 0, 5,
    7, 0, 21, 0, 6, 0, 5, 7, 0, 27, 0, 6, 0, 15, 73, 0, 127, 1, 11, 12, 0, 0, 33, 0,
    8, 0, 7, 4, 0, 0, 12, 5, 0, 0, 0, 1, 4, 0, 1, 10, 43, 0, 9, 19, 0, 15, 7, 4,
    0, 1, 2, 11, 0, 0, 0, 0, 0, 0, 0, 0, 0, 9, 17, 0, 8, 7, 4, 0, 127, 12, 9, 0,
    1, 0, 7, 4, 0, 1, 7, 4, 0, 127, 7, 4, 0, 127, 5, 7, 0, 41, 0, 5, 0, 9, 23, 0,
    8, 11, 12, 0, 0, 11, 0, 5, 0, 7, 4, 0, 0, 5, 7, 0, 46, 0, 1, 0, 5, 7, 0, 47,
    0, 4, 0, 16, 34, 0, 2, 16, 30, 0, 6, 9, 15, 0, 7, 7, 4, 0, 0, 5, 7, 0, 47, 0,
    4, 0, 4, 11, 0, 0, 0, 0, 0, 0, 0, 224, 63,
};
static const struct rule report = RULE(report_table, "flyaltitudestateclimbcruiserisingreadingslabel!wind");

/* r.altitude / r.count */
static const uint8_t ratio_table[] = {
    9, 28, 0, 10, 11, 12, 0, 0, 0, 0, 8, 0, 7, 4, 0, 0, 11, 12, 0, 0, 8, 0, 5, 0,
    7, 4, 0, 0,
};
static const struct rule ratio = RULE(ratio_table, "altitudecount");

/* `!` without an operand */
static const uint8_t cut_table[] = {8, 4, 0, 1};
static const struct rule cut = RULE(cut_table, "");

/* The memory that is lent: the bindings with their state, and the room of an evaluation. */
struct lent {
    uint64_t state[OMBRAVELIK_STATE_WORDS];
    uint64_t binding_cells[2 * CELLS];
    uint8_t binding_text[BYTES];
    uint64_t cells[2 * CELLS];
    uint8_t text[BYTES];
};

static const char *const refusals[] = {
    [OMBRAVELIK_REFUSAL_TABLE_LENGTH] = "table length",
    [OMBRAVELIK_REFUSAL_UNKNOWN_KIND] = "unknown kind",
    [OMBRAVELIK_REFUSAL_WRONG_EXTENT] = "wrong extent",
    [OMBRAVELIK_REFUSAL_RECORD_NESTING] = "record nesting",
    [OMBRAVELIK_REFUSAL_WRONG_FIELD] = "wrong field",
    [OMBRAVELIK_REFUSAL_MISPLACED_MARK] = "misplaced mark",
    [OMBRAVELIK_REFUSAL_BYTES_AFTER_ROOT] = "bytes after the root",
    [OMBRAVELIK_REFUSAL_UNSOUND_BINDING] = "unsound binding",
    [OMBRAVELIK_REFUSAL_NOT_A_LITERAL] = "not a literal",
    [OMBRAVELIK_REFUSAL_BINDING_ROOM_FULL] = "binding room full",
    [OMBRAVELIK_REFUSAL_NAME_BOUND] = "name bound",
};

static const char *const errors[] = {
    [OMBRAVELIK_ERROR_UNDECLARED_REFERENCE] = "undeclared reference",
    [OMBRAVELIK_ERROR_BOOL_WANTED] = "a Bool is wanted",
    [OMBRAVELIK_ERROR_NO_OVERLOAD] = "no overload",
    [OMBRAVELIK_ERROR_FUNCTION_ERROR] = "function error",
    [OMBRAVELIK_ERROR_NO_SUCH_KEY] = "no such key",
    [OMBRAVELIK_ERROR_OVERFLOW] = "overflow",
    [OMBRAVELIK_ERROR_DIVISION_BY_ZERO] = "division by zero",
    [OMBRAVELIK_ERROR_REMAINDER_BY_ZERO] = "remainder by zero",
    [OMBRAVELIK_ERROR_DUPLICATE_KEY] = "duplicate key",
    [OMBRAVELIK_ERROR_INDEX_OUT_OF_BOUNDS] = "index out of bounds",
    [OMBRAVELIK_ERROR_UNSUPPORTED_KEY_TYPE] = "unsupported key type",
    [OMBRAVELIK_ERROR_UNORDERED] = "unordered",
    [OMBRAVELIK_ERROR_ITERABLE_WANTED] = "something to iterate over is wanted",
};

static const char *const limits[] = {
    [OMBRAVELIK_LIMIT_STEPS] = "steps",
    [OMBRAVELIK_LIMIT_CELLS] = "cells",
    [OMBRAVELIK_LIMIT_TEXT] = "text",
    [OMBRAVELIK_LIMIT_NESTING] = "nesting",
};

/* A value's text, where it lies. */
static const uint8_t *text_of(const struct lent *lent, const struct rule *rule, const uint64_t *shape) {
    const uint8_t *space = shape[OMBRAVELIK_SHAPE_SPACE] == OMBRAVELIK_SPACE_LITERAL   ? (const uint8_t *)rule->literal
                           : shape[OMBRAVELIK_SHAPE_SPACE] == OMBRAVELIK_SPACE_BINDING ? lent->binding_text
                                                                                       : lent->text;
    return space + shape[OMBRAVELIK_SHAPE_FIRST];
}

static double double_of(uint64_t bits) {
    double number;
    memcpy(&number, &bits, sizeof number);
    return number;
}

static void print_value(const struct lent *lent, const struct rule *rule, uint64_t head, uint64_t payload, int *left);

/* The elements of a List; the keys and values of a Map; what a present Optional holds. */
static void print_parts(const struct lent *lent, const struct rule *rule, uint64_t head, uint64_t payload, const uint64_t *shape, int *left) {
    const uint64_t *bound = lent->binding_cells, *cells = lent->cells;
    uint64_t part[OMBRAVELIK_PART_WORDS];
    for (size_t index = 0; index < shape[OMBRAVELIK_SHAPE_COUNT]; index++) {
        printf(index == 0 ? "" : ", ");
        if (shape[OMBRAVELIK_SHAPE_KIND] == OMBRAVELIK_MAP) {
            ombravelik_key(bound, 2 * CELLS, cells, 2 * CELLS, head, payload, index, part, OMBRAVELIK_PART_WORDS);
            print_value(lent, rule, part[OMBRAVELIK_PART_HEAD], part[OMBRAVELIK_PART_PAYLOAD], left);
            printf(": ");
            ombravelik_value(bound, 2 * CELLS, cells, 2 * CELLS, head, payload, index, part, OMBRAVELIK_PART_WORDS);
        } else if (shape[OMBRAVELIK_SHAPE_KIND] == OMBRAVELIK_LIST) {
            ombravelik_element(bound, 2 * CELLS, cells, 2 * CELLS, head, payload, index, part, OMBRAVELIK_PART_WORDS);
        } else {
            ombravelik_present(bound, 2 * CELLS, cells, 2 * CELLS, head, payload, part, OMBRAVELIK_PART_WORDS);
        }
        print_value(lent, rule, part[OMBRAVELIK_PART_HEAD], part[OMBRAVELIK_PART_PAYLOAD], left);
        if (*left <= 0) return;
    }
}

/* A value with its parts, as long as some of the most parts are left: parts can be shared, and a few cells spell billions of them. */
static void print_value(const struct lent *lent, const struct rule *rule, uint64_t head, uint64_t payload, int *left) {
    uint64_t shape[OMBRAVELIK_SHAPE_WORDS];
    uint8_t kind = ombravelik_read(head, payload, shape, OMBRAVELIK_SHAPE_WORDS);
    uint64_t number = shape[OMBRAVELIK_SHAPE_NUMBER];
    if (--*left < 0) {
        printf("...");
        return;
    }
    switch (kind) {
    case OMBRAVELIK_NULL: printf("null"); break;
    case OMBRAVELIK_BOOL: printf(number ? "true" : "false"); break;
    case OMBRAVELIK_INT: printf("%" PRId64, (int64_t)number); break;
    case OMBRAVELIK_UINT: printf("%" PRIu64 "u", number); break;
    case OMBRAVELIK_DOUBLE: printf("%.17g", double_of(number)); break;
    case OMBRAVELIK_STRING: printf("\"%.*s\"", (int)shape[OMBRAVELIK_SHAPE_LENGTH], (const char *)text_of(lent, rule, shape)); break;
    case OMBRAVELIK_BYTES:
        printf("b\"");
        for (size_t at = 0; at < shape[OMBRAVELIK_SHAPE_LENGTH]; at++) printf("\\x%02x", text_of(lent, rule, shape)[at]);
        printf("\"");
        break;
    case OMBRAVELIK_LIST:
    case OMBRAVELIK_MAP:
    case OMBRAVELIK_OPTIONAL_OF:
        printf(kind == OMBRAVELIK_LIST ? "[" : kind == OMBRAVELIK_MAP ? "{" : "optional.of(");
        print_parts(lent, rule, head, payload, shape, left);
        printf(kind == OMBRAVELIK_LIST ? "]" : kind == OMBRAVELIK_MAP ? "}" : ")");
        break;
    case OMBRAVELIK_OPTIONAL_NONE: printf("optional.none()"); break;
    default: printf("nothing"); break;
    }
}

static void print_answer(const struct lent *lent, const struct rule *rule, const uint64_t *answer) {
    uint64_t number = answer[OMBRAVELIK_ANSWER_NUMBER], place = answer[OMBRAVELIK_ANSWER_PLACE];
    int left = MOST_PARTS;
    switch (answer[OMBRAVELIK_ANSWER_WHICH]) {
    case OMBRAVELIK_DONE: printf("done\n"); return;
    case OMBRAVELIK_REFUSED: printf("refused: %s at %" PRIu64 "\n", refusals[number], place); return;
    case OMBRAVELIK_ERROR: printf("error: %s at %" PRIu64, errors[number], place); break;
    case OMBRAVELIK_EXHAUSTED: printf("exhausted: %s", limits[number]); break;
    default: print_value(lent, rule, answer[OMBRAVELIK_ANSWER_HEAD], answer[OMBRAVELIK_ANSWER_PAYLOAD], &left); break;
    }
    printf(" (steps %" PRIu64 ", cells %" PRIu64 ", bytes %" PRIu64 ")\n", answer[OMBRAVELIK_ANSWER_STEPS], answer[OMBRAVELIK_ANSWER_CELLS],
           answer[OMBRAVELIK_ANSWER_BYTES]);
}

static void bring_in(struct lent *lent, size_t name, const struct rule *value) {
    uint64_t answer[OMBRAVELIK_ANSWER_WORDS];
    ombravelik_bring_in(lent->state, OMBRAVELIK_STATE_WORDS, lent->binding_cells, 2 * CELLS, lent->binding_text, BYTES, name, value->table,
                        value->table_bytes, (const uint8_t *)value->literal, value->literal_bytes, answer, OMBRAVELIK_ANSWER_WORDS);
    printf("bring in: ");
    print_answer(lent, value, answer);
}

static void evaluate(struct lent *lent, const char *title, const struct rule *rule, size_t steps) {
    uint64_t answer[OMBRAVELIK_ANSWER_WORDS];
    ombravelik_evaluate(rule->table, rule->table_bytes, (const uint8_t *)rule->literal, rule->literal_bytes, lent->state, OMBRAVELIK_STATE_WORDS,
                        lent->binding_cells, 2 * CELLS, lent->binding_text, BYTES, lent->cells, 2 * CELLS, lent->text, BYTES, steps, answer,
                        OMBRAVELIK_ANSWER_WORDS);
    printf("%s: ", title);
    print_answer(lent, rule, answer);
}

static void check(const struct rule *rule) {
    uint64_t answer[OMBRAVELIK_ANSWER_WORDS];
    ombravelik_check(rule->table, rule->table_bytes, (const uint8_t *)rule->literal, rule->literal_bytes, answer, OMBRAVELIK_ANSWER_WORDS);
    printf("check: ");
    print_answer(NULL, rule, answer);
}

int main(void) {
    static struct lent lent;
    int left = MOST_PARTS;
    ombravelik_empty(lent.state, OMBRAVELIK_STATE_WORDS);
    bring_in(&lent, 0, &record);
    bring_in(&lent, 0, &record);
    printf("r: ");
    print_value(&lent, &record, lent.state[0], lent.state[1], &left);
    printf("\n");
    check(&report);
    check(&cut);
    evaluate(&lent, "report", &report, 1000);
    evaluate(&lent, "report, 40 steps", &report, 40);
    evaluate(&lent, "ratio", &ratio, 1000);
    evaluate(&lent, "cut", &cut, 1000);
    ombravelik_empty(lent.state, OMBRAVELIK_STATE_WORDS);
    evaluate(&lent, "report, emptied", &report, 1000);
    return 0;
}
