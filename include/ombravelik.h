/*
 * Ombravelik for callers in C: rules in Common Expression Language (CEL), handed over as node tables, evaluated over bindings in memory that
 * the caller lends. docs/FORMAT.md has tables, values, charges and answers; the library is the crate `board`.
 *
 * Every function takes any numbers and any contents of what is lent, and answers. It allocates nothing, keeps nothing between calls, and
 * reads and writes only what is lent to that call and the stack. Any number of threads may call, each with memory of its own for what is written.
 *
 * Slices. A slice is a pointer and then a length, in elements and not in bytes. The caller must make sure that all these elements are there and
 * aligned for their type, and that what is lent for writing overlaps with nothing else that is lent to the same call. The pointer of an empty
 * slice is not used and may be null. What is not `const` below is lent for writing.
 *
 * Cells and values. A value is two words of 64 bits, a head and a payload; a cell is those two words in a slice, so that a room for n cells
 * has 2n words. What they say is read out by `ombravelik_read` and the functions behind it, never by the caller.
 *
 * A value's text and parts lie in the lent memory. The value can be read as long as that memory is unchanged.
 *
 * Stack. A call takes up to 1,200 KiB of the calling thread's stack, however deep a rule nests; a thread that has less must not call.
 *
 * Time. Steps bound what a rule does. No step is counted for checking a table, and none for judging a binding room. For a room that bindings made,
 * judging takes time linear in its cells, and for each Map time in the pairs of its keys. For a room that someone made up it can take hours
 * (docs/FORMAT.md, "Binding rooms"). Know where stored states and rooms come from.
 */
#ifndef OMBRAVELIK_H
#define OMBRAVELIK_H

#include <stddef.h>
#include <stdint.h>

#ifdef __cplusplus
extern "C" {
#endif

/* ---- What a call answers: the number that it returns. ---- */

/* The table is accepted, the binding is brought in, the state is emptied. */
#define OMBRAVELIK_DONE 0
/* An evaluation's answers. */
#define OMBRAVELIK_VALUE 1
#define OMBRAVELIK_ERROR 2
#define OMBRAVELIK_EXHAUSTED 3
/* Nothing was evaluated or brought in, and nothing lent was changed but the answer. */
#define OMBRAVELIK_REFUSED 4
/* The slice for an answer, a shape or a part is too short, or the state to be emptied has a wrong number of words. Nothing was changed. */
#define OMBRAVELIK_NO_ROOM 255

/* ---- An answer: OMBRAVELIK_ANSWER_WORDS words, written by `check`, `bring_in` and `evaluate` unless they return OMBRAVELIK_NO_ROOM. ---- */

/* What does not apply is 0. */
#define OMBRAVELIK_ANSWER_WORDS 8
/* Which answer it is: the number that is also returned. */
#define OMBRAVELIK_ANSWER_WHICH 0
/* The number of a refusal, of an error or of the limit that is exhausted. */
#define OMBRAVELIK_ANSWER_NUMBER 1
/* The place of a refusal or an error: a byte of the table, or, for an unsound binding room, a cell. */
#define OMBRAVELIK_ANSWER_PLACE 2
/* What an evaluation was charged: steps, cells, bytes of text. */
#define OMBRAVELIK_ANSWER_STEPS 3
#define OMBRAVELIK_ANSWER_CELLS 4
#define OMBRAVELIK_ANSWER_BYTES 5
/* The words of a value. Where there is no value, the words of kind OMBRAVELIK_NOTHING. */
#define OMBRAVELIK_ANSWER_HEAD 6
#define OMBRAVELIK_ANSWER_PAYLOAD 7

/* ---- Refusals. ---- */

#define OMBRAVELIK_REFUSAL_TABLE_LENGTH 1
#define OMBRAVELIK_REFUSAL_UNKNOWN_KIND 2
#define OMBRAVELIK_REFUSAL_WRONG_EXTENT 3
#define OMBRAVELIK_REFUSAL_RECORD_NESTING 4
#define OMBRAVELIK_REFUSAL_WRONG_FIELD 5
#define OMBRAVELIK_REFUSAL_MISPLACED_MARK 6
#define OMBRAVELIK_REFUSAL_BYTES_AFTER_ROOT 7
/* Also for words that are no state. */
#define OMBRAVELIK_REFUSAL_UNSOUND_BINDING 8
#define OMBRAVELIK_REFUSAL_NOT_A_LITERAL 9
#define OMBRAVELIK_REFUSAL_BINDING_ROOM_FULL 10
#define OMBRAVELIK_REFUSAL_NAME_BOUND 11

/* ---- Errors. ---- */

#define OMBRAVELIK_ERROR_UNDECLARED_REFERENCE 1
/* UnexpectedType: a Bool is wanted. */
#define OMBRAVELIK_ERROR_BOOL_WANTED 2
#define OMBRAVELIK_ERROR_NO_OVERLOAD 3
#define OMBRAVELIK_ERROR_FUNCTION_ERROR 4
#define OMBRAVELIK_ERROR_NO_SUCH_KEY 5
#define OMBRAVELIK_ERROR_OVERFLOW 6
#define OMBRAVELIK_ERROR_DIVISION_BY_ZERO 7
#define OMBRAVELIK_ERROR_REMAINDER_BY_ZERO 8
#define OMBRAVELIK_ERROR_DUPLICATE_KEY 9
#define OMBRAVELIK_ERROR_INDEX_OUT_OF_BOUNDS 10
#define OMBRAVELIK_ERROR_UNSUPPORTED_KEY_TYPE 11
#define OMBRAVELIK_ERROR_UNORDERED 12
/* UnexpectedType: something to iterate over is wanted. */
#define OMBRAVELIK_ERROR_ITERABLE_WANTED 13

/* ---- The limit that is exhausted. ---- */

#define OMBRAVELIK_LIMIT_STEPS 1
#define OMBRAVELIK_LIMIT_CELLS 2
#define OMBRAVELIK_LIMIT_TEXT 3
#define OMBRAVELIK_LIMIT_NESTING 4

/* ---- Kinds of values. ---- */

#define OMBRAVELIK_NULL 0
#define OMBRAVELIK_BOOL 1
#define OMBRAVELIK_INT 2
#define OMBRAVELIK_UINT 3
#define OMBRAVELIK_DOUBLE 4
#define OMBRAVELIK_STRING 5
#define OMBRAVELIK_BYTES 6
#define OMBRAVELIK_LIST 12
#define OMBRAVELIK_MAP 13
#define OMBRAVELIK_OPTIONAL_NONE 14
#define OMBRAVELIK_OPTIONAL_OF 15
/* No value: there is no such part, the name is not bound, or the words are no value. */
#define OMBRAVELIK_NOTHING 16

/* ---- Where a text lies. ---- */

/* In the literal text of the table that was evaluated. */
#define OMBRAVELIK_SPACE_LITERAL 0
/* In the text of the binding room. */
#define OMBRAVELIK_SPACE_BINDING 1
/* In the text room of the evaluation. */
#define OMBRAVELIK_SPACE_EVALUATION 2

/* ---- Limits. ---- */

/*
 * A longer table is refused (OMBRAVELIK_REFUSAL_TABLE_LENGTH). The literal text beside it may have any length; a String or Bytes of it has at most
 * 65,535 bytes.
 */
#define OMBRAVELIK_MOST_TABLE_BYTES 16384
/* A higher step limit counts as this one. */
#define OMBRAVELIK_MOST_STEPS 1000000
/* For each room, the bindings' and the evaluation's: what is lent beyond these is not used. */
#define OMBRAVELIK_MOST_CELLS 4096
#define OMBRAVELIK_MOST_TEXT_BYTES 16384
/* Names are the numbers below this one; any other is refused (OMBRAVELIK_REFUSAL_WRONG_FIELD). */
#define OMBRAVELIK_NAMES 128
/* A table that nests deeper is refused (OMBRAVELIK_REFUSAL_RECORD_NESTING). */
#define OMBRAVELIK_MOST_RECORD_NESTING 64
/*
 * A binding that nests deeper is refused (OMBRAVELIK_REFUSAL_UNSOUND_BINDING); an evaluation that would build such a value is exhausted
 * (OMBRAVELIK_LIMIT_NESTING).
 */
#define OMBRAVELIK_MOST_VALUE_NESTING 32

/* ---- A state: OMBRAVELIK_STATE_WORDS words that say what a binding room holds. ---- */

/*
 * Words 2n and 2n + 1 are the value of name n, for the names below OMBRAVELIK_NAMES: a caller reads a binding out by these words. Then come the used
 * cells, the used bytes, and the number of names, by which a state is known. A state belongs to the cells and the text that its bindings were brought
 * into.
 * It is made by `ombravelik_empty` and changed by `ombravelik_bring_in`. It may be copied, stored and lent again with its cells and text.
 * `ombravelik_bring_in` and `ombravelik_evaluate` judge it and the used part of its room at every call that has room for its answer, and refuse a
 * room that is not sound (docs/FORMAT.md, "Binding rooms"). `ombravelik_evaluate` judges it only if the table is accepted.
 */
#define OMBRAVELIK_STATE_WORDS 259
#define OMBRAVELIK_STATE_CELLS 256
#define OMBRAVELIK_STATE_BYTES 257
#define OMBRAVELIK_STATE_MARK 258

/* ---- A shape: OMBRAVELIK_SHAPE_WORDS words that say what a value is, without its parts, written by `ombravelik_read`. ---- */

#define OMBRAVELIK_SHAPE_WORDS 6
/* The kind, which is also returned. */
#define OMBRAVELIK_SHAPE_KIND 0
/* A Bool as 0 or 1, an Int in two's complement, a Uint, a Double by its bits; of anything else 0. */
#define OMBRAVELIK_SHAPE_NUMBER 1
/* Of a String or of Bytes: the space, the first byte there, how many bytes; of anything else 0. */
#define OMBRAVELIK_SHAPE_SPACE 2
#define OMBRAVELIK_SHAPE_FIRST 3
#define OMBRAVELIK_SHAPE_LENGTH 4
/* The elements of a List, the entries of a Map; 1 of a present Optional; of anything else 0. */
#define OMBRAVELIK_SHAPE_COUNT 5

/* ---- A part: the OMBRAVELIK_PART_WORDS words of a value, written by `element`, `key`, `value` and `present`. ---- */

#define OMBRAVELIK_PART_WORDS 2
#define OMBRAVELIK_PART_HEAD 0
#define OMBRAVELIK_PART_PAYLOAD 1

/*
 * Whether a table is accepted, with the literal text beside it.
 * Returns OMBRAVELIK_DONE or OMBRAVELIK_REFUSED, as it stands in the answer, or OMBRAVELIK_NO_ROOM.
 * The refusals are those from OMBRAVELIK_REFUSAL_TABLE_LENGTH to OMBRAVELIK_REFUSAL_BYTES_AFTER_ROOT, each with a place.
 * Writes OMBRAVELIK_ANSWER_WORDS words of the answer. Words behind them are left unchanged.
 */
uint8_t ombravelik_check(
    const uint8_t *table, size_t table_bytes,
    const uint8_t *literal, size_t literal_bytes,
    uint64_t *answer, size_t answer_words);

/*
 * Makes a state of no bindings: every name is unbound, and all of the binding room serves again. What the state held before does not matter.
 * Returns OMBRAVELIK_DONE, or OMBRAVELIK_NO_ROOM if the state does not have exactly OMBRAVELIK_STATE_WORDS words.
 * Writes all words of the state. The binding room's cells and text are not touched.
 */
uint8_t ombravelik_empty(
    uint64_t *state, size_t state_words);

/*
 * Brings the value that a table of literals spells into a binding room, under a name below OMBRAVELIK_NAMES that has none.
 * Returns OMBRAVELIK_DONE or OMBRAVELIK_REFUSED, as it stands in the answer, or OMBRAVELIK_NO_ROOM.
 * The refusals, each with a place, in their order: the room and its state (OMBRAVELIK_REFUSAL_UNSOUND_BINDING), the name
 * (OMBRAVELIK_REFUSAL_WRONG_FIELD), whether it is bound (OMBRAVELIK_REFUSAL_NAME_BOUND), the table (what `check` refuses it for), its kinds
 * (OMBRAVELIK_REFUSAL_NOT_A_LITERAL), its keys and nesting (OMBRAVELIK_REFUSAL_UNSOUND_BINDING), the space
 * (OMBRAVELIK_REFUSAL_BINDING_ROOM_FULL).
 * When done, writes the state, and the value's cells and text behind those that were used. A refusal leaves all of these unchanged.
 * Writes OMBRAVELIK_ANSWER_WORDS words of the answer. Words behind them are left unchanged.
 */
uint8_t ombravelik_bring_in(
    uint64_t *state, size_t state_words,
    uint64_t *binding_cells, size_t binding_words,
    uint8_t *binding_text, size_t binding_bytes,
    size_t name,
    const uint8_t *table, size_t table_bytes,
    const uint8_t *literal, size_t literal_bytes,
    uint64_t *answer, size_t answer_words);

/*
 * Evaluates a rule over a binding room, in an evaluation room of cells and text, with at most `steps` steps.
 * Returns OMBRAVELIK_VALUE, OMBRAVELIK_ERROR, OMBRAVELIK_EXHAUSTED or OMBRAVELIK_REFUSED, as it stands in the answer, or OMBRAVELIK_NO_ROOM.
 * The refusals are those of `check`; then an unsound binding room, or words that are no state
 * (OMBRAVELIK_REFUSAL_UNSOUND_BINDING, with the first bad cell, 0 if no cell is bad).
 * The cells and text of the evaluation hold afterwards, below the counts: after a value what was built, after an error or exhaustion zeros.
 * Above the counts, and after a refusal everywhere, they are unchanged.
 * Writes OMBRAVELIK_ANSWER_WORDS words of the answer. Words behind them are left unchanged. The state and the binding room are only read.
 */
uint8_t ombravelik_evaluate(
    const uint8_t *table, size_t table_bytes,
    const uint8_t *literal, size_t literal_bytes,
    const uint64_t *state, size_t state_words,
    const uint64_t *binding_cells, size_t binding_words,
    const uint8_t *binding_text, size_t binding_bytes,
    uint64_t *cells, size_t words,
    uint8_t *text, size_t bytes,
    size_t steps,
    uint64_t *answer, size_t answer_words);

/*
 * What a value is, without its parts, from its words: those of an answer, of a part, or of a name in a state.
 * Returns its kind, or OMBRAVELIK_NO_ROOM.
 * Writes OMBRAVELIK_SHAPE_WORDS words of the shape. Words behind them are left unchanged.
 */
uint8_t ombravelik_read(
    uint64_t head,
    uint64_t payload,
    uint64_t *shape, size_t shape_words);

/*
 * Element `index` of a List; the key, and the value, of entry `index` of a Map; what a present Optional holds. The value's words go with the cells
 * that it was made over: those of the bindings and of the evaluation (for a value of a state the latter may be empty).
 * Each returns the kind of the part, OMBRAVELIK_NOTHING where there is no such part (`index` is too large, or the value is of another kind), or
 * OMBRAVELIK_NO_ROOM.
 * Each writes OMBRAVELIK_PART_WORDS words of the part. Words behind them are left unchanged.
 * In the rooms that an evaluation left, a part nests less deep than the value that it is a part of, so reading part by part ends.
 */
uint8_t ombravelik_element(
    const uint64_t *binding_cells, size_t binding_words,
    const uint64_t *cells, size_t words,
    uint64_t head,
    uint64_t payload,
    size_t index,
    uint64_t *part, size_t part_words);
uint8_t ombravelik_key(
    const uint64_t *binding_cells, size_t binding_words,
    const uint64_t *cells, size_t words,
    uint64_t head,
    uint64_t payload,
    size_t index,
    uint64_t *part, size_t part_words);
uint8_t ombravelik_value(
    const uint64_t *binding_cells, size_t binding_words,
    const uint64_t *cells, size_t words,
    uint64_t head,
    uint64_t payload,
    size_t index,
    uint64_t *part, size_t part_words);
uint8_t ombravelik_present(
    const uint64_t *binding_cells, size_t binding_words,
    const uint64_t *cells, size_t words,
    uint64_t head,
    uint64_t payload,
    uint64_t *part, size_t part_words);

#ifdef __cplusplus
}
#endif

#endif
