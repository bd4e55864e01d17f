/* route_record.h: the C interface of the route-record library (crates/route_c/out/libroute_c.a).
 *
 * Arrays: a pointer and the length that follows it are one array. A length counts elements, not
 * bytes; the bytes of an array are fewer than 2^63. A null pointer is fine with length 0. An array
 * of numbers is aligned for its type. An array that a call may change (a pointer without const)
 * overlaps no other argument, and need not be initialised: a call reads nothing of it. From the
 * call until its return nothing else changes any of the arrays.
 *
 * Answers: every call is defined on every index and on every content of its arrays. It is accepted
 * or refused; a refused call changes nothing. The comment of each call gives its refusals in the
 * order in which they are checked. Sums and products there are exact: none wraps.
 *
 * It is for C from C99 on and for C++ from C++11 on. */

#ifndef ROUTE_RECORD_H
#define ROUTE_RECORD_H

#include <stddef.h>
#include <stdint.h>

/* The version of this interface, 0.1.0: 10000 times the first number, 100 times the second, and the
 * third. */
#define ROUTE_RECORD_VERSION 100

/* Marks a call, so that a compiler that can warns where the call's answer is not looked at. */
#if defined(__cplusplus) && __cplusplus >= 201703L || \
    defined(__STDC_VERSION__) && __STDC_VERSION__ >= 202311L
#define ROUTE_NODISCARD [[nodiscard]]
#elif defined(__GNUC__)
#define ROUTE_NODISCARD __attribute__((warn_unused_result))
#else
#define ROUTE_NODISCARD
#endif

#ifdef __cplusplus
extern "C" {
#endif

enum {
    ROUTE_MAX_GRAMMAR_WORDS = 1794, /* the words of the largest grammar table */
    ROUTE_MAX_GRAMMARS = 16,        /* the grammars of the longest grammar list */
    ROUTE_MAX_LIST_WORDS = 28721,   /* the words of that list, with the largest grammars */
    ROUTE_MAX_BYTES = 1048576,      /* the bytes of the longest record, XDR or store */
    ROUTE_MAX_ROWS = 4096,          /* the rows of the largest value */
    ROUTE_CHECK_ROWS = 1024,        /* the rows of a check that is not told how many */
    ROUTE_ROW_WORDS = 5             /* the words of a row */
};

/* The kinds of grammar nodes and of rows. */
enum {
    ROUTE_KIND_CONSTANT = 0,
    ROUTE_KIND_UINT32 = 1,
    ROUTE_KIND_UINT64 = 2,
    ROUTE_KIND_ARRAY = 3,
    ROUTE_KIND_TUPLE = 4,
    ROUTE_KIND_BYTE_ARRAY = 5,
    ROUTE_KIND_UINT32_ARRAY = 6,
    ROUTE_KIND_UINT64_ARRAY = 7,
    ROUTE_KIND_TAGGED_UNION = 8,
    ROUTE_KIND_INT32 = 9,
    ROUTE_KIND_INT64 = 10
};

/* What the place of a refusal counts. */
enum { ROUTE_PLACE_NONE = 0, ROUTE_PLACE_WORD = 1, ROUTE_PLACE_BYTE = 2, ROUTE_PLACE_ROW = 3 };

/* The refusals; route_refusal_meaning says what each means. No call here gives 19, which is the
 * show program's. */
enum {
    ROUTE_REFUSED_NODE_COUNT = 1,
    ROUTE_REFUSED_GRAMMAR_LENGTH = 2,
    ROUTE_REFUSED_NODE_KIND = 3,
    ROUTE_REFUSED_NODE_CHILDREN = 4,
    ROUTE_REFUSED_CHILD_NUMBER = 5,
    ROUTE_REFUSED_BYTES_TOO_LONG = 6,
    ROUTE_REFUSED_INDEX_PAST_END = 7,
    ROUTE_REFUSED_ROWS_EXHAUSTED = 8,
    ROUTE_REFUSED_BYTES_MISSING = 9,
    ROUTE_REFUSED_TAG_UNKNOWN = 10,
    ROUTE_REFUSED_BYTES_LEFT_OVER = 11,
    ROUTE_REFUSED_ROW_COUNT = 12,
    ROUTE_REFUSED_ROW_MALFORMED = 13,
    ROUTE_REFUSED_ARRAY_OUTSIDE_STORE = 14,
    ROUTE_REFUSED_NOT_IN_GRAMMAR = 15,
    ROUTE_REFUSED_SIZE_TOO_LARGE = 16,
    ROUTE_REFUSED_OUTPUT_TOO_SHORT = 17,
    ROUTE_REFUSED_NOT_AN_ARRAY = 18,
    ROUTE_REFUSED_INPUT_LAYOUT = 19,
    ROUTE_REFUSED_NOT_SIGNED = 20,
    ROUTE_REFUSED_LIST_LAYOUT = 21,
    ROUTE_REFUSED_NO_GRAMMAR_ACCEPTS = 22,
    ROUTE_REFUSED_PADDING_NOT_ZERO = 23
};

typedef struct route_answer {
    uint64_t number;     /* 0: accepted; else the refusal, ROUTE_REFUSED_.. */
    uint64_t place_kind; /* of a refusal what its place counts, ROUTE_PLACE_..; 0 if accepted */
    uint64_t place;      /* of a refusal: which word, byte or row; 0 if accepted */
    uint64_t first;      /* the first value of an accepted call that gives one; else 0 */
    uint64_t second;     /* the second value of an accepted call that gives two; of a refusal of
                            route_same_route which record, 1 or 2; else 0 */
} route_answer;

/* The calls are compiled for these sizes. */
#if defined(__cplusplus) || defined(__STDC_VERSION__) && __STDC_VERSION__ >= 202311L
static_assert(sizeof(route_answer) == 40, "an answer is five words");
static_assert(sizeof(size_t) == 8, "a length has 64 bits");
#elif defined(__STDC_VERSION__) && __STDC_VERSION__ >= 201112L
_Static_assert(sizeof(route_answer) == 40, "an answer is five words");
_Static_assert(sizeof(size_t) == 8, "a length has 64 bits");
#endif

/* What a refusal means; "there" is its place. */
static inline const char *route_refusal_meaning(uint64_t number)
{
    switch (number) {
    case ROUTE_REFUSED_NODE_COUNT:
        return "the table is empty, or its node count is not 1 to 256";
    case ROUTE_REFUSED_GRAMMAR_LENGTH:
        return "the count of child words is missing or above 1,024, or the table's length does "
               "not fit it";
    case ROUTE_REFUSED_NODE_KIND:
        return "the node's kind is above 10";
    case ROUTE_REFUSED_NODE_CHILDREN:
        return "the node's first or count breaks the rule of its kind, or reaches past the child "
               "words";
    case ROUTE_REFUSED_CHILD_NUMBER:
        return "the child's number is not above its node's, or there is no such node";
    case ROUTE_REFUSED_BYTES_TOO_LONG:
        return "the record or store is longer than 1,048,576 bytes";
    case ROUTE_REFUSED_INDEX_PAST_END:
        return "the index is above the length";
    case ROUTE_REFUSED_ROWS_EXHAUSTED:
        return "no row is left for the value that starts there, or too few for the elements that "
               "it counts";
    case ROUTE_REFUSED_BYTES_MISSING:
        return "the value that starts there is cut short";
    case ROUTE_REFUSED_TAG_UNKNOWN:
        return "no case has the tag of the value that starts there";
    case ROUTE_REFUSED_BYTES_LEFT_OVER:
        return "the value ends there, and bytes follow it";
    case ROUTE_REFUSED_ROW_COUNT:
        return "the row count is 0, above 4,096 or above the rows given";
    case ROUTE_REFUSED_ROW_MALFORMED:
        return "the row breaks the layout of a value";
    case ROUTE_REFUSED_ARRAY_OUTSIDE_STORE:
        return "the row's array lies or reaches past the end of the store";
    case ROUTE_REFUSED_NOT_IN_GRAMMAR:
        return "the row's kind, field count or tag does not fit its node of the grammar";
    case ROUTE_REFUSED_SIZE_TOO_LARGE:
        return "the value's record or XDR is longer than 1,048,576 bytes";
    case ROUTE_REFUSED_OUTPUT_TOO_SHORT:
        return "the output or store ends there, before what is to be written does";
    case ROUTE_REFUSED_NOT_AN_ARRAY:
        return "there is no such row, or its kind is not 5, 6 or 7";
    case ROUTE_REFUSED_INPUT_LAYOUT:
        return "the input is not a grammar and a record as the program wants them";
    case ROUTE_REFUSED_NOT_SIGNED:
        return "there is no such row, or its kind is not 9 or 10";
    case ROUTE_REFUSED_LIST_LAYOUT:
        return "the list is empty, its count of grammars is not 1 to 16, or its length does not "
               "fit its word counts";
    case ROUTE_REFUSED_NO_GRAMMAR_ACCEPTS:
        return "no grammar of the list accepts the record whole";
    case ROUTE_REFUSED_PADDING_NOT_ZERO:
        return "the padding of the byte array that starts there is not zero";
    default:
        return "no refusal has this number";
    }
}

/* Packed integers: a number is 4 or 8 bytes, least byte first, the sum of byte i times 256 to the
 * power i. */

/* Gives in `first` the number in the 4 bytes at index. Changes nothing.
 * Refused: 7 at byte index, when index is above packed_len;
 * 9 at byte index, when fewer than 4 bytes are left. */
ROUTE_NODISCARD
route_answer route_unpack_u32(const uint8_t *packed, size_t packed_len, size_t index);

/* Gives in `first` the number in the 8 bytes at index. Changes nothing.
 * Refused: 7 at byte index, when index is above packed_len;
 * 9 at byte index, when fewer than 8 bytes are left. */
ROUTE_NODISCARD
route_answer route_unpack_u64(const uint8_t *packed, size_t packed_len, size_t index);

/* Writes the 4 bytes of n at index. Changes only these bytes of out.
 * Refused: 17 at byte out_len, when index + 4 is above out_len. */
ROUTE_NODISCARD
route_answer route_pack_u32(uint32_t n, uint8_t *out, size_t out_len, size_t index);

/* Writes the 8 bytes of n at index. Changes only these bytes of out.
 * Refused: 17 at byte out_len, when index + 8 is above out_len. */
ROUTE_NODISCARD
route_answer route_pack_u64(uint64_t n, uint8_t *out, size_t out_len, size_t index);

/* Fills numbers from the bytes at index, 4 to a number, one behind the other. Changes only numbers.
 * Refused: 7 at byte index, when index is above packed_len;
 * 9 at byte index, when fewer than 4 * numbers_len bytes are left. */
ROUTE_NODISCARD
route_answer route_unpack_u32_seq(const uint8_t *packed, size_t packed_len, size_t index,
                                  uint32_t *numbers, size_t numbers_len);

/* Fills numbers from the bytes at index, 8 to a number, one behind the other. Changes only numbers.
 * Refused: 7 at byte index, when index is above packed_len;
 * 9 at byte index, when fewer than 8 * numbers_len bytes are left. */
ROUTE_NODISCARD
route_answer route_unpack_u64_seq(const uint8_t *packed, size_t packed_len, size_t index,
                                  uint64_t *numbers, size_t numbers_len);

/* Writes the numbers at index, 4 bytes each, one behind the other. Changes only these bytes of out.
 * Refused: 17 at byte out_len, when index + 4 * numbers_len is above out_len. */
ROUTE_NODISCARD
route_answer route_pack_u32_seq(const uint32_t *numbers, size_t numbers_len, uint8_t *out,
                                size_t out_len, size_t index);

/* Writes the numbers at index, 8 bytes each, one behind the other. Changes only these bytes of out.
 * Refused: 17 at byte out_len, when index + 8 * numbers_len is above out_len. */
ROUTE_NODISCARD
route_answer route_pack_u64_seq(const uint64_t *numbers, size_t numbers_len, uint8_t *out,
                                size_t out_len, size_t index);

/* Grammar tables: word 0 is N, the node count. Node k is the words kind, first and count, from word
 * 1 + 3k on. Word 1 + 3N is M; M child words follow, and the table ends. Node 0 is the root. The
 * children of a node are the child words first to first + count - 1, each a node's number. Kinds:
 * 0 constant, 1 uint32, 2 uint64, 3 array, 4 tuple, 5 array of bytes, 6 array of uint32, 7 array of
 * uint64, 8 tagged union, 9 int32, 10 int64. */

/* Accepts the words that are a sound table; child words of no node are not looked at. Changes
 * nothing.
 * Refused: 1 at word 0, when words_len is 0, or N is 0 or above 256;
 * 2 at word 1 + 3N, when M's word is missing, M is above 1024, or words_len is not 2 + 3N + M;
 * then, node after node, from node 0 on:
 * 3 at word 1 + 3k, when the kind of node k is above 10;
 * 4 at word 2 + 3k, when its kind is 3 and its count not 1, when its kind is 0, 1, 2, 5, 6, 7, 9 or
 * 10 and its first or count not 0, or when first + count is above M;
 * 5 at the word of its first child whose number is not above k or not below N. */
ROUTE_NODISCARD
route_answer route_check_grammar(const uint32_t *words, size_t words_len);

/* Value rows: row i is the words kind, span, word 2, word 3 and size, from word 5i on. Kinds are
 * those of grammar tables. The span is the number of rows of the value, its own included; the rows
 * of its children follow its own, child after child. Word 2 is 0 for kind 0, the number for kinds 1
 * and 2, the count of elements for kinds 3 to 7, the tag for kind 8; for kinds 9 and 10 it is the
 * number's two's complement pattern as an unsigned number, (uint32_t)-3 for the int32 -3, so for
 * kind 9 below 4294967296. Word 3 is the offset of the first element in the store for kinds 5 to 7,
 * else 0. The size is that of the value in bytes, the length of its record: for kind 0, 0; kinds 1
 * and 9, 4; kinds 2 and 10, 8; kind 3, 8 and the sizes of its children; kind 4, the sizes of its
 * children; kinds 5 to 7, 8 and the count times 1, 4 or 8; kind 8, 8 and the size of its child.
 * Words behind row n - 1 are not looked at. A call uses less than 1 MiB of stack, on values as deep
 * as 4096 rows can be. */

/* Gives in `first` the size in bytes of the value that rows 0 to n - 1 stand for, which is the size
 * in row 0: the length of its record, at most 4293951488. Changes nothing.
 * Refused: 6 at byte 0, when store_len is above 1048576;
 * 12 at row 0, when n is 0 or above 4096, or 5 * n is above rows_len;
 * 13 at row 0, when its span is not n;
 * then, row after row, from row 0 on:
 * 13 at the row, when its kind is above 10; when its span is 0, reaches past its parent's end, or
 * is not 1 for kind 0, 1, 2, 5, 6, 7, 9 or 10; when word 2 of kind 0 or word 3 of kind 0, 1, 2, 3,
 * 4, 8, 9 or 10 is not 0; or when its kind is 1 or 9 and its word 2 above 4294967295;
 * 14 at the row, when its kind is 5, 6 or 7 and its offset plus its count times 1, 4 or 8 is above
 * store_len, count 0 too;
 * then its children, as many as word 2 says for kinds 3 and 4, one for kind 8, and behind them
 * 13 at the row, when a child is missing or rows of its span are left over, which are not
 * looked at; or when its size is not that of its value. */
ROUTE_NODISCARD
route_answer route_compute_size_of(const uint64_t *rows, size_t rows_len, size_t n,
                                   const uint8_t *store, size_t store_len);

/* Gives where the elements of a row of kind 5, 6 or 7 lie in the store: in `first` the offset of
 * their first byte, in `second` how many bytes. Changes nothing.
 * Refused: as route_compute_size_of;
 * 18 at the row, when row is not below n or its kind is not 5, 6 or 7. */
ROUTE_NODISCARD
route_answer route_locate_array(const uint64_t *rows, size_t rows_len, size_t n,
                                const uint8_t *store, size_t store_len, size_t row);

/* Gives in `first` the number of a row of kind 9 or 10 as a two's complement pattern of 64 bits for
 * both kinds: (int64_t)a.first of the answer a is the number. C23 and C++20 define that cast so,
 * and GCC and Clang do in every version of the languages. Changes nothing.
 * Refused: as route_compute_size_of;
 * 20 at the row, when row is not below n or its kind is not 9 or 10. */
ROUTE_NODISCARD
route_answer route_signed_number(const uint64_t *rows, size_t rows_len, size_t n,
                                 const uint8_t *store, size_t store_len, size_t row);

/* Reading: the bytes of a value are, for kind 0, none; kinds 1 and 9, 4; kinds 2 and 10, 8; kinds
 * 3, 5, 6 and 7, an 8-byte count of elements and the elements; kind 4, its fields in order; kind 8,
 * an 8-byte tag and the value of that case. Each number is least byte first, a signed one in two's
 * complement. A call reads a value of node 0 of the grammar and gives in `first` its row count n,
 * in `second` the first byte behind it. It uses less than 64 KiB of stack, on grammars as deep as
 * 256 nodes can be.
 *
 * Cut records: a proper front part of a record is its first bytes, from none to all but one. The
 * capacity is the number of rows lent; for a check it is the one named, at most 4096, and 1024
 * where none is named. It is proved (docs/PROMISES.md, request 04) of the whole reading
 * (route_demarshall, route_check_whole, route_check_whole_with) that every proper front part of a
 * record that is accepted, with the same grammar and capacity, is refused with 9 and with nothing
 * else. What a program may conclude: if a record that this grammar and capacity accept was cut, the
 * answer is 9; so an answer other than 9, accepted too, is never that of such a record with its
 * tail lost, and sending again on 9 alone misses none of them. A 9 may have another cause, so
 * sending again should have an end.
 *
 * 9 does not mean a cut record: under a tagged union without cases, which has no record, the empty
 * bytes are refused with 9, at any capacity but 0. And of a reading from an index (route_parse_val,
 * route_check_val, route_check_val_with) the statement is false: under a uint32, from byte 0 on, 9
 * bytes are accepted, and the first 5 of them too. Nor does it hold of route_choose_grammar: what
 * is left of a cut record may be a whole record of another grammar of the list, and where no
 * grammar accepts it the answer is 22. route_accepts says no to every proper front part of a record
 * to which it says yes, and does not say why. */

/* Reads from byte index on. The rows lent are rows_len divided by 5, rounded down, at most 4096;
 * none with rows_len below 5. Changes only rows 0 to n - 1, which stand for the value, with the
 * record as store.
 * Refused: 1 to 5 as route_check_grammar;
 * 6 at byte 0, when record_len is above 1048576;
 * 7 at byte index, when index is above record_len;
 * then, value after value, from the root on, at the byte where the value starts:
 * 8, when no row is left for it;
 * 9, when fewer bytes are left than its 4 or 8, or when its kind is 5, 6 or 7 and its count above
 * the bytes left behind the count, divided by 1, 4 or 8 and rounded down;
 * 8, when its kind is 3 and its count above the rows left after its own;
 * 10, when its kind is 8 and its tag not below the count of cases;
 * then its children, in order. */
ROUTE_NODISCARD
route_answer route_parse_val(const uint32_t *grammar, size_t grammar_len, const uint8_t *record,
                             size_t record_len, size_t index, uint64_t *rows, size_t rows_len);

/* Reads the whole record. Changes only rows 0 to n - 1, which stand for the value, with the record
 * as store. Every proper front part of a record that is accepted is refused with 9, with the same
 * grammar and as many rows.
 * Refused: as route_parse_val from byte 0 on;
 * 11 at the first byte behind the value, when it is not record_len. */
ROUTE_NODISCARD
route_answer route_demarshall(const uint32_t *grammar, size_t grammar_len, const uint8_t *record,
                              size_t record_len, uint64_t *rows, size_t rows_len);

/* Checks: the same readings, to which no rows are lent. It is proved (docs/PROMISES.md, request 07)
 * that with a smaller capacity a reading gives the same answer or is refused with 8. So what a check
 * accepts, or refuses with another number than 8, every reading with more rows answers likewise. */

/* Answers as route_parse_val with 1024 rows, ROUTE_CHECK_ROWS. Changes nothing. */
ROUTE_NODISCARD
route_answer route_check_val(const uint32_t *grammar, size_t grammar_len, const uint8_t *record,
                             size_t record_len, size_t index);

/* Answers as route_demarshall with 1024 rows, ROUTE_CHECK_ROWS. Changes nothing. Every proper front
 * part of a record that is accepted is refused with 9, with the same grammar. */
ROUTE_NODISCARD
route_answer route_check_whole(const uint32_t *grammar, size_t grammar_len, const uint8_t *record,
                               size_t record_len);

/* Answers as route_parse_val with as many rows as capacity says; a capacity above 4096 counts as
 * 4096. So with 0, when none of 1 to 7 is given, it is refused with 8 at byte index. Changes
 * nothing. */
ROUTE_NODISCARD
route_answer route_check_val_with(const uint32_t *grammar, size_t grammar_len,
                                  const uint8_t *record, size_t record_len, size_t index,
                                  size_t capacity);

/* Answers as route_demarshall with as many rows as capacity says; a capacity above 4096 counts as
 * 4096. So with 0, when none of 1 to 6 is given, it is refused with 8 at byte 0. Changes nothing.
 * Every proper front part of a record that is accepted is refused with 9, with the same grammar and
 * capacity. */
ROUTE_NODISCARD
route_answer route_check_whole_with(const uint32_t *grammar, size_t grammar_len,
                                    const uint8_t *record, size_t record_len, size_t capacity);

/* Writing: the calls write the bytes, laid out as reading says, of the value that rows 0 to n - 1
 * stand for; it is a value of node 0 of the grammar. The elements of kinds 5, 6 and 7 are the
 * store's bytes from their offset on; the store need not be a record. A call gives in `first` the
 * size of the value: how many bytes are written. It uses less than 1 MiB of stack, on values as
 * deep as 4096 rows can be. */

/* Writes at byte index. Changes only bytes index to index + size - 1 of out, which may be longer.
 * Refused: 1 to 5 as route_check_grammar;
 * 6, 12, 13 and 14 as route_compute_size_of;
 * then, row after row, from row 0 on:
 * 15 at the row, when its kind is not that of its node in the grammar; when its kind is 4 and its
 * count not the node's; or when its kind is 8 and its tag not below the node's count;
 * then 16 at row 0, when the size is above 1048576;
 * 17 at byte out_len, when index + size is above out_len, size 0 too. */
ROUTE_NODISCARD
route_answer route_marshall_val(const uint32_t *grammar, size_t grammar_len, const uint64_t *rows,
                                size_t rows_len, size_t n, const uint8_t *store, size_t store_len,
                                uint8_t *out, size_t out_len, size_t index);

/* Answers and writes as route_marshall_val at byte 0. */
ROUTE_NODISCARD
route_answer route_marshall(const uint32_t *grammar, size_t grammar_len, const uint64_t *rows,
                            size_t rows_len, size_t n, const uint8_t *store, size_t store_len,
                            uint8_t *out, size_t out_len);

/* Answers as route_marshall_val would, and changes nothing: number, place and `first`, the size,
 * are those that it would give with the same arguments, and `second` is how many bytes of out would
 * differ after that writing, at most the size. A byte that would be written over with what it holds
 * already does not count, so 0 says that out holds the value's bytes at index. The arrays may
 * overlap. It uses less than 1 MiB of stack, on values as deep as 4096 rows can be.
 * Refused: as route_marshall_val. */
ROUTE_NODISCARD
route_answer route_preview(const uint32_t *grammar, size_t grammar_len, const uint64_t *rows,
                           size_t rows_len, size_t n, const uint8_t *store, size_t store_len,
                           const uint8_t *out, size_t out_len, size_t index);

/* Says whether two records are of the same route. Reads each of them as route_check_whole_with
 * with 4096 does and gives in `first` 1 for yes, when both are accepted and equal in what counts,
 * and 0 for no, when both are accepted and differ in it. What counts of a value of node 0: when it
 * is a tuple with at least one field, all fields but the first, which on the bench is the serial
 * number of the box and is left out whatever its kind and size; else the whole value. Yes does not
 * say that the records have equal bytes or equal lengths. The records may overlap. It uses less
 * than 64 KiB of stack, on grammars as deep as 256 nodes can be. Changes nothing.
 * Refused: 1 to 5 as route_check_grammar, with 0 in `second`;
 * 6 and 8 to 11 as that check refuses the first record, with 1 in `second`;
 * 6 and 8 to 11 as that check refuses the second record, with 2 in `second`. */
ROUTE_NODISCARD
route_answer route_same_route(const uint32_t *grammar, size_t grammar_len, const uint8_t *first,
                              size_t first_len, const uint8_t *second, size_t second_len);

/* Says whether a record is accepted whole, and does not read one that is too short for every value
 * of the grammar. The least length of a node is that of its shortest values: for kind 0, 0; kinds 1
 * and 9, 4; kinds 2 and 10, 8; kinds 3, 5, 6 and 7, 8, a count and no element; kind 4, the sum
 * over its fields, none where a field has none; kind 8, 8 plus the least over its cases that have
 * one, none where no case has one. A sum above 1048577 counts as 1048577. A node that has none has
 * no value.
 *
 * Gives in `first` 1 for yes and 0 for no, in `second` the values begun: one for each time a row is
 * asked for, also when none is left. The answer is no, without a reading and with 0 values begun,
 * when record_len is above 1048576, when node 0 has no least length, or when record_len is below
 * it. Else the record is read as by route_check_whole_with with 4096, and the answer is yes when
 * that accepts and no when it refuses by 8, 9, 10 or 11, with the values begun where the reading
 * ended, 1 to 4097. It is proved (docs/PROMISES.md, request 09) that under a sound grammar yes
 * comes exactly when route_check_whole_with with 4096 accepts, and 0 values begun exactly when
 * there was no reading. It uses less than 64 KiB of stack, on grammars as deep as 256 nodes can be.
 * Changes nothing.
 * Refused: only 1 to 5 as route_check_grammar, whatever the record is. */
ROUTE_NODISCARD
route_answer route_accepts(const uint32_t *grammar, size_t grammar_len, const uint8_t *record,
                           size_t record_len);

/* Grammar lists: word 0 is C, the count of grammars. Then C times a word count and as many words, a
 * grammar table, and the list ends. The grammars have the numbers 0 to C - 1. */

/* Says which grammar of a list accepts a record. Tries the grammars in order, reads the record
 * under each as route_check_whole_with with 4096 does, and ends at the first that accepts. Gives in
 * `first` the number of that grammar, in `second` the values begun by all tries up to it, the
 * refused ones included: one for each time a row is asked for, also when none is left. They are at
 * most 65552; a refusal does not give them. It uses less than 64 KiB of stack, on grammars as deep
 * as 256 nodes can be. Changes nothing.
 * Refused: 21 at word 0, when list_len is 0, when C is 0 or above 16, when a word count or a word
 * of a grammar is missing, or when words are left over;
 * then, grammar after grammar, from number 0 on, also behind one that would accept:
 * 1 to 5 as route_check_grammar, the place being a word of the list: the grammar's own word plus
 * the number of words before the grammar, its word count included. For a grammar of no words it is
 * the word behind the word count, which may be list_len;
 * then 6 at byte 0, when record_len is above 1048576;
 * 22 at byte 0, when no grammar accepts the record. */
ROUTE_NODISCARD
route_answer route_choose_grammar(const uint32_t *list, size_t list_len, const uint8_t *record,
                                  size_t record_len);

/* XDR: the bytes of a value by RFC 4506, other ones than those of its record. They are, for kind 0
 * (void), none; kinds 1 and 9 (unsigned int, int), 4; kinds 2 and 10 (unsigned hyper, hyper), 8;
 * kind 3 (variable-length array), a 4-byte count of elements and the elements; kind 4 (structure),
 * its fields in order; kind 5 (variable-length opaque data), a 4-byte count, the elements and the
 * padding, 0 to 3 zero bytes up to a multiple of four; kinds 6 and 7 (variable-length arrays of
 * unsigned int and of unsigned hyper), a 4-byte count and the elements, 4 or 8 bytes each; kind 8
 * (discriminated union), a 4-byte tag and the value of that case. Each number is most byte first, a
 * signed one in two's complement. In a store the elements are least byte first, as for every call.
 *
 * It is proved (docs/PROMISES.md, request 08), under one grammar: XDR that was exported is imported
 * as an equal value, where the rows lent are enough and so is the store, of at most 1048576 bytes;
 * and what was imported is exported as the same bytes, where the output is long enough. 4096 rows
 * and a store as long as the XDR are enough wherever any import is accepted. XDR is never longer
 * than the value's record, so what route_marshall_val does not refuse with 16 route_export_xdr does
 * not either; but a value that was exported or imported may be too long to be written as a record.
 */

/* Writes the XDR of the value that rows 0 to n - 1 stand for at byte index, and gives its size in
 * `first`. Changes only bytes index to index + size - 1 of out, which may be longer. It uses less
 * than 1 MiB of stack, on values as deep as 4096 rows can be.
 * Refused: 1 to 6 and 12 to 15 as route_marshall_val;
 * 16 at row 0, when the size, that of the XDR, is above 1048576;
 * 17 at byte out_len, when index + size is above out_len, size 0 too. */
ROUTE_NODISCARD
route_answer route_export_xdr(const uint32_t *grammar, size_t grammar_len, const uint64_t *rows,
                              size_t rows_len, size_t n, const uint8_t *store, size_t store_len,
                              uint8_t *out, size_t out_len, size_t index);

/* Reads a whole record of XDR, a value of node 0 of the grammar. Gives in `first` its row count n,
 * in `second` how many bytes of the store its arrays of kinds 5, 6 and 7 take. The rows lent are
 * counted as for route_parse_val. Changes only rows 0 to n - 1, which stand for the value, and
 * bytes 0 to `second` - 1 of the store: the elements of the arrays, one array behind the other in
 * the order of their rows, without padding. The offset of an array is where those before it end,
 * count 0 too. A row's size is that of the record, not of the XDR, so it may be above 1048576, at
 * most 1064960. It uses less than 128 KiB of stack, on grammars as deep as 256 nodes can be.
 * Refused: 1 to 5 as route_check_grammar;
 * 6 at byte 0, when record_len or store_len is above 1048576;
 * then, value after value, from the root on, at the byte where the value starts, but for 17:
 * 8, when no row is left for it;
 * 9, when fewer bytes are left than its 4 or 8, or when its kind is 5, 6 or 7 and its elements with
 * their padding are more than the bytes left behind the count;
 * 8, when its kind is 3 and its count above the rows left after its own;
 * 10, when its kind is 8 and its tag not below the count of cases;
 * 17 at byte store_len, when its kind is 5, 6 or 7 and its elements, behind those of the arrays
 * before it, reach past store_len;
 * 23, when its kind is 5 and a byte of its padding is not zero;
 * then its children, in order;
 * last 11 at the first byte behind the value, when it is not record_len. */
ROUTE_NODISCARD
route_answer route_import_xdr(const uint32_t *grammar, size_t grammar_len, const uint8_t *record,
                              size_t record_len, uint64_t *rows, size_t rows_len, uint8_t *store,
                              size_t store_len);

#ifdef __cplusplus
}
#endif

#endif
