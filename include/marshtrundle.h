/*
 * Marshtrundle: runs System S strategies over a store of terms.
 *
 * Link with libmarshtrundle.a, which tools/archive.sh writes to target/staticlib. It is x86-64 code for the
 * System V calling convention. It needs memcpy and memset of the C library and nothing else. C99 or later, or C++.
 *
 * Call the mt_ functions below. They take any words, any lengths and any numbers, and always give an answer.
 * marshtrundle_build.h makes tables and terms by functions, and shows terms and answers as text.
 *
 * SLICES. A slice is a pointer and a number of 32-bit words, not of bytes. The pointer is aligned to 4 bytes and valid for
 * that many words. Counts alone are words of 64 bits, aligned to 8 bytes, and their length is a number of such words. A null
 * pointer is an empty slice. What is written (store, bindings, work, results, counts, numbers) overlaps nothing else that is
 * passed in the same call. The table, the subjects and a signature are only read. mt_run_many and
 * mt_run_many_signed only read the bindings, mt_start_run and mt_start_run_signed write the work list alone, and the checks only read. Of the functions for rules as text, mt_translate_rules writes
 * the table and mt_write_rule the buffer; a text and a buffer are a pointer and a number of bytes, of any alignment.
 *
 * NUMBERS. `numbers` is where the answer goes. It is never null: it is aligned and valid for writing as many numbers of 32 or 64 bits
 * as the function's parameter says, 7, 5, 4, 3 or 2. Nothing else is asked of the caller.
 *
 * OWNERSHIP. All memory is the caller's. Nothing is allocated, no pointer is kept after the call, nothing is freed.
 *
 * THREADS. There is no global state. Calls in several threads may run at the same time if none writes what another uses.
 * Several runs may share one table.
 *
 * THE SIGNATURE of the functions whose name ends with _signed. One word for each constructor from 0 on: the child count that it is
 * declared with, or MT_UNDECLARED. At most 65,536 words. A constructor beyond the list is undeclared. An empty signature
 * (null with length 0) is not no signature: with it every constructor is undeclared.
 *
 * THE SUBJECTS AND THE RESULTS of mt_run_many and mt_run_many_signed. The subjects are nodes below the given mark, as many as
 * you like, or none. The result list has just five words for each subject: words 5i to 5i + 4 get the numbers of subject i,
 * as enum mt_number names them. It may hold anything before.
 *
 * RULES AS TEXT, for mt_translate_rules and mt_write_rule. A line for each rule, ended by a line feed; fields are parted by one tab:
 *   the left term, the right term, and for each condition an entry, a starting term and an outcome's pattern
 * A term is in prefix form: `v` and a variable's number in one field, or a field for the constructor, 0 to 65,535, and one for the
 * child count, 0 to 6, and then its children. A condition's entry is a REC in use without free variables. A rule matches the left
 * term, then runs each condition's REC on its starting term and matches the outcome, and then builds the right term, all in a scope
 * of the rule's variables. The right term and a starting term have only variables that were matched before.
 *
 * THE INDEX of mt_run_indexed, mt_run_many_indexed, mt_run_indexed_counted and their forms with a signature. One slice, `lent`, holds the store's words and
 * behind them the index's; `words` says how many are the store's. Where it says more than there are, all are. The index has at least
 * two words for each node of the store, so that `lent` has at least words + words / 4. It may hold anything before. After a call that
 * was not refused it is all zero; after one that was it is as lent. With an index a node that stands below the mark with the same
 * eight words is not made again: two terms are equal exactly when their numbers are. So no two given nodes may have the same words.
 *
 * THE COUNTS of mt_run_counted, mt_run_indexed_counted and their forms with a signature. Four words of 64 bits for each entry of the
 * table, pattern entries too, just so many: the words of entry e are 4e to 4e + 3, as enum mt_count names them. A run adds to them, so
 * that they go on over many runs; make them zero before the first. The words of a pattern entry stay as they are. Over a run the visits
 * of all entries, the visits of patterns and the visits of pairs make the units, and an entry's successes, failures and visits in flight make
 * its visits. No word may be above MT_MOST_COUNT before a run: then no count can overflow. A refused run adds nothing.
 *
 * THE WORK LIST of mt_collect. A word for each node of the store, or more. It may hold anything, and is zero afterwards.
 *
 * THE WORK LIST of mt_start_run, mt_start_run_signed and mt_step_run. MT_WORK_WORDS words, or more. It may hold anything before the start. From the start to
 * the end of the run it holds the pending work, and then it is zero. Between two calls nobody may touch the table, the store, the bindings
 * and the work list; what the store holds above the given mark, and the work list, is the library's own until the run ends. Where that
 * is broken a step still ends, reads and writes nothing outside what is lent, and gives some answer. A run may be left before its end: the nodes
 * below the mark and the bindings are then as given, and the work list serves another start as it is.
 *
 * THE STACK. Give a thread that calls a function whose name begins with mt_run MT_STACK bytes (2 MiB). A run nests at most
 * 4,096 visits, and each form of visit takes its own number of bytes. The deepest, SCOPE, takes 1.9 MiB in all; in this is a
 * copy of the table, 128 KiB whatever the table's size. It is measured, not proved: the Rust crate's tests run 4,096 levels
 * of each form on a thread of exactly 2 MiB, with one subject and with two, and with counts. A counted run does not nest calls: it
 * takes 1.3 MiB whatever its form and its nesting. mt_translate_rules and mt_write_rule take less
 * than 256 KiB, the other functions, mt_step_run among them, less than 64 KiB. On a smaller stack a deep run ends in the
 * thread's guard page, if it has one: the code touches every page of a large frame in order.
 *
 * THE STORE. Eight words to a node. Node k has words 8k to 8k + 7:
 *   word 0       the constructor, 0 to 65,535
 *   word 1       n, the number of children, 0 to 6
 *   words 2..    n child nodes, each a number below k
 *   the rest     zero
 * At most 131,072 nodes. The mark is the number of nodes in use; they are nodes 0 to mark - 1. What stands behind them is
 * room for new nodes and may hold anything. A term is a node below the mark. Two terms are equal when constructors, counts
 * and children are, whatever their node numbers.
 *
 * THE BINDINGS. 64 words, one for each variable. 0 is unbound; any other word is a node number plus one.
 *
 * THE TABLE. Eight words to an entry, 1 to 4,096 entries. An entry's words:
 *   word 0       16 * kind + number of operands; MT_ENTRY(kind, operands) gives it
 *   word 1       the argument, zero where none is named
 *   words 2..    the operands: entry numbers above the entry's own. CALL alone may name any REC.
 *   the rest     zero
 *
 *   kind            operands  argument
 *   MT_ID             0                      gives the term back
 *   MT_FAIL           0                      fails
 *   MT_TEST           1                      succeeds when the operand does; restores term and bindings
 *   MT_NOT            1                      succeeds when the operand fails
 *   MT_SEQ            2                      the first, then the second on what it gives
 *   MT_CHOICE         2                      the first; where it fails the second, from the beginning
 *   MT_LEFT           2                      as MT_CHOICE
 *   MT_REC            1                      runs its body
 *   MT_CALL           1                      runs the REC that it names
 *   MT_PATH           1       1 to 6         runs on the child at this position
 *   MT_CONG           0 to 6  constructor    needs constructor and count; each operand runs on its child
 *   MT_ALL            1                      runs on every child, and needs every one to succeed
 *   MT_ONE            1                      runs on the leftmost child that succeeds
 *   MT_SOME           1                      runs on every child, and needs one to succeed
 *   MT_MATCH          1                      compares with a pattern, binds its unbound variables
 *   MT_BUILD          1                      makes a pattern's term; an unbound variable ends the run, MT_UNBOUND
 *   MT_SCOPE          1       mask           unbinds the variables of the mask, runs, puts them back
 *   MT_WHERE          1                      runs, restores the term, keeps the bindings
 *   MT_PVAR           0       0 to 63        pattern: a variable
 *   MT_PCON           0 to 6  constructor    pattern: a constructor over patterns
 * MATCH, BUILD and PCON take patterns; all others take strategies. In a mask bit v stands for variable v. A scope's mask has 64
 * bits: word 1 is the lower half and word 2 the upper, and its operand is word 3.
 */
#ifndef MARSHTRUNDLE_H
#define MARSHTRUNDLE_H

#include <stddef.h>
#include <stdint.h>

#ifdef __cplusplus
extern "C" {
#endif

/* The most nodes of a store, entries of a table, levels of nesting; the words of the bindings; the stack for a run. */
#define MT_NODES 131072
#define MT_ENTRIES 4096
#define MT_NESTING 4096
#define MT_VARIABLES 64
#define MT_STACK 2097152

/* The most words of a signature, and the word of a constructor that is not declared. */
#define MT_CONSTRUCTORS 65536
#define MT_UNDECLARED 7

/* The least words of the work list of a run in steps: 80 for each of 4,096 levels. */
#define MT_WORK_WORDS 327680

/* The words of 64 bits that an entry has in the counts, and the highest that may be lent. */
#define MT_COUNTS 4
#define MT_MOST_COUNT UINT64_C(18446744069414584320)

/* The most bytes of a rule's line that a table of 4,096 entries can have, its line feed included. */
#define MT_RULE_BYTES 53272

/* Word 0 of an entry. */
#define MT_ENTRY(kind, operands) (16u * (uint32_t)(kind) + (uint32_t)(operands))

/* The version: 10,000 * major + 100 * minor + patch, as of the Rust crate. */
#define MT_VERSION 100

/* The version that a program was compiled with. */
static inline uint32_t mt_version(void)
{
    return MT_VERSION;
}

enum mt_kind {
    MT_ID = 0,
    MT_FAIL = 1,
    MT_TEST = 2,
    MT_NOT = 3,
    MT_SEQ = 4,
    MT_CHOICE = 5,
    MT_LEFT = 6,
    MT_REC = 7,
    MT_CALL = 8,
    MT_PATH = 9,
    MT_CONG = 10,
    MT_ALL = 11,
    MT_ONE = 12,
    MT_SOME = 13,
    MT_MATCH = 14,
    MT_BUILD = 15,
    MT_SCOPE = 16,
    MT_WHERE = 17,
    MT_PVAR = 18,
    MT_PCON = 19
};

/*
 * The answers. They are asked in the order 2, 13 to 17, 4, 10, 11, 21, 5, 24, then comes the run.
 * In answers 2, 4, 5, 10, 11, 13 to 24, 26 and 27 nothing is written but the numbers.
 * In answers 0, 1, 6, 7, 8 and 12 the nodes below the given mark are unchanged, and every store word from the returned mark
 * to the end is zero. In answers 1, 6, 7, 8 and 12 the bindings are as given. No strategy catches 6, 7, 8 or 12.
 */
enum mt_answer {
    MT_DONE = 0,         /* new subject, mark and bindings */
    MT_FAILED = 1,       /* the strategy failed; the place is the pattern's entry at which the last match in the run gave up, caught or
                            not: the MT_PCON that differed, or the MT_PVAR that was bound to another term; 4,096 where no match
                            failed */
    MT_BAD_SIZES = 2,    /* the table is empty, over 32,768 words or no multiple of 8; the store is over 1,048,576 words or
                            no multiple of 8; the bindings are not 64 words; the mark exceeds the store's nodes; the
                            result list is not five words for each subject; the work list is too short; the signature is over 65,536 words or has
                            a word above 7; the index is shorter than two words for each node of the store; the counts are not
                            four words for each entry */
    MT_BAD_NODE = 4,     /* a node below the mark is malformed; the place is the lowest such node */
    MT_BAD_START = 5,    /* the start is outside the table or a pattern; the subject, or one of several, is not below
                            the given mark; a binding word exceeds the mark */
    MT_OUT_OF_UNITS = 6, /* all units were used */
    MT_OUT_OF_ROOM = 7,  /* a node was to be made and the mark equals the store's nodes */
    MT_TOO_DEEP = 8,     /* a visit would have been nested deeper than 4,096 */
    /* 10 and 11 are given where a signature is lent alone. */
    MT_DISOBEYING_ENTRY = 10, /* a CONG or a PCON, used or not, whose constructor is not declared with its count; the place is
                                 the lowest such entry */
    MT_DISOBEYING_NODE = 11,  /* the same of a node below the mark, reachable or not; the place is the lowest such node */
    MT_UNBOUND = 12,     /* a BUILD met a variable that is unbound; the place is the variable. The strategy is wrong: this is no
                            failure, and no malformed table */
    /* 13 to 17: an entry is malformed, and the place is the lowest such entry. Of its faults the first in this order is given;
       each is looked for in the whole entry before the next. */
    MT_BAD_KIND = 13,     /* word 0: the kind is above 19, or the operands are too few or too many for the kind */
    MT_BAD_ARGUMENT = 14, /* word 1: the argument is out of its range, or not zero where none is named */
    MT_BAD_OPERAND = 15,  /* an operand is outside the table, or not above its own entry; CALL's is outside the table */
    MT_BAD_SORT = 16,     /* an operand is no strategy, or no pattern, where one is needed; CALL's is no REC */
    MT_BAD_WORD = 17,     /* a word behind the operands is not zero */
    /* 18 to 20, 22, 23 and 26 are given by the functions for rules as text alone, 21 by those with an index. 18 to 20, 22 and 23 come
       with the first bad line, and are asked in this order within it. */
    MT_BAD_RULE = 18,      /* the line is no rule's text; the field is its first bad one, one past the last where it is cut short */
    MT_RULE_UNBOUND = 19,  /* a variable of the right term or of a starting term is bound by nothing before it */
    MT_RULE_VARIABLE = 20, /* a variable is above 63 */
    MT_TWIN_NODE = 21,     /* with an index alone: a node below the mark has the eight words of an earlier one; the place is the
                              lowest such node */
    MT_RULE_CALL = 22,     /* a condition's number is no REC without free variables among the entries in use */
    MT_NO_ENTRIES = 23,    /* the rule's entries pass the lent length of the table, or 4,096 */
    MT_FULL_COUNT = 24,    /* with counts alone: a count is above MT_MOST_COUNT; the place is the lowest entry that has such a word */
    /* 25 and 27 are given by the functions for runs in steps alone. */
    MT_UNFINISHED = 25,    /* the run goes on, and is set aside before its next visit; the place is 0, subject and mark as given, the units
                              those used so far */
    MT_SHORT_BUFFER = 26,  /* the buffer is shorter than the rule's line */
    MT_NO_RUN = 27         /* a step on a work list of zeros, which holds no run; the other numbers are 0 */
    /* 3 is no longer given: 13 to 17 stand in its place. 9 is an answer of the job program alone: its text is malformed. */
};

/* Where each number stands in `numbers`. */
enum mt_number {
    MT_ANSWER = 0,  /* one of enum mt_answer */
    MT_PLACE = 1,   /* the pattern's entry in answer 1, the bad entry in 10, 13 to 17 and 24, the bad node in 4, 11 and 21, the variable in 12,
                       and 0 otherwise */
    MT_SUBJECT = 2, /* a run, mt_collect: the new subject in answer 0, and the given one otherwise */
    MT_MARK = 3,    /* a run, mt_collect: the new mark in answer 0, and the given one otherwise */
    MT_UNITS = 4,   /* a run: the visits counted; 0 where nothing was run */
    MT_PATTERN_VISITS = 5, /* a run with counts: the pattern positions met; 0 where nothing was run */
    MT_PAIR_VISITS = 6,    /* a run with counts: the pairs of nodes compared; 0 where nothing was run */
    MT_MASK = 2,    /* mt_free_variables: the mask in answer 0, and 0 otherwise */
    MT_LINE = 1,    /* mt_translate_rules: the first bad line, from 1; the bad entry in 13 to 17; 0 in 0 and 2 */
    MT_FIELD = 2,   /* mt_translate_rules: the first bad field, from 1, in 18; 0 otherwise */
    MT_USED = 3,    /* mt_translate_rules: the entries in use, the new ones among them in answer 0, as given otherwise */
    MT_LENGTH = 2   /* mt_write_rule: the bytes written, the line feed among them; 0 in all answers but 0 */
};

/* The counts of an entry, in the order of their words. A visit in flight is one that had begun and not ended when the run was cut off: in
   answers 6, 7, 8 and 12. The visit that 6 or 8 refused is no visit; the one that asked for it is in flight. */
enum mt_count {
    MT_VISITS = 0,    /* visits as a strategy */
    MT_SUCCESSES = 1, /* of these, those that succeeded */
    MT_FAILURES = 2,  /* those that failed, caught or not */
    MT_IN_FLIGHT = 3  /* those in flight at a cut-off */
};

/* The archive's functions. They take no null pointer, not even with length 0: call the mt_ functions instead. */
void marshtrundle_run(const uint32_t *table, size_t table_words, uint32_t *store, size_t store_words,
                      uint32_t *bindings, size_t bindings_words, uint32_t mark, uint32_t start, uint32_t subject,
                      uint32_t units, uint32_t numbers[5]);
void marshtrundle_run_signed(const uint32_t *table, size_t table_words, uint32_t *store, size_t store_words,
                             uint32_t *bindings, size_t bindings_words, uint32_t mark, uint32_t start,
                             uint32_t subject, uint32_t units, const uint32_t *signature, size_t signature_words,
                             uint32_t numbers[5]);
void marshtrundle_run_many(const uint32_t *table, size_t table_words, uint32_t *store, size_t store_words,
                           const uint32_t *bindings, size_t bindings_words, uint32_t mark, uint32_t start,
                           const uint32_t *subjects, size_t subjects_words, uint32_t units, uint32_t *results,
                           size_t results_words, uint32_t numbers[2]);
void marshtrundle_run_many_signed(const uint32_t *table, size_t table_words, uint32_t *store, size_t store_words,
                                  const uint32_t *bindings, size_t bindings_words, uint32_t mark, uint32_t start,
                                  const uint32_t *subjects, size_t subjects_words, uint32_t units, uint32_t *results,
                                  size_t results_words, const uint32_t *signature, size_t signature_words,
                                  uint32_t numbers[2]);
void marshtrundle_start(const uint32_t *table, size_t table_words, const uint32_t *store, size_t store_words,
                        const uint32_t *bindings, size_t bindings_words, uint32_t *work, size_t work_words, uint32_t mark,
                        uint32_t start, uint32_t subject, uint32_t units, uint32_t numbers[5]);
void marshtrundle_start_signed(const uint32_t *table, size_t table_words, const uint32_t *store, size_t store_words,
                               const uint32_t *bindings, size_t bindings_words, uint32_t *work, size_t work_words,
                               uint32_t mark, uint32_t start, uint32_t subject, uint32_t units, const uint32_t *signature,
                               size_t signature_words, uint32_t numbers[5]);
void marshtrundle_step(const uint32_t *table, size_t table_words, uint32_t *store, size_t store_words, uint32_t *bindings,
                       size_t bindings_words, uint32_t *work, size_t work_words, uint32_t visits, uint32_t numbers[5]);
void marshtrundle_run_indexed(const uint32_t *table, size_t table_words, uint32_t *lent, size_t lent_words, uint32_t words,
                              uint32_t *bindings, size_t bindings_words, uint32_t mark, uint32_t start,
                              uint32_t subject, uint32_t units, uint32_t numbers[5]);
void marshtrundle_run_indexed_signed(const uint32_t *table, size_t table_words, uint32_t *lent, size_t lent_words,
                                     uint32_t words, uint32_t *bindings, size_t bindings_words, uint32_t mark,
                                     uint32_t start, uint32_t subject, uint32_t units, const uint32_t *signature,
                                     size_t signature_words, uint32_t numbers[5]);
void marshtrundle_run_many_indexed(const uint32_t *table, size_t table_words, uint32_t *lent, size_t lent_words,
                                   uint32_t words, const uint32_t *bindings, size_t bindings_words, uint32_t mark,
                                   uint32_t start, const uint32_t *subjects, size_t subjects_words, uint32_t units,
                                   uint32_t *results, size_t results_words, uint32_t numbers[2]);
void marshtrundle_run_many_indexed_signed(const uint32_t *table, size_t table_words, uint32_t *lent, size_t lent_words,
                                          uint32_t words, const uint32_t *bindings, size_t bindings_words, uint32_t mark,
                                          uint32_t start, const uint32_t *subjects, size_t subjects_words,
                                          uint32_t units, uint32_t *results, size_t results_words,
                                          const uint32_t *signature, size_t signature_words, uint32_t numbers[2]);
void marshtrundle_run_counted(const uint32_t *table, size_t table_words, uint32_t *store, size_t store_words,
                              uint32_t *bindings, size_t bindings_words, uint32_t mark, uint32_t start,
                              uint32_t subject, uint32_t units, uint64_t *counts, size_t counts_words,
                              uint32_t numbers[7]);
void marshtrundle_run_counted_signed(const uint32_t *table, size_t table_words, uint32_t *store, size_t store_words,
                                     uint32_t *bindings, size_t bindings_words, uint32_t mark, uint32_t start,
                                     uint32_t subject, uint32_t units, uint64_t *counts, size_t counts_words,
                                     const uint32_t *signature, size_t signature_words, uint32_t numbers[7]);
void marshtrundle_run_indexed_counted(const uint32_t *table, size_t table_words, uint32_t *lent, size_t lent_words,
                                      uint32_t words, uint32_t *bindings, size_t bindings_words, uint32_t mark,
                                      uint32_t start, uint32_t subject, uint32_t units, uint64_t *counts,
                                      size_t counts_words, uint32_t numbers[7]);
void marshtrundle_run_indexed_counted_signed(const uint32_t *table, size_t table_words, uint32_t *lent,
                                             size_t lent_words, uint32_t words, uint32_t *bindings,
                                             size_t bindings_words, uint32_t mark, uint32_t start, uint32_t subject,
                                             uint32_t units, uint64_t *counts, size_t counts_words,
                                             const uint32_t *signature, size_t signature_words, uint32_t numbers[7]);
void marshtrundle_collect(uint32_t *store, size_t store_words, uint32_t *bindings, size_t bindings_words,
                          uint32_t *work, size_t work_words, uint32_t mark, uint32_t subject, uint32_t numbers[4]);
void marshtrundle_free_variables(const uint32_t *table, size_t table_words, uint32_t entry, uint64_t numbers[3]);
void marshtrundle_check_table(const uint32_t *table, size_t words, uint32_t numbers[2]);
void marshtrundle_check_store(const uint32_t *store, size_t words, uint32_t mark, uint32_t numbers[2]);
void marshtrundle_translate_rules(uint32_t *table, size_t table_words, uint32_t used, const uint8_t *text, size_t text_bytes,
                                  uint64_t numbers[4]);
void marshtrundle_write_rule(const uint32_t *table, size_t table_words, uint32_t used, uint32_t entry, uint8_t *buffer,
                             size_t buffer_bytes, uint64_t numbers[3]);

/*
 * Runs the strategy at entry `start` on the term at node `subject`, with at most `units` visits. One visit is an entry
 * applied as a strategy, a pattern position met, or a pair of nodes compared. Any number of units is allowed.
 * `numbers` gets answer, place, subject, mark and units used.
 */
static inline void mt_run(const uint32_t *table, size_t table_words, uint32_t *store, size_t store_words,
                          uint32_t *bindings, size_t bindings_words, uint32_t mark, uint32_t start,
                          uint32_t subject, uint32_t units, uint32_t numbers[5])
{
    uint32_t none[3] = {0, 0, 0};
    marshtrundle_run(table ? table : &none[0], table ? table_words : 0, store ? store : &none[1],
                     store ? store_words : 0, bindings ? bindings : &none[2], bindings ? bindings_words : 0, mark,
                     start, subject, units, numbers);
}

/*
 * Runs as mt_run does, with a signature: every CONG and every PCON of the table and every node below the mark must have a
 * declared constructor with its declared count, or the call is refused with 10 or 11. Every node below the mark that comes
 * back obeys the signature too.
 */
static inline void mt_run_signed(const uint32_t *table, size_t table_words, uint32_t *store, size_t store_words,
                                 uint32_t *bindings, size_t bindings_words, uint32_t mark, uint32_t start,
                                 uint32_t subject, uint32_t units, const uint32_t *signature, size_t signature_words,
                                 uint32_t numbers[5])
{
    uint32_t none[4] = {0, 0, 0, 0};
    marshtrundle_run_signed(table ? table : &none[0], table ? table_words : 0, store ? store : &none[1],
                            store ? store_words : 0, bindings ? bindings : &none[2], bindings ? bindings_words : 0,
                            mark, start, subject, units, signature ? signature : &none[3],
                            signature ? signature_words : 0, numbers);
}

/*
 * Runs the strategy at entry `start` on each subject in turn. The outcome is that of single calls of mt_run, with table and
 * store checked once: each subject begins with the bindings given to the call, its own full units and the mark left by the
 * one before. A subject that fails or is cut off does not stop the rest, and the next begins with the mark that it began
 * with. Its five numbers go into the result list. The bindings stay as given. The last mark is the fourth number of the last
 * subject.
 *
 * `numbers` gets answer and place: 0 and 0 where the subjects were run, and otherwise the refusal, with nothing written. A
 * subject that is not below the given mark is refused with MT_BAD_START, whatever nodes those before it would make. With no
 * subjects the call is refused as any other; where it is not, it writes nothing, not even zeros behind the mark.
 */
static inline void mt_run_many(const uint32_t *table, size_t table_words, uint32_t *store, size_t store_words,
                               const uint32_t *bindings, size_t bindings_words, uint32_t mark, uint32_t start,
                               const uint32_t *subjects, size_t subjects_words, uint32_t units, uint32_t *results,
                               size_t results_words, uint32_t numbers[2])
{
    uint32_t none[5] = {0, 0, 0, 0, 0};
    marshtrundle_run_many(table ? table : &none[0], table ? table_words : 0, store ? store : &none[1],
                          store ? store_words : 0, bindings ? bindings : &none[2], bindings ? bindings_words : 0, mark,
                          start, subjects ? subjects : &none[3], subjects ? subjects_words : 0, units,
                          results ? results : &none[4], results ? results_words : 0, numbers);
}

/* Runs as mt_run_many does, with a signature, which is asked of the table and the store once, as mt_run_signed asks it. */
static inline void mt_run_many_signed(const uint32_t *table, size_t table_words, uint32_t *store, size_t store_words,
                                      const uint32_t *bindings, size_t bindings_words, uint32_t mark, uint32_t start,
                                      const uint32_t *subjects, size_t subjects_words, uint32_t units,
                                      uint32_t *results, size_t results_words, const uint32_t *signature,
                                      size_t signature_words, uint32_t numbers[2])
{
    uint32_t none[6] = {0, 0, 0, 0, 0, 0};
    marshtrundle_run_many_signed(table ? table : &none[0], table ? table_words : 0, store ? store : &none[1],
                                 store ? store_words : 0, bindings ? bindings : &none[2],
                                 bindings ? bindings_words : 0, mark, start, subjects ? subjects : &none[3],
                                 subjects ? subjects_words : 0, units, results ? results : &none[4],
                                 results ? results_words : 0, signature ? signature : &none[5],
                                 signature ? signature_words : 0, numbers);
}

/*
 * Runs as mt_run does, with an index behind the store's words (see THE INDEX). Where mt_run answers 0 or 1 this does too, with equal
 * terms, bindings and units, and its mark is never higher; so it is with 6, 8 and 12. Where mt_run answers 7 this may go further: a
 * node that stands wants no room. After 11 and before 5 it asks for MT_TWIN_NODE.
 */
static inline void mt_run_indexed(const uint32_t *table, size_t table_words, uint32_t *lent, size_t lent_words,
                                  uint32_t words, uint32_t *bindings, size_t bindings_words, uint32_t mark,
                                  uint32_t start, uint32_t subject, uint32_t units, uint32_t numbers[5])
{
    uint32_t none[3] = {0, 0, 0};
    marshtrundle_run_indexed(table ? table : &none[0], table ? table_words : 0, lent ? lent : &none[1],
                             lent ? lent_words : 0, words, bindings ? bindings : &none[2],
                             bindings ? bindings_words : 0, mark, start, subject, units, numbers);
}

/* The same with a signature, as mt_run_signed. */
static inline void mt_run_indexed_signed(const uint32_t *table, size_t table_words, uint32_t *lent, size_t lent_words,
                                         uint32_t words, uint32_t *bindings, size_t bindings_words, uint32_t mark,
                                         uint32_t start, uint32_t subject, uint32_t units, const uint32_t *signature,
                                         size_t signature_words, uint32_t numbers[5])
{
    uint32_t none[4] = {0, 0, 0, 0};
    marshtrundle_run_indexed_signed(table ? table : &none[0], table ? table_words : 0, lent ? lent : &none[1],
                                    lent ? lent_words : 0, words, bindings ? bindings : &none[2],
                                    bindings ? bindings_words : 0, mark, start, subject, units,
                                    signature ? signature : &none[3], signature ? signature_words : 0, numbers);
}

/* Runs as mt_run_many does, with an index, which is built once and cleared once. */
static inline void mt_run_many_indexed(const uint32_t *table, size_t table_words, uint32_t *lent, size_t lent_words,
                                       uint32_t words, const uint32_t *bindings, size_t bindings_words, uint32_t mark,
                                       uint32_t start, const uint32_t *subjects, size_t subjects_words, uint32_t units,
                                       uint32_t *results, size_t results_words, uint32_t numbers[2])
{
    uint32_t none[5] = {0, 0, 0, 0, 0};
    marshtrundle_run_many_indexed(table ? table : &none[0], table ? table_words : 0, lent ? lent : &none[1],
                                  lent ? lent_words : 0, words, bindings ? bindings : &none[2],
                                  bindings ? bindings_words : 0, mark, start, subjects ? subjects : &none[3],
                                  subjects ? subjects_words : 0, units, results ? results : &none[4],
                                  results ? results_words : 0, numbers);
}

/* The same with a signature. */
static inline void mt_run_many_indexed_signed(const uint32_t *table, size_t table_words, uint32_t *lent,
                                              size_t lent_words, uint32_t words, const uint32_t *bindings,
                                              size_t bindings_words, uint32_t mark, uint32_t start,
                                              const uint32_t *subjects, size_t subjects_words, uint32_t units,
                                              uint32_t *results, size_t results_words, const uint32_t *signature,
                                              size_t signature_words, uint32_t numbers[2])
{
    uint32_t none[6] = {0, 0, 0, 0, 0, 0};
    marshtrundle_run_many_indexed_signed(table ? table : &none[0], table ? table_words : 0, lent ? lent : &none[1],
                                         lent ? lent_words : 0, words, bindings ? bindings : &none[2],
                                         bindings ? bindings_words : 0, mark, start, subjects ? subjects : &none[3],
                                         subjects ? subjects_words : 0, units, results ? results : &none[4],
                                         results ? results_words : 0, signature ? signature : &none[5],
                                         signature ? signature_words : 0, numbers);
}

/*
 * Starts a run that is made in steps, so that a window stays alive during a long pass. It checks as mt_run does, and a work list that is
 * too short is refused with MT_BAD_SIZES. It makes no visit. `numbers` gets MT_UNFINISHED, 0, subject and mark as given, and 0; or the
 * refusal, with nothing written. The work list alone is written.
 */
static inline void mt_start_run(const uint32_t *table, size_t table_words, const uint32_t *store, size_t store_words,
                            const uint32_t *bindings, size_t bindings_words, uint32_t *work, size_t work_words, uint32_t mark,
                            uint32_t start, uint32_t subject, uint32_t units, uint32_t numbers[5])
{
    uint32_t none[4] = {0, 0, 0, 0};
    marshtrundle_start(table ? table : &none[0], table ? table_words : 0, store ? store : &none[1], store ? store_words : 0,
                       bindings ? bindings : &none[2], bindings ? bindings_words : 0, work ? work : &none[3],
                       work ? work_words : 0, mark, start, subject, units, numbers);
}

/* Starts as mt_start_run does, with a signature, which is asked as mt_run_signed asks it. The steps need it no more. */
static inline void mt_start_run_signed(const uint32_t *table, size_t table_words, const uint32_t *store, size_t store_words,
                                   const uint32_t *bindings, size_t bindings_words, uint32_t *work, size_t work_words,
                                   uint32_t mark, uint32_t start, uint32_t subject, uint32_t units,
                                   const uint32_t *signature, size_t signature_words, uint32_t numbers[5])
{
    uint32_t none[5] = {0, 0, 0, 0, 0};
    marshtrundle_start_signed(table ? table : &none[0], table ? table_words : 0, store ? store : &none[1],
                              store ? store_words : 0, bindings ? bindings : &none[2], bindings ? bindings_words : 0,
                              work ? work : &none[3], work ? work_words : 0, mark, start, subject, units,
                              signature ? signature : &none[4], signature ? signature_words : 0, numbers);
}

/*
 * Makes `visits` visits of the run that the work list holds, and what follows the last of them up to the next one's limit test; or fewer, where
 * the run ends. Table, store, bindings and work list are those of the start, as the last call left them. While the run goes on the answer is
 * MT_UNFINISHED. At its end the five numbers, the store and the bindings are those of mt_run, whatever the numbers of visits were, and the
 * work list is zero. After the last unit a step answers MT_UNFINISHED, and the next step of one visit or more MT_OUT_OF_UNITS. A step of
 * no visits does nothing. Lengths that mt_start_run refuses are refused with MT_BAD_SIZES, and then a work list of zeros with
 * MT_NO_RUN; the other numbers are 0 in both.
 */
static inline void mt_step_run(const uint32_t *table, size_t table_words, uint32_t *store, size_t store_words,
                           uint32_t *bindings, size_t bindings_words, uint32_t *work, size_t work_words, uint32_t visits,
                           uint32_t numbers[5])
{
    uint32_t none[4] = {0, 0, 0, 0};
    marshtrundle_step(table ? table : &none[0], table ? table_words : 0, store ? store : &none[1], store ? store_words : 0,
                      bindings ? bindings : &none[2], bindings ? bindings_words : 0, work ? work : &none[3],
                      work ? work_words : 0, visits, numbers);
}

/*
 * Runs as mt_run does and counts the visits of every entry (see THE COUNTS): where the units go. The first five numbers, the store and the
 * bindings are those of mt_run. `numbers` gets two more: the visits of patterns and of pairs. After 5 it asks for MT_FULL_COUNT. It is some
 * ten times slower than mt_run: it is there for tuning.
 */
static inline void mt_run_counted(const uint32_t *table, size_t table_words, uint32_t *store, size_t store_words,
                                  uint32_t *bindings, size_t bindings_words, uint32_t mark, uint32_t start,
                                  uint32_t subject, uint32_t units, uint64_t *counts, size_t counts_words,
                                  uint32_t numbers[7])
{
    uint32_t none[3] = {0, 0, 0};
    uint64_t no_counts = 0;
    marshtrundle_run_counted(table ? table : &none[0], table ? table_words : 0, store ? store : &none[1],
                             store ? store_words : 0, bindings ? bindings : &none[2], bindings ? bindings_words : 0,
                             mark, start, subject, units, counts ? counts : &no_counts, counts ? counts_words : 0,
                             numbers);
}

/* The same with a signature, as mt_run_signed. */
static inline void mt_run_counted_signed(const uint32_t *table, size_t table_words, uint32_t *store, size_t store_words,
                                         uint32_t *bindings, size_t bindings_words, uint32_t mark, uint32_t start,
                                         uint32_t subject, uint32_t units, uint64_t *counts, size_t counts_words,
                                         const uint32_t *signature, size_t signature_words, uint32_t numbers[7])
{
    uint32_t none[4] = {0, 0, 0, 0};
    uint64_t no_counts = 0;
    marshtrundle_run_counted_signed(table ? table : &none[0], table ? table_words : 0, store ? store : &none[1],
                                    store ? store_words : 0, bindings ? bindings : &none[2],
                                    bindings ? bindings_words : 0, mark, start, subject, units,
                                    counts ? counts : &no_counts, counts ? counts_words : 0,
                                    signature ? signature : &none[3], signature ? signature_words : 0, numbers);
}

/*
 * Runs as mt_run_indexed does, and counts. It looks for a standing node among the nodes one by one, so that making a node takes time that
 * grows with the nodes in use; the index is cleared and not used. The counts are those of mt_run_counted where that does not answer 7. So
 * for a full store count without an index.
 */
static inline void mt_run_indexed_counted(const uint32_t *table, size_t table_words, uint32_t *lent, size_t lent_words,
                                          uint32_t words, uint32_t *bindings, size_t bindings_words, uint32_t mark,
                                          uint32_t start, uint32_t subject, uint32_t units, uint64_t *counts,
                                          size_t counts_words, uint32_t numbers[7])
{
    uint32_t none[3] = {0, 0, 0};
    uint64_t no_counts = 0;
    marshtrundle_run_indexed_counted(table ? table : &none[0], table ? table_words : 0, lent ? lent : &none[1],
                                     lent ? lent_words : 0, words, bindings ? bindings : &none[2],
                                     bindings ? bindings_words : 0, mark, start, subject, units,
                                     counts ? counts : &no_counts, counts ? counts_words : 0, numbers);
}

/* The same with a signature. */
static inline void mt_run_indexed_counted_signed(const uint32_t *table, size_t table_words, uint32_t *lent,
                                                 size_t lent_words, uint32_t words, uint32_t *bindings,
                                                 size_t bindings_words, uint32_t mark, uint32_t start,
                                                 uint32_t subject, uint32_t units, uint64_t *counts,
                                                 size_t counts_words, const uint32_t *signature,
                                                 size_t signature_words, uint32_t numbers[7])
{
    uint32_t none[4] = {0, 0, 0, 0};
    uint64_t no_counts = 0;
    marshtrundle_run_indexed_counted_signed(table ? table : &none[0], table ? table_words : 0, lent ? lent : &none[1],
                                            lent ? lent_words : 0, words, bindings ? bindings : &none[2],
                                            bindings ? bindings_words : 0, mark, start, subject, units,
                                            counts ? counts : &no_counts, counts ? counts_words : 0,
                                            signature ? signature : &none[3], signature ? signature_words : 0,
                                            numbers);
}

/*
 * Gives room back between runs: keeps just the nodes reachable from the subject and the bound variables. They stand in their
 * old order and are numbered from 0 without gaps; every store word from the new mark to the end is zero. The bindings get the
 * new numbers. Any other node number from before names nothing any more. `work` has a word for each node of the store, or
 * more, and is zero afterwards. `numbers` gets answer, place, subject and mark. The answers are 0, 2 (a length, the mark, or
 * a work list that is too short), 4 and 5 (the subject or a binding); in 2, 4 and 5 nothing is written but the numbers.
 */
static inline void mt_collect(uint32_t *store, size_t store_words, uint32_t *bindings, size_t bindings_words,
                              uint32_t *work, size_t work_words, uint32_t mark, uint32_t subject, uint32_t numbers[4])
{
    uint32_t none[3] = {0, 0, 0};
    marshtrundle_collect(store ? store : &none[0], store ? store_words : 0, bindings ? bindings : &none[1],
                         bindings ? bindings_words : 0, work ? work : &none[2], work ? work_words : 0, mark, subject,
                         numbers);
}

/*
 * Asks which variables the strategy at `entry` leaves free. `numbers` gets answer, place and mask, each of 64 bits. The answers are 0, 2
 * (the table's length), 13 to 17 and 5 (`entry` is outside the table or a pattern).
 */
static inline void mt_free_variables(const uint32_t *table, size_t table_words, uint32_t entry,
                                     uint64_t numbers[3])
{
    const uint32_t none = 0;
    marshtrundle_free_variables(table ? table : &none, table ? table_words : 0, entry, numbers);
}

/* Checks a table as mt_run does. `numbers` gets answer (0, 2 or 13 to 17) and place. */
static inline void mt_check_table(const uint32_t *table, size_t words, uint32_t numbers[2])
{
    const uint32_t none = 0;
    marshtrundle_check_table(table ? table : &none, table ? words : 0, numbers);
}

/* Checks a store as mt_run does. `numbers` gets answer (0, 2 or 4) and place. */
static inline void mt_check_store(const uint32_t *store, size_t words, uint32_t mark, uint32_t numbers[2])
{
    const uint32_t none = 0;
    marshtrundle_check_store(store ? store : &none, store ? words : 0, mark, numbers);
}

/*
 * Adds the rules of a text to a table whose first `used` entries are in use, perhaps none. The rest of the table is room and may hold
 * anything. The first rule starts at entry `used`, each other one where the one before it ends. `numbers` gets answer, line, field and
 * the entries in use then. The answers are 0, 2 (the table's length, or more in use than lent), 13 to 17 (the entries in use, checked as a
 * table of their own), 18, 19, 20, 22 and 23; in all but 0 nothing is written but the numbers. A text without a byte has no rule. The
 * table goes to a run with 8 * entries in use as its length.
 */
static inline void mt_translate_rules(uint32_t *table, size_t table_words, uint32_t used, const uint8_t *text, size_t text_bytes,
                                      uint64_t numbers[4])
{
    uint32_t none = 0;
    const uint8_t no_text = 0;
    marshtrundle_translate_rules(table ? table : &none, table ? table_words : 0, used, text ? text : &no_text,
                                 text ? text_bytes : 0, numbers);
}

/*
 * Writes the rule that starts at `entry` as the line that mt_translate_rules takes it from, its line feed included. `numbers` gets
 * answer, place and length. The answers are 0, 2 and 13 to 17 as for mt_translate_rules, 5 (no rule that mt_translate_rules would take
 * starts there) and 26; in all but 0 nothing is written but the numbers. No line is longer than MT_RULE_BYTES.
 */
static inline void mt_write_rule(const uint32_t *table, size_t table_words, uint32_t used, uint32_t entry, uint8_t *buffer,
                                 size_t buffer_bytes, uint64_t numbers[3])
{
    const uint32_t none = 0;
    uint8_t no_buffer = 0;
    marshtrundle_write_rule(table ? table : &none, table ? table_words : 0, used, entry, buffer ? buffer : &no_buffer,
                            buffer ? buffer_bytes : 0, numbers);
}

#ifdef __cplusplus
}
#endif

#endif
