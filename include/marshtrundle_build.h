/*
 * Marshtrundle: tables and terms made by functions, terms and answers as text.
 *
 * This header goes with marshtrundle.h and needs nothing else, the C library neither. It is not proved; c/build_test.c tests it. All
 * memory is the caller's. C99 or later, or C++.
 *
 * A TABLE is made from the inside out. Each function below makes one entry from entries that are made already, and gives an item that
 * names it. An item may be used many times. The entries are numbered when the table is finished, the last one made first, so that every
 * operand lies above its own entry.
 *
 *     uint32_t words[8 * 64];
 *     mt_builder b = mt_begin(words, 8 * 64);
 *     mt_item x = mt_var(&b, 0), y = mt_var(&b, 1);
 *     mt_item swap = mt_rule(&b, mt_con2(&b, PAIR, x, y), mt_con2(&b, PAIR, y, x));
 *     mt_item pass = mt_bottom_up(&b, mt_attempt(&b, swap));
 *     size_t table_words = mt_finish(&b);
 *     uint32_t start = mt_start(&b, pass);
 *
 * FAULTS. The first thing that goes wrong stays in b.fault, and from then on nothing is made: items are MT_NO_ITEM, and mt_finish gives 0.
 * So it is enough to look at the end.
 */
#ifndef MARSHTRUNDLE_BUILD_H
#define MARSHTRUNDLE_BUILD_H

#include "marshtrundle.h"

#ifdef __cplusplus
extern "C" {
#endif

typedef uint32_t mt_item;

#define MT_NO_ITEM 0xffffffffu
#define MT_NO_NODE 0xffffffffu

enum mt_build_fault {
    MT_BUILT = 0,          /* nothing is wrong */
    MT_BUILD_FULL = 1,     /* more entries than the words hold, or than 4,096 */
    MT_BUILD_OPERANDS = 2, /* more than six operands */
    MT_BUILD_ITEM = 3,     /* an operand is no item of this builder */
    MT_BUILD_CALL = 4,     /* a call of a recursion that was not ended */
    MT_BUILD_UNBOUND = 5,  /* a rule builds a variable that its left side does not bind */
    MT_BUILD_ARGUMENT = 6  /* a variable above 63, a position that is not 1 to 6, or a constructor above 65,535 */
};

typedef struct mt_builder {
    uint32_t *words;
    uint32_t most;       /* entries that the words hold */
    uint32_t entries;    /* entries made */
    uint32_t recursions; /* recursions begun */
    int finished;
    enum mt_build_fault fault;
} mt_builder;

/* A builder over so many words. They may hold anything. */
static inline mt_builder mt_begin(uint32_t *words, size_t count)
{
    mt_builder b;
    b.words = words;
    b.most = words ? (uint32_t)(count / 8 < MT_ENTRIES ? count / 8 : MT_ENTRIES) : 0;
    b.entries = 0;
    b.recursions = 0;
    b.finished = 0;
    b.fault = MT_BUILT;
    return b;
}

static inline mt_item mt_fault(mt_builder *b, enum mt_build_fault fault)
{
    if (b->fault == MT_BUILT)
        b->fault = fault;
    return MT_NO_ITEM;
}

/* The word at which the operands of a kind begin: a scope's mask takes words 1 and 2. */
static inline uint32_t mt_operands(uint32_t kind) { return kind == MT_SCOPE ? 3 : 2; }

/* Makes an entry of any kind. The operands are items made before. Only a scope's argument has more than 32 bits. */
static inline mt_item mt_make(mt_builder *b, uint32_t kind, uint64_t argument, uint32_t count, const mt_item *operands)
{
    uint32_t k, from = mt_operands(kind), *row;
    if (b->fault != MT_BUILT)
        return MT_NO_ITEM;
    if (count > 8 - from)
        return mt_fault(b, MT_BUILD_OPERANDS);
    if (b->finished || b->entries == b->most)
        return mt_fault(b, MT_BUILD_FULL);
    for (k = 0; k < count; k++)
        if (operands[k] >= b->entries)
            return mt_fault(b, MT_BUILD_ITEM);
    row = b->words + 8 * (size_t)b->entries;
    row[0] = MT_ENTRY(kind, count);
    row[1] = (uint32_t)argument;
    row[2] = (uint32_t)(argument >> 32);
    for (k = 0; k < 8 - from; k++)
        row[from + k] = k < count ? operands[k] : 0;
    return b->entries++;
}

static inline mt_item mt_of(mt_builder *b, uint32_t kind, mt_item s) { return mt_make(b, kind, 0, 1, &s); }

static inline mt_item mt_of_two(mt_builder *b, uint32_t kind, mt_item s, mt_item t)
{
    mt_item both[2];
    both[0] = s;
    both[1] = t;
    return mt_make(b, kind, 0, 2, both);
}

/* The operators. marshtrundle.h says what each does. */
static inline mt_item mt_id(mt_builder *b) { return mt_make(b, MT_ID, 0, 0, NULL); }
static inline mt_item mt_fail(mt_builder *b) { return mt_make(b, MT_FAIL, 0, 0, NULL); }
static inline mt_item mt_test(mt_builder *b, mt_item s) { return mt_of(b, MT_TEST, s); }
static inline mt_item mt_not(mt_builder *b, mt_item s) { return mt_of(b, MT_NOT, s); }
static inline mt_item mt_seq(mt_builder *b, mt_item s, mt_item t) { return mt_of_two(b, MT_SEQ, s, t); }
static inline mt_item mt_choice(mt_builder *b, mt_item s, mt_item t) { return mt_of_two(b, MT_CHOICE, s, t); }
static inline mt_item mt_left(mt_builder *b, mt_item s, mt_item t) { return mt_of_two(b, MT_LEFT, s, t); }
static inline mt_item mt_all(mt_builder *b, mt_item s) { return mt_of(b, MT_ALL, s); }
static inline mt_item mt_one(mt_builder *b, mt_item s) { return mt_of(b, MT_ONE, s); }
static inline mt_item mt_some(mt_builder *b, mt_item s) { return mt_of(b, MT_SOME, s); }
static inline mt_item mt_match(mt_builder *b, mt_item pattern) { return mt_of(b, MT_MATCH, pattern); }
static inline mt_item mt_build(mt_builder *b, mt_item pattern) { return mt_of(b, MT_BUILD, pattern); }
static inline mt_item mt_where(mt_builder *b, mt_item s) { return mt_of(b, MT_WHERE, s); }
static inline mt_item mt_scope(mt_builder *b, uint64_t mask, mt_item s) { return mt_make(b, MT_SCOPE, mask, 1, &s); }

static inline mt_item mt_path(mt_builder *b, uint32_t position, mt_item s)
{
    return position < 1 || position > 6 ? mt_fault(b, MT_BUILD_ARGUMENT) : mt_make(b, MT_PATH, position, 1, &s);
}

static inline mt_item mt_cong(mt_builder *b, uint32_t constructor, uint32_t count, const mt_item *operands)
{
    return constructor > 65535 ? mt_fault(b, MT_BUILD_ARGUMENT) : mt_make(b, MT_CONG, constructor, count, operands);
}

/* Patterns: a variable, and a constructor over patterns. */
static inline mt_item mt_var(mt_builder *b, uint32_t variable)
{
    return variable >= MT_VARIABLES ? mt_fault(b, MT_BUILD_ARGUMENT) : mt_make(b, MT_PVAR, variable, 0, NULL);
}

static inline mt_item mt_con(mt_builder *b, uint32_t constructor, uint32_t count, const mt_item *operands)
{
    return constructor > 65535 ? mt_fault(b, MT_BUILD_ARGUMENT) : mt_make(b, MT_PCON, constructor, count, operands);
}

static inline mt_item mt_con0(mt_builder *b, uint32_t constructor) { return mt_con(b, constructor, 0, NULL); }
static inline mt_item mt_con1(mt_builder *b, uint32_t constructor, mt_item p) { return mt_con(b, constructor, 1, &p); }

static inline mt_item mt_con2(mt_builder *b, uint32_t constructor, mt_item p, mt_item q)
{
    mt_item both[2];
    both[0] = p;
    both[1] = q;
    return mt_con(b, constructor, 2, both);
}

/*
 * A recursion: begin it, make its body with calls of it, and end it with the body. Word 7 of its entry, which a REC does not use, says
 * which recursion it is until the table is finished.
 */
static inline uint32_t mt_begin_rec(mt_builder *b) { return ++b->recursions; }
static inline mt_item mt_call(mt_builder *b, uint32_t recursion) { return mt_make(b, MT_CALL, recursion, 0, NULL); }

static inline mt_item mt_end_rec(mt_builder *b, uint32_t recursion, mt_item body)
{
    mt_item rec = mt_of(b, MT_REC, body);
    if (rec != MT_NO_ITEM)
        b->words[8 * (size_t)rec + 7] = recursion;
    return rec;
}

/* The variables that a pattern names, as a mask. */
static inline uint64_t mt_variables(const mt_builder *b, mt_item pattern)
{
    const uint32_t *row;
    uint64_t mask = 0;
    uint32_t k;
    if (pattern >= b->entries)
        return 0;
    row = b->words + 8 * (size_t)pattern;
    if (row[0] / 16 == MT_PVAR)
        return (uint64_t)1 << row[1];
    for (k = 0; k < row[0] % 16; k++)
        mask |= mt_variables(b, row[2 + k]);
    return mask;
}

/* A rule: match `from`, build `to`, in a scope of the variables of `from`. Fails where the term does not match. */
static inline mt_item mt_rule(mt_builder *b, mt_item from, mt_item to)
{
    uint64_t bound = mt_variables(b, from);
    if (b->fault == MT_BUILT && (mt_variables(b, to) & ~bound) != 0)
        return mt_fault(b, MT_BUILD_UNBOUND);
    return mt_scope(b, bound, mt_seq(b, mt_match(b, from), mt_build(b, to)));
}

/* `s`, or the term as it is where `s` fails. Never fails. */
static inline mt_item mt_attempt(mt_builder *b, mt_item s) { return mt_left(b, s, mt_id(b)); }

/* `s` as often as it succeeds. Never fails. */
static inline mt_item mt_repeat(mt_builder *b, mt_item s)
{
    uint32_t again = mt_begin_rec(b);
    return mt_end_rec(b, again, mt_attempt(b, mt_seq(b, s, mt_call(b, again))));
}

/* `s` on every subterm, children first. Fails where `s` fails on one of them. */
static inline mt_item mt_bottom_up(mt_builder *b, mt_item s)
{
    uint32_t again = mt_begin_rec(b);
    return mt_end_rec(b, again, mt_seq(b, mt_all(b, mt_call(b, again)), s));
}

/* `s` on every subterm, parents first. Fails where `s` fails on one of them. */
static inline mt_item mt_top_down(mt_builder *b, mt_item s)
{
    uint32_t again = mt_begin_rec(b);
    return mt_end_rec(b, again, mt_seq(b, s, mt_all(b, mt_call(b, again))));
}

/* `s` on the first subterm where it succeeds, parents first. Fails where it fails on all. */
static inline mt_item mt_once_td(mt_builder *b, mt_item s)
{
    uint32_t again = mt_begin_rec(b);
    return mt_end_rec(b, again, mt_left(b, s, mt_one(b, mt_call(b, again))));
}

/* `s` wherever it succeeds until it succeeds nowhere, children first. Never fails. */
static inline mt_item mt_innermost(mt_builder *b, mt_item s)
{
    uint32_t again = mt_begin_rec(b);
    mt_item call = mt_call(b, again);
    return mt_end_rec(b, again, mt_seq(b, mt_all(b, call), mt_attempt(b, mt_seq(b, s, call))));
}

/* Where an item stands in the finished table. */
static inline uint32_t mt_start(const mt_builder *b, mt_item item) { return b->entries - 1 - item; }

/* The four counts of an item among those of its finished table, as enum mt_count names them: how often a rule was tried, and how that went. */
static inline const uint64_t *mt_counts(const mt_builder *b, mt_item item, const uint64_t *counts)
{
    return counts + MT_COUNTS * (size_t)mt_start(b, item);
}

/* The item of a recursion, or MT_NO_ITEM. */
static inline mt_item mt_rec_of(const mt_builder *b, uint32_t recursion)
{
    uint32_t k;
    for (k = 0; k < b->entries; k++)
        if (b->words[8 * (size_t)k] / 16 == MT_REC && b->words[8 * (size_t)k + 7] == recursion)
            return k;
    return MT_NO_ITEM;
}

/*
 * Numbers the entries and gives the table's length in words, or 0 where there is a fault. The table is then in the words that the builder
 * was begun with, and nothing more can be made.
 */
static inline size_t mt_finish(mt_builder *b)
{
    uint32_t k, j;
    if (b->fault != MT_BUILT || b->finished || b->entries == 0)
        return 0;
    for (k = 0; k < b->entries; k++) {
        uint32_t *row = b->words + 8 * (size_t)k;
        if (row[0] / 16 == MT_CALL) {
            mt_item rec = mt_rec_of(b, row[1]);
            if (rec == MT_NO_ITEM) {
                mt_fault(b, MT_BUILD_CALL);
                return 0;
            }
            row[0] = MT_ENTRY(MT_CALL, 1);
            row[1] = 0;
            row[2] = rec;
        }
    }
    for (k = 0; k < b->entries; k++) {
        uint32_t *row = b->words + 8 * (size_t)k;
        if (row[0] / 16 == MT_REC)
            row[7] = 0;
        for (j = 0; j < row[0] % 16; j++) {
            uint32_t *operand = row + mt_operands(row[0] / 16) + j;
            *operand = mt_start(b, *operand);
        }
    }
    for (k = 0; k < b->entries / 2; k++)
        for (j = 0; j < 8; j++) {
            uint32_t *low = b->words + 8 * (size_t)k + j;
            uint32_t *high = b->words + 8 * (size_t)(b->entries - 1 - k) + j;
            uint32_t word = *low;
            *low = *high;
            *high = word;
        }
    b->finished = 1;
    return 8 * (size_t)b->entries;
}

/*
 * Makes a node at the mark and gives its number. MT_NO_NODE where the store is full, a child is not below the mark, there are more than six, or
 * the constructor is above 65,535.
 */
static inline uint32_t mt_node(uint32_t *store, size_t store_words, uint32_t *mark, uint32_t constructor, uint32_t count,
                               const uint32_t *children)
{
    uint32_t k, *row;
    if (store == NULL || *mark >= store_words / 8 || *mark >= MT_NODES || count > 6 || constructor > 65535)
        return MT_NO_NODE;
    for (k = 0; k < count; k++)
        if (children[k] >= *mark)
            return MT_NO_NODE;
    row = store + 8 * (size_t)*mark;
    row[0] = constructor;
    row[1] = count;
    for (k = 0; k < 6; k++)
        row[2 + k] = k < count ? children[k] : 0;
    return (*mark)++;
}

/* Text that is being written: where, how much it holds, how much is used. */
typedef struct mt_text {
    char *bytes;
    size_t size;
    size_t used;
} mt_text;

static inline void mt_put(mt_text *text, const char *more)
{
    for (; *more != 0 && text->used + 1 < text->size; more++)
        text->bytes[text->used++] = *more;
}

static inline void mt_put_number(mt_text *text, uint32_t number)
{
    char digits[11];
    size_t at = 10;
    digits[10] = 0;
    do {
        digits[--at] = (char)('0' + number % 10);
        number /= 10;
    } while (number > 0);
    mt_put(text, digits + at);
}

static inline void mt_put_term(mt_text *text, const uint32_t *store, size_t store_words, uint32_t node,
                               const char *(*name)(uint32_t), uint32_t depth)
{
    const uint32_t *row = store + 8 * (size_t)node;
    const char *own;
    uint32_t k;
    if (text->used + 1 >= text->size)
        return;
    if (depth == 0 || node >= store_words / 8) {
        mt_put(text, "..");
        return;
    }
    own = name ? name(row[0]) : NULL;
    if (own)
        mt_put(text, own);
    else
        mt_put_number(text, row[0]);
    for (k = 0; k < row[1] && k < 6; k++) {
        mt_put(text, k == 0 ? "(" : ", ");
        if (row[2 + k] < node)
            mt_put_term(text, store, store_words, row[2 + k], name, depth - 1);
        else
            mt_put(text, "..");
    }
    if (k > 0)
        mt_put(text, ")");
}

/*
 * Writes a term, `PAIR(1, 2)`, into `size` bytes, a zero at the end among them, and gives the number of bytes before that zero. `name` gives a
 * constructor's name, or null for its number; it may be null itself. What is deeper than `depth` is written as `..`; what does not fit is cut.
 */
static inline size_t mt_term_text(const uint32_t *store, size_t store_words, uint32_t node, const char *(*name)(uint32_t),
                                  uint32_t depth, char *bytes, size_t size)
{
    mt_text text;
    text.bytes = bytes;
    text.size = size;
    text.used = 0;
    if (size == 0)
        return 0;
    if (store)
        mt_put_term(&text, store, store_words, node, name, depth);
    bytes[text.used] = 0;
    return text.used;
}

/* An answer in words. */
static inline const char *mt_answer_text(uint32_t answer)
{
    switch (answer) {
    case MT_DONE: return "done";
    case MT_FAILED: return "failed";
    case MT_BAD_SIZES: return "a length or the mark is bad";
    case MT_BAD_NODE: return "a node is bad";
    case MT_BAD_START: return "the start, the subject or a binding is bad";
    case MT_OUT_OF_UNITS: return "all units are used";
    case MT_OUT_OF_ROOM: return "the store has no room";
    case MT_TOO_DEEP: return "a visit is nested too deep";
    case MT_DISOBEYING_ENTRY: return "an entry's constructor is not declared with its number of operands";
    case MT_DISOBEYING_NODE: return "a node's constructor is not declared with its number of children";
    case MT_TWIN_NODE: return "a node has the words of an earlier one";
    case MT_UNBOUND: return "a variable is built that has no binding";
    case MT_BAD_KIND: return "an entry is bad: unknown kind or wrong number of operands";
    case MT_BAD_ARGUMENT: return "an entry is bad: argument out of range";
    case MT_BAD_OPERAND: return "an entry is bad: operand outside its allowed numbers";
    case MT_BAD_SORT: return "an entry is bad: operand of the wrong sort";
    case MT_BAD_WORD: return "an entry is bad: unused word that is not zero";
    case MT_BAD_RULE: return "a line is no rule: a field is bad or missing";
    case MT_RULE_UNBOUND: return "a rule builds a variable that nothing before it binds";
    case MT_RULE_VARIABLE: return "a rule's variable is above 63";
    case MT_RULE_CALL: return "a condition's entry is no REC in use without free variables";
    case MT_NO_ENTRIES: return "the table has no room for a rule's entries";
    case MT_FULL_COUNT: return "a count is too high to be added to";
    case MT_UNFINISHED: return "the run is set aside";
    case MT_SHORT_BUFFER: return "the buffer is shorter than the rule's line";
    case MT_NO_RUN: return "the work list holds no run";
    default: return "no answer of this library";
    }
}

#ifdef __cplusplus
}
#endif

#endif
