/*
 * Calls the library by its C header: the job of document 01, the refusals, a signature, many subjects, runs in steps, an index, counts,
 * the collection, rules as text, and null with length 0 everywhere. Prints what is wrong, or one line that nothing is. Plain C99. Of the C library it takes puts alone, and declares it, so that it compiles
 * where the C library's headers are not at hand.
 */
#include "marshtrundle.h"

int puts(const char *text);

static int wrong = 0;
static int held = 0;

static void hold(int what, const char *text)
{
    if (what) {
        held++;
    } else {
        wrong++;
        puts(text);
    }
}

static int same(const uint32_t *a, const uint32_t *b, size_t words)
{
    size_t i;
    for (i = 0; i < words; i++)
        if (a[i] != b[i])
            return 0;
    return 1;
}

static int is(const uint32_t *numbers, uint32_t a, uint32_t b, uint32_t c, uint32_t d, uint32_t e)
{
    return numbers[MT_ANSWER] == a && numbers[MT_PLACE] == b && numbers[MT_SUBJECT] == c && numbers[MT_MARK] == d &&
           numbers[MT_UNITS] == e;
}

/* Swaps a pair: the first job of document 01. */
static const uint32_t table[64] = {
    MT_ENTRY(MT_SCOPE, 1), 3, 0, 1, 0, 0, 0, 0, /* 0 */
    MT_ENTRY(MT_SEQ, 2),   0, 2, 3, 0, 0, 0, 0, /* 1 */
    MT_ENTRY(MT_MATCH, 1), 0, 4, 0, 0, 0, 0, 0, /* 2 */
    MT_ENTRY(MT_BUILD, 1), 0, 5, 0, 0, 0, 0, 0, /* 3 */
    MT_ENTRY(MT_PCON, 2),  5, 6, 7, 0, 0, 0, 0, /* 4 */
    MT_ENTRY(MT_PCON, 2),  5, 7, 6, 0, 0, 0, 0, /* 5 */
    MT_ENTRY(MT_PVAR, 0),  0, 0, 0, 0, 0, 0, 0, /* 6 */
    MT_ENTRY(MT_PVAR, 0),  1, 0, 0, 0, 0, 0, 0  /* 7 */
};

/* The nodes 1, 2 and 5(0, 1), and room for one more. The room holds what was there before. */
static const uint32_t given[32] = {1, 0, 0, 0, 0, 0, 0, 0, 2, 0, 0, 0, 0, 0, 0, 0,
                                   5, 2, 0, 1, 0, 0, 0, 0, 9, 9, 9, 9, 9, 9, 9, 9};
static const uint32_t after[32] = {1, 0, 0, 0, 0, 0, 0, 0, 2, 0, 0, 0, 0, 0, 0, 0,
                                   5, 2, 0, 1, 0, 0, 0, 0, 5, 2, 1, 0, 0, 0, 0, 0};

static uint32_t store[32];
static uint32_t bindings[MT_VARIABLES];
static uint32_t numbers[5];
static uint64_t asked[3];

static void fresh(void)
{
    size_t i;
    for (i = 0; i < 64; i++) {
        store[i % 32] = given[i % 32];
        bindings[i] = 0;
        numbers[i % 5] = 77;
    }
}

static void the_job(void)
{
    static const uint32_t zeros[64];
    static const uint32_t fails[8] = {16 * MT_FAIL};
    fresh();
    mt_run(table, 64, store, 32, bindings, 64, 3, 0, 2, 10, numbers);
    hold(is(numbers, MT_DONE, 0, 3, 4, 10), "S1: the numbers");
    hold(same(store, after, 32), "S1: the store");
    hold(same(bindings, zeros, 64), "S1: the bindings");
    fresh();
    mt_run(table, 64, store, 32, bindings, 64, 3, 0, 2, 9, numbers);
    hold(is(numbers, MT_OUT_OF_UNITS, 0, 2, 3, 9), "S2: the numbers");
    hold(same(store, given, 24) && same(store + 24, zeros, 8), "S2: the store");
    fresh();
    mt_run(table, 64, store, 24, bindings, 64, 3, 0, 2, 10, numbers);
    hold(is(numbers, MT_OUT_OF_ROOM, 0, 2, 3, 10), "S3: the numbers");
    hold(same(store, given, 32), "S3: the store");
    /* S12, but of variable 1: the BUILD alone, which no MATCH went before. Its first variable, from the left, is the place. */
    fresh();
    bindings[0] = 1;
    mt_run(table, 64, store, 32, bindings, 64, 3, 3, 2, 10, numbers);
    hold(is(numbers, MT_UNBOUND, 1, 2, 3, 3), "12: the numbers");
    hold(same(store, given, 24) && same(store + 24, zeros, 8), "12: the store");
    hold(bindings[0] == 1 && same(bindings + 1, zeros, 63), "12: the bindings");
    /* The constant 1 is no pair: the match gives up at its pattern, entry 4. FAIL alone has no match. */
    fresh();
    mt_run(table, 64, store, 32, bindings, 64, 3, 0, 0, 10, numbers);
    hold(is(numbers, MT_FAILED, 4, 0, 3, 4), "1: the place is the pattern that differs");
    mt_run(fails, 8, store, 32, bindings, 64, 3, 0, 0, 10, numbers);
    hold(is(numbers, MT_FAILED, 4096, 0, 3, 1), "1: 4096 where no match failed");
    mt_check_table(table, 64, numbers);
    hold(numbers[0] == MT_DONE && numbers[1] == 0, "the table check");
    mt_check_store(given, 32, 3, numbers);
    hold(numbers[0] == MT_DONE && numbers[1] == 0, "the store check");
    mt_check_store(given, 32, 4, numbers);
    hold(numbers[0] == MT_BAD_NODE && numbers[1] == 3, "the store check of the room");
    mt_free_variables(table, 64, 0, asked);
    hold(asked[0] == MT_DONE && asked[1] == 0 && asked[MT_MASK] == 0, "free variables of the scope");
    mt_free_variables(table, 64, 1, asked);
    hold(asked[0] == MT_DONE && asked[1] == 0 && asked[MT_MASK] == 3, "free variables of the sequence");
    mt_free_variables(table, 64, 4, asked);
    hold(asked[0] == MT_BAD_START && asked[1] == 0 && asked[MT_MASK] == 0, "free variables of a pattern");
}

/* Variables and masks of both halves: a scope of variable 32 hides it and puts it back; one of variable 0 leaves it. */
static void both_halves(void)
{
    static const uint32_t scope_32[24] = {MT_ENTRY(MT_SCOPE, 1), 0,  1, 1, 0, 0, 0, 0,
                                          MT_ENTRY(MT_MATCH, 1), 0,  2, 0, 0, 0, 0, 0,
                                          MT_ENTRY(MT_PVAR, 0),  32, 0, 0, 0, 0, 0, 0};
    static const uint32_t scope_0[24] = {MT_ENTRY(MT_SCOPE, 1), 1,  0, 1, 0, 0, 0, 0,
                                         MT_ENTRY(MT_MATCH, 1), 0,  2, 0, 0, 0, 0, 0,
                                         MT_ENTRY(MT_PVAR, 0),  32, 0, 0, 0, 0, 0, 0};
    static const uint32_t last[16] = {MT_ENTRY(MT_MATCH, 1), 0, 1, 0, 0, 0, 0, 0, MT_ENTRY(MT_PVAR, 0), 63, 0, 0, 0, 0, 0, 0};
    fresh();
    bindings[32] = 1;
    mt_run(scope_32, 24, store, 32, bindings, 64, 3, 0, 2, 10, numbers);
    hold(is(numbers, MT_DONE, 0, 2, 3, 3) && bindings[32] == 1 && bindings[0] == 0, "a scope of variable 32");
    mt_run(scope_0, 24, store, 32, bindings, 64, 3, 0, 2, 10, numbers);
    hold(numbers[0] == MT_FAILED && numbers[MT_PLACE] == 2 && bindings[32] == 1, "a scope of variable 0");
    mt_run(scope_0 + 8, 16, store, 32, bindings, 64, 3, 0, 2, 10, numbers);
    hold(numbers[0] == MT_BAD_OPERAND, "an operand outside");
    fresh();
    mt_run(last, 16, store, 32, bindings, 64, 3, 0, 2, 10, numbers);
    hold(is(numbers, MT_DONE, 0, 2, 3, 2) && bindings[63] == 3 && bindings[31] == 0, "variable 63");
    mt_free_variables(scope_32, 24, 1, asked);
    hold(asked[0] == MT_DONE && asked[MT_MASK] == (uint64_t)1 << 32, "variable 32 is free");
    mt_free_variables(scope_32, 24, 0, asked);
    hold(asked[0] == MT_DONE && asked[MT_MASK] == 0, "and not in its scope");
    mt_free_variables(last, 16, 0, asked);
    hold(asked[0] == MT_DONE && asked[MT_MASK] == (uint64_t)1 << 63, "variable 63 is free");
    fresh();
}

static void refused(uint32_t answer, uint32_t place, uint32_t subject, uint32_t mark, const char *text)
{
    static const uint32_t zeros[64];
    hold(is(numbers, answer, place, subject, mark, 0), text);
    hold(same(store, given, 32) && same(bindings, zeros, 64), "a refusal wrote something");
    fresh();
}

static void refusals(void)
{
    static const struct {
        uint32_t answer, entry[8];
        const char *text;
    } bad[] = {
        {MT_BAD_KIND, {MT_ENTRY(20, 0), 9, 9, 9, 9, 9, 9, 9}, "a kind above 19"},
        {MT_BAD_KIND, {MT_ENTRY(MT_ID, 1), 9, 9, 9, 9, 9, 9, 9}, "ID with an operand"},
        {MT_BAD_ARGUMENT, {MT_ENTRY(MT_PATH, 1), 7, 9, 9, 9, 9, 9, 9}, "PATH 7"},
        {MT_BAD_OPERAND, {MT_ENTRY(MT_SEQ, 2), 0, 2, 4, 9, 9, 9, 9}, "an operand outside behind a pattern"},
        {MT_BAD_OPERAND, {MT_ENTRY(MT_CALL, 1), 0, 4, 9, 9, 9, 9, 9}, "a CALL outside the table"},
        {MT_BAD_SORT, {MT_ENTRY(MT_SEQ, 2), 0, 2, 3, 9, 9, 9, 9}, "a pattern as a strategy"},
        {MT_BAD_SORT, {MT_ENTRY(MT_CALL, 1), 0, 0, 9, 9, 9, 9, 9}, "a CALL of no REC"},
        {MT_BAD_WORD, {MT_ENTRY(MT_ALL, 1), 0, 3, 0, 0, 0, 0, 9}, "an unused word"},
    };
    size_t k;
    fresh();
    for (k = 0; k < sizeof bad / sizeof bad[0]; k++) {
        uint32_t words[32] = {0};
        size_t j;
        for (j = 0; j < 8; j++)
            words[8 + j] = bad[k].entry[j];
        words[16] = MT_ENTRY(MT_PVAR, 0);
        mt_run(words, 32, store, 32, bindings, 64, 3, 0, 2, 10, numbers);
        refused(bad[k].answer, 1, 2, 3, bad[k].text);
    }
    mt_run(table, 63, store, 32, bindings, 64, 3, 0, 2, 10, numbers);
    refused(MT_BAD_SIZES, 0, 2, 3, "a table of 63 words");
    mt_run(table, 64, store, 31, bindings, 64, 3, 0, 2, 10, numbers);
    refused(MT_BAD_SIZES, 0, 2, 3, "a store of 31 words");
    mt_run(table, 64, store, 32, bindings, 63, 3, 0, 2, 10, numbers);
    refused(MT_BAD_SIZES, 0, 2, 3, "bindings of 63 words");
    mt_run(table, 64, store, 32, bindings, 32, 3, 0, 2, 10, numbers);
    refused(MT_BAD_SIZES, 0, 2, 3, "bindings of 32 words");
    mt_run(table, 64, store, 32, bindings, 64, 5, 0, 2, 10, numbers);
    refused(MT_BAD_SIZES, 0, 2, 5, "a mark above the store's nodes");
    mt_run(table, 64, store, 32, bindings, 64, 4, 0, 2, 10, numbers);
    refused(MT_BAD_NODE, 3, 2, 4, "a bad node");
    mt_run(table, 64, store, 32, bindings, 64, 3, 8, 2, 10, numbers);
    refused(MT_BAD_START, 0, 2, 3, "a start outside the table");
    mt_run(table, 64, store, 32, bindings, 64, 3, 6, 2, 10, numbers);
    refused(MT_BAD_START, 0, 2, 3, "a start that is a pattern");
    mt_run(table, 64, store, 32, bindings, 64, 3, 0, 3, 10, numbers);
    refused(MT_BAD_START, 0, 3, 3, "a subject at the mark");
}

/* 1 and 2 have no children, 5 has two, and no other constructor is declared. */
static const uint32_t signature[6] = {MT_UNDECLARED, 0, 0, MT_UNDECLARED, MT_UNDECLARED, 2};

static void signed_runs(void)
{
    static const uint32_t zeros[64];
    static const uint32_t longer[MT_CONSTRUCTORS + 1];
    uint32_t other[6];
    size_t i;
    fresh();
    mt_run_signed(table, 64, store, 32, bindings, 64, 3, 0, 2, 10, signature, 6, numbers);
    hold(is(numbers, MT_DONE, 0, 3, 4, 10), "signed: the numbers");
    hold(same(store, after, 32) && same(bindings, zeros, 64), "signed: the store and the bindings");
    fresh();
    mt_run_signed(table, 64, store, 32, bindings, 64, 3, 0, 2, 9, signature, 6, numbers);
    hold(is(numbers, MT_OUT_OF_UNITS, 0, 2, 3, 9), "signed: 9 units");
    fresh();
    for (i = 0; i < 6; i++)
        other[i] = signature[i];
    other[5] = 3;
    mt_run_signed(table, 64, store, 32, bindings, 64, 3, 0, 2, 10, other, 6, numbers);
    refused(MT_DISOBEYING_ENTRY, 4, 2, 3, "signed: the pair has three children");
    mt_run_signed(table, 64, store, 32, bindings, 64, 3, 0, 2, 10, signature, 5, numbers);
    refused(MT_DISOBEYING_ENTRY, 4, 2, 3, "signed: the pair is beyond the list");
    mt_run_signed(table, 64, store, 32, bindings, 64, 3, 0, 2, 10, NULL, 0, numbers);
    refused(MT_DISOBEYING_ENTRY, 4, 2, 3, "signed: an empty signature");
    other[5] = 2;
    other[2] = MT_UNDECLARED;
    mt_run_signed(table, 64, store, 32, bindings, 64, 3, 0, 2, 10, other, 6, numbers);
    refused(MT_DISOBEYING_NODE, 1, 2, 3, "signed: node 1 is not declared");
    mt_run_signed(table, 64, store, 32, bindings, 64, 4, 0, 2, 10, other, 6, numbers);
    refused(MT_BAD_NODE, 3, 2, 4, "signed: 4 before 11");
    mt_run_signed(table, 64, store, 32, bindings, 64, 3, 6, 2, 10, other, 6, numbers);
    refused(MT_DISOBEYING_NODE, 1, 2, 3, "signed: 11 before 5");
    mt_run_signed(table, 64, store, 32, bindings, 64, 3, 6, 2, 10, signature, 6, numbers);
    refused(MT_BAD_START, 0, 2, 3, "signed: a start that is a pattern");
    other[0] = 8;
    mt_run_signed(table, 64, store, 32, bindings, 64, 3, 0, 2, 10, other, 6, numbers);
    refused(MT_BAD_SIZES, 0, 2, 3, "signed: a word above 7");
    mt_run_signed(table, 64, store, 32, bindings, 64, 3, 0, 2, 10, longer, MT_CONSTRUCTORS + 1, numbers);
    refused(MT_BAD_SIZES, 0, 2, 3, "signed: too long a list");
    mt_run_signed(NULL, 0, NULL, 0, NULL, 0, 0, 0, 0, 0, NULL, 0, numbers);
    hold(is(numbers, MT_BAD_SIZES, 0, 0, 0, 0), "signed: null everywhere");
}

/* What stands in a result list before the call. */
#define OLD 88

static uint32_t results[20];

static void fresh_list(void)
{
    size_t i;
    fresh();
    for (i = 0; i < 20; i++)
        results[i] = OLD;
}

/* A call that was refused, and wrote nothing but its two numbers. */
static void many_refused(uint32_t answer, uint32_t place, const char *text)
{
    static const uint32_t zeros[64];
    size_t i;
    hold(numbers[MT_ANSWER] == answer && numbers[MT_PLACE] == place && numbers[2] == 77, text);
    for (i = 0; i < 20; i++)
        hold(results[i] == OLD, text);
    hold(same(store, given, 32) && same(bindings, zeros, 64), text);
}

static void many_subjects(void)
{
    static const uint32_t zeros[64];
    static const uint32_t subjects[4] = {0, 2, 1, 2};
    static const uint32_t beyond[2] = {2, 3};
    static const uint32_t bad[6] = {8};
    /* 1 and 2 fail; the pair is swapped while there is room for one node. */
    fresh_list();
    mt_run_many(table, 64, store, 32, bindings, 64, 3, 0, subjects, 4, 10, results, 20, numbers);
    hold(numbers[MT_ANSWER] == MT_DONE && numbers[MT_PLACE] == 0 && numbers[2] == 77, "many: the two numbers");
    hold(is(results, MT_FAILED, 4, 0, 3, 4), "many: the first");
    hold(is(results + 5, MT_DONE, 0, 3, 4, 10), "many: the second");
    hold(is(results + 10, MT_FAILED, 4, 1, 4, 4), "many: the third");
    hold(is(results + 15, MT_OUT_OF_ROOM, 0, 2, 4, 10), "many: the fourth");
    hold(same(store, after, 32) && same(bindings, zeros, 64), "many: the store and the bindings");
    fresh_list();
    mt_run_many(table, 64, store, 32, bindings, 64, 3, 0, subjects, 2, 9, results, 10, numbers);
    hold(numbers[MT_ANSWER] == MT_DONE && is(results, MT_FAILED, 4, 0, 3, 4), "many: 9 units, the first");
    hold(is(results + 5, MT_OUT_OF_UNITS, 0, 2, 3, 9) && results[10] == OLD, "many: 9 units, the second");
    hold(same(store, given, 24) && same(store + 24, zeros, 8), "many: 9 units, the store");
    fresh_list();
    mt_run_many_signed(table, 64, store, 32, bindings, 64, 3, 0, subjects + 1, 2, 10, results, 10, signature, 6, numbers);
    hold(numbers[MT_ANSWER] == MT_DONE && is(results, MT_DONE, 0, 3, 4, 10), "many signed: the first");
    hold(is(results + 5, MT_FAILED, 4, 1, 4, 4) && same(store, after, 32), "many signed: the second, and the store");
    /* With no subjects nothing is written, and what is wrong is refused all the same. */
    fresh_list();
    mt_run_many(table, 64, store, 32, bindings, 64, 3, 0, NULL, 0, 10, NULL, 0, numbers);
    many_refused(MT_DONE, 0, "many: no subjects");
    mt_run_many(table, 64, store, 32, bindings, 64, 3, 6, NULL, 0, 10, NULL, 0, numbers);
    many_refused(MT_BAD_START, 0, "many: no subjects and a pattern");
    mt_run_many(table, 64, store, 32, bindings, 64, 3, 0, NULL, 0, 10, results, 5, numbers);
    many_refused(MT_BAD_SIZES, 0, "many: no subjects and results");
    mt_run_many_signed(table, 64, store, 32, bindings, 64, 3, 0, NULL, 0, 10, NULL, 0, signature, 6, numbers);
    many_refused(MT_DONE, 0, "many signed: no subjects");
    mt_run_many_signed(table, 64, store, 32, bindings, 64, 3, 0, NULL, 0, 10, NULL, 0, NULL, 0, numbers);
    many_refused(MT_DISOBEYING_ENTRY, 4, "many signed: no subjects and an empty signature");
    /* The refusals. */
    mt_run_many(table, 64, store, 32, bindings, 64, 3, 0, subjects, 2, 10, results, 9, numbers);
    many_refused(MT_BAD_SIZES, 0, "many: a short result list");
    mt_run_many(table, 64, store, 32, bindings, 64, 3, 0, subjects, 2, 10, results, 15, numbers);
    many_refused(MT_BAD_SIZES, 0, "many: a long result list");
    mt_run_many(table, 64, store, 32, bindings, 64, 3, 0, beyond, 2, 10, results, 10, numbers);
    many_refused(MT_BAD_START, 0, "many: a subject at the first mark");
    mt_run_many(table, 64, store, 32, bindings, 64, 4, 0, beyond, 2, 10, results, 10, numbers);
    many_refused(MT_BAD_NODE, 3, "many: a bad node");
    mt_run_many(table, 63, store, 32, bindings, 64, 4, 0, beyond, 2, 10, results, 10, numbers);
    many_refused(MT_BAD_SIZES, 0, "many: a table of 63 words");
    mt_run_many_signed(table, 64, store, 32, bindings, 64, 3, 0, beyond, 2, 10, results, 10, signature, 5, numbers);
    many_refused(MT_DISOBEYING_ENTRY, 4, "many signed: 10 before 5");
    mt_run_many_signed(table, 64, store, 32, bindings, 64, 3, 0, beyond, 2, 10, results, 10, bad, 6, numbers);
    many_refused(MT_BAD_SIZES, 0, "many signed: a word above 7");
    mt_run_many(NULL, 0, NULL, 0, NULL, 0, 0, 0, NULL, 0, 0, NULL, 0, numbers);
    many_refused(MT_BAD_SIZES, 0, "many: null everywhere");
    mt_run_many_signed(NULL, 0, NULL, 0, NULL, 0, 0, 0, NULL, 0, 0, NULL, 0, NULL, 0, numbers);
    many_refused(MT_BAD_SIZES, 0, "many signed: null everywhere");
}

/* The nodes 1 and 2 and the pair swapped: the node 5(0, 1), which nothing names, is gone. */
static const uint32_t collected[32] = {1, 0, 0, 0, 0, 0, 0, 0, 2, 0, 0, 0, 0, 0, 0, 0, 5, 2, 1, 0, 0, 0, 0, 0};

static uint32_t list[MT_WORK_WORDS + 2];

static void fresh_steps(uint32_t word)
{
    size_t i;
    fresh();
    for (i = 0; i < MT_WORK_WORDS + 2; i++)
        list[i] = word;
}

static int all_are(uint32_t word)
{
    size_t i;
    for (i = 0; i < MT_WORK_WORDS + 2; i++)
        if (list[i] != word)
            return 0;
    return 1;
}

static void start_refused(uint32_t answer, uint32_t place, uint32_t subject, uint32_t mark, const char *text)
{
    refused(answer, place, subject, mark, text);
    hold(all_are(9), text);
}

static void steps(void)
{
    static const uint32_t zeros[64];
    static const uint32_t fails[8] = {16 * MT_FAIL};
    static const uint32_t loop[16] = {MT_ENTRY(MT_REC, 1), 0, 1, 0, 0, 0, 0, 0, MT_ENTRY(MT_CALL, 1)};
    static const uint32_t declared[6] = {7, 0, 0, 7, 7, 2};
    uint32_t size;
    uint32_t made;
    /* The swap takes ten visits: by any numbers of visits it ends as the run does. */
    for (size = 1; size <= 11; size++) {
        fresh_steps(9);
        mt_start_run(table, 64, store, 32, bindings, 64, list, MT_WORK_WORDS + 2, 3, 0, 2, 10, numbers);
        hold(is(numbers, MT_UNFINISHED, 0, 2, 3, 0), "the start makes no visit");
        hold(same(store, given, 32) && same(bindings, zeros, 64), "the start writes the work list alone");
        mt_step_run(table, 64, store, 32, bindings, 64, list, MT_WORK_WORDS + 2, 0, numbers);
        hold(is(numbers, MT_UNFINISHED, 0, 2, 3, 0), "a step of no visits does nothing");
        for (made = size; made < 10; made += size) {
            mt_step_run(table, 64, store, 32, bindings, 64, list, MT_WORK_WORDS + 2, size, numbers);
            hold(is(numbers, MT_UNFINISHED, 0, 2, 3, made), "a step makes its visits");
            hold(same(bindings, zeros, 64), "the bindings are as given until the end");
        }
        mt_step_run(table, 64, store, 32, bindings, 64, list, MT_WORK_WORDS + 2, size, numbers);
        hold(is(numbers, MT_DONE, 0, 3, 4, 10), "the last step: the numbers");
        hold(same(store, after, 32), "the last step: the store");
        hold(same(bindings, zeros, 64), "the last step: the bindings");
        hold(all_are(0), "the last step: the work list");
        mt_step_run(table, 64, store, 32, bindings, 64, list, MT_WORK_WORDS + 2, size, numbers);
        hold(is(numbers, MT_NO_RUN, 0, 0, 0, 0), "a step on a work list of zeros");
        hold(same(store, after, 32) && all_are(0), "a step on a work list of zeros writes nothing");
    }
    /* A step ends before the next visit's limit test. */
    fresh_steps(9);
    mt_start_run(table, 64, store, 32, bindings, 64, list, MT_WORK_WORDS, 3, 0, 2, 4, numbers);
    mt_step_run(table, 64, store, 32, bindings, 64, list, MT_WORK_WORDS, 4, numbers);
    hold(is(numbers, MT_UNFINISHED, 0, 2, 3, 4), "after the last unit");
    mt_step_run(table, 64, store, 32, bindings, 64, list, MT_WORK_WORDS, 1, numbers);
    hold(is(numbers, MT_OUT_OF_UNITS, 0, 2, 3, 4), "and then 6");
    hold(list[MT_WORK_WORDS] == 9 && list[MT_WORK_WORDS + 1] == 9, "nothing behind the work list is written");
    mt_start_run(loop, 16, store, 32, bindings, 64, list, MT_WORK_WORDS, 3, 0, 2, 5000, numbers);
    mt_step_run(loop, 16, store, 32, bindings, 64, list, MT_WORK_WORDS, 4096, numbers);
    hold(is(numbers, MT_UNFINISHED, 0, 2, 3, 4096), "4,096 levels");
    mt_step_run(loop, 16, store, 32, bindings, 64, list, MT_WORK_WORDS, 0xffffffffu, numbers);
    hold(is(numbers, MT_TOO_DEEP, 0, 2, 3, 4096), "and then 8");
    fresh_steps(9);
    mt_start_run_signed(fails, 8, store, 32, bindings, 64, list, MT_WORK_WORDS + 2, 3, 0, 2, 10, declared, 6, numbers);
    hold(is(numbers, MT_UNFINISHED, 0, 2, 3, 0), "a start with a signature");
    mt_step_run(fails, 8, store, 32, bindings, 64, list, MT_WORK_WORDS + 2, 1, numbers);
    hold(is(numbers, MT_FAILED, 4096, 2, 3, 1), "a run that fails");
    /* A start that is refused writes nothing. */
    fresh_steps(9);
    mt_start_run(table, 64, store, 32, bindings, 64, list, MT_WORK_WORDS - 1, 3, 0, 2, 10, numbers);
    start_refused(MT_BAD_SIZES, 0, 2, 3, "a work list that is too short");
    mt_start_run(table, 64, store, 32, bindings, 64, NULL, MT_WORK_WORDS, 3, 0, 2, 10, numbers);
    start_refused(MT_BAD_SIZES, 0, 2, 3, "a null work list");
    mt_start_run(table, 64, store, 32, bindings, 64, list, MT_WORK_WORDS + 2, 3, 6, 2, 10, numbers);
    start_refused(MT_BAD_START, 0, 2, 3, "the start of a run in steps is a pattern");
    mt_start_run_signed(table, 64, store, 32, bindings, 64, list, MT_WORK_WORDS + 2, 3, 0, 2, 10, declared, 5, numbers);
    start_refused(MT_DISOBEYING_ENTRY, 4, 2, 3, "a start with a signature that is not obeyed");
    mt_step_run(table, 64, store, 32, bindings, 63, list, MT_WORK_WORDS + 2, 1, numbers);
    start_refused(MT_BAD_SIZES, 0, 0, 0, "a step with bad bindings");
    mt_step_run(NULL, 0, NULL, 0, NULL, 0, NULL, 0, 1, numbers);
    start_refused(MT_BAD_SIZES, 0, 0, 0, "a step with null everywhere");
}

static void soiled(uint32_t *work)
{
    size_t i;
    for (i = 0; i < 32; i++)
        store[i] = after[i];
    for (i = 0; i < 5; i++)
        work[i] = 77;
    bindings[0] = 0;
    bindings[7] = 2;
}

static void collection(void)
{
    static const uint32_t zeros[64];
    static const uint32_t dirty[5] = {77, 77, 77, 77, 77};
    uint32_t work[5];
    fresh();
    soiled(work);
    mt_collect(store, 32, bindings, 64, work, 5, 4, 3, numbers);
    hold(numbers[0] == MT_DONE && numbers[1] == 0 && numbers[MT_SUBJECT] == 2 && numbers[MT_MARK] == 3, "collected");
    hold(same(store, collected, 32), "collected: the store");
    hold(bindings[7] == 2 && same(bindings, zeros, 7) && same(bindings + 8, zeros, 56), "collected: the bindings");
    hold(same(work, zeros, 5), "collected: the work list");
    soiled(work);
    bindings[7] = 4;
    mt_collect(store, 32, bindings, 64, work, 4, 4, 0, numbers);
    hold(numbers[0] == MT_DONE && numbers[MT_SUBJECT] == 0 && numbers[MT_MARK] == 3 && bindings[7] == 3,
         "collected from a binding");
    hold(same(store, collected, 32) && same(work, zeros, 4) && work[4] == 77, "collected from a binding: the words");
    soiled(work);
    mt_collect(store, 32, bindings, 64, work, 3, 4, 3, numbers);
    hold(numbers[0] == MT_BAD_SIZES && numbers[MT_SUBJECT] == 3 && numbers[MT_MARK] == 4, "a short work list");
    mt_collect(store, 32, bindings, 63, work, 5, 4, 3, numbers);
    hold(numbers[0] == MT_BAD_SIZES, "collected: bindings of 63 words");
    mt_collect(store, 32, bindings, 64, work, 5, 5, 3, numbers);
    hold(numbers[0] == MT_BAD_SIZES && numbers[MT_MARK] == 5, "collected: a mark above the store's nodes");
    mt_collect(NULL, 0, NULL, 0, NULL, 0, 0, 0, numbers);
    hold(numbers[0] == MT_BAD_SIZES, "collected: null everywhere");
    mt_collect(NULL, 0, bindings, 64, NULL, 0, 0, 0, numbers);
    hold(numbers[0] == MT_BAD_START, "collected: no nodes");
    mt_collect(store, 32, bindings, 64, work, 5, 4, 4, numbers);
    hold(numbers[0] == MT_BAD_START && numbers[MT_SUBJECT] == 4, "collected: a subject at the mark");
    mt_collect(store, 32, bindings, 64, work, 5, 1, 0, numbers);
    hold(numbers[0] == MT_BAD_START, "collected: a binding above the mark");
    store[9] = 7;
    mt_collect(store, 32, bindings, 64, work, 5, 4, 3, numbers);
    hold(numbers[0] == MT_BAD_NODE && numbers[1] == 1, "collected: a bad node");
    store[9] = 0;
    hold(same(store, after, 32) && same(work, dirty, 5) && bindings[7] == 2, "a refused collection wrote something");
}

/* Rules as text. Room for 32 entries, of which entries 0 and 1 are in use: a REC that is the identity. */
static uint32_t rules[256];
static uint64_t read[4];

static void fresh_rules(void)
{
    size_t i;
    for (i = 0; i < 256; i++)
        rules[i] = i < 16 ? 0 : 7777;
    rules[0] = MT_ENTRY(MT_REC, 1);
    rules[2] = 1;
}

static size_t bytes(const char *text)
{
    size_t n = 0;
    while (text[n])
        n++;
    return n;
}

static void translate(uint32_t used, const char *text)
{
    mt_translate_rules(rules, 256, used, (const uint8_t *)text, bytes(text), read);
}

/* A text is refused with these numbers, and the table stays as lent. */
static void bad_rules(const char *text, uint64_t answer, uint64_t line, uint64_t field, const char *what)
{
    size_t i, kept = 1;
    fresh_rules();
    translate(2, text);
    hold(read[MT_ANSWER] == answer && read[MT_LINE] == line && read[MT_FIELD] == field && read[MT_USED] == 2, what);
    for (i = 16; i < 256; i++)
        kept = kept && rules[i] == 7777;
    hold(kept && rules[0] == MT_ENTRY(MT_REC, 1) && rules[2] == 1, what);
}

static void rules_as_text(void)
{
    static const char swap[] = "5\t2\tv0\tv1\t5\t2\tv1\tv0\n";
    static const char where[] = "6\t1\tv40\tv2\t0\tv40\tv2\n";
    uint8_t line[64];
    uint64_t wrote[3];
    size_t i, n = sizeof swap - 1, same_bytes = 1;
    uint32_t e;
    fresh_rules();
    translate(0, swap);
    hold(read[MT_ANSWER] == MT_DONE && read[MT_LINE] == 0 && read[MT_FIELD] == 0 && read[MT_USED] == 10, "a rule is translated");
    hold(rules[0] == MT_ENTRY(MT_SCOPE, 1) && rules[1] == 3 && rules[2] == 0 && rules[3] == 1, "a rule's scope");
    hold(rules[80] == 7777, "the words after the rule");
    for (i = 0; i < 32; i++)
        store[i] = given[i];
    for (i = 0; i < MT_VARIABLES; i++)
        bindings[i] = 0;
    mt_run(rules, 80, store, 32, bindings, 64, 3, 0, 2, 10, numbers);
    hold(is(numbers, MT_DONE, 0, 3, 4, 10) && same(store, after, 32), "the translated rule swaps a pair");
    for (i = 0; i < sizeof line; i++)
        line[i] = 255;
    mt_write_rule(rules, 256, 10, 0, line, n, wrote);
    hold(wrote[MT_ANSWER] == MT_DONE && wrote[MT_PLACE] == 0 && wrote[MT_LENGTH] == n, "a rule is written");
    for (i = 0; i < n; i++)
        same_bytes = same_bytes && line[i] == (uint8_t)swap[i];
    hold(same_bytes && line[n] == 255, "a rule's line");
    for (i = 0; i < sizeof line; i++)
        line[i] = 255;
    mt_write_rule(rules, 256, 10, 0, line, n - 1, wrote);
    hold(wrote[MT_ANSWER] == MT_SHORT_BUFFER && wrote[MT_PLACE] == 0 && wrote[MT_LENGTH] == 0 && line[0] == 255, "a short buffer");
    mt_write_rule(rules, 256, 10, 0, NULL, 9, wrote);
    hold(wrote[MT_ANSWER] == MT_SHORT_BUFFER && wrote[MT_LENGTH] == 0, "a null buffer");
    for (e = 1; e < 12; e++) {
        mt_write_rule(rules, 256, 10, e, line, sizeof line, wrote);
        hold(wrote[MT_ANSWER] == MT_BAD_START && wrote[MT_LENGTH] == 0 && line[0] == 255, "no rule starts there");
    }
    fresh_rules();
    translate(2, where);
    hold(read[MT_ANSWER] == MT_DONE && read[MT_USED] == 18, "a rule with a condition is translated");
    hold(rules[17] == 4 && rules[18] == 256, "the scope has the condition's variable and the upper half of its mask");
    mt_write_rule(rules, 256, 18, 2, line, sizeof line, wrote);
    hold(wrote[MT_ANSWER] == MT_DONE && wrote[MT_LENGTH] == sizeof where - 1 && line[0] == '6', "a rule with a condition is written");
    fresh_rules();
    translate(2, "");
    hold(read[MT_ANSWER] == MT_DONE && read[MT_USED] == 2, "a text without rules");
    mt_translate_rules(rules, 256, 2, NULL, 5, read);
    hold(read[MT_ANSWER] == MT_DONE && read[MT_USED] == 2, "a null text");
    mt_translate_rules(NULL, 256, 0, NULL, 0, read);
    hold(read[MT_ANSWER] == MT_BAD_SIZES && read[MT_LINE] == 0 && read[MT_USED] == 0, "rules into a null table");
    mt_write_rule(NULL, 0, 0, 0, line, sizeof line, wrote);
    hold(wrote[MT_ANSWER] == MT_BAD_SIZES && wrote[MT_LENGTH] == 0, "a rule of a null table");
    translate(33, swap);
    hold(read[MT_ANSWER] == MT_BAD_SIZES && read[MT_USED] == 33, "more in use than lent");
    translate(3, swap);
    hold(read[MT_ANSWER] == MT_BAD_KIND && read[MT_LINE] == 2 && read[MT_FIELD] == 0 && read[MT_USED] == 3, "a bad entry in use");
    mt_write_rule(rules, 256, 3, 0, line, sizeof line, wrote);
    hold(wrote[MT_ANSWER] == MT_BAD_KIND && wrote[MT_PLACE] == 2 && wrote[MT_LENGTH] == 0, "a bad entry in use, written");
    bad_rules("v0\tv0\n\n", MT_BAD_RULE, 2, 1, "a blank line");
    bad_rules("v0\tv0", MT_BAD_RULE, 1, 3, "a line without a line feed");
    bad_rules("5\t2\tv0\tv1\t5\t2\tv1\n", MT_BAD_RULE, 1, 8, "a line that is cut short");
    bad_rules("5\t7\n", MT_BAD_RULE, 1, 2, "seven children");
    bad_rules("v0\tv0\nv0\tv1\n", MT_RULE_UNBOUND, 2, 0, "a variable that is not bound");
    bad_rules("v64\tv64\n", MT_RULE_VARIABLE, 1, 0, "a variable above 63");
    bad_rules("v0\tv1\t1\tv0\tv1\n", MT_RULE_CALL, 1, 0, "a condition's entry that is no REC");
    bad_rules("v0\tv0\nv0\tv0\nv0\tv0\nv0\tv0\nv0\tv0\nv0\tv0\n", MT_NO_ENTRIES, 6, 0, "a table that is full");
}

static void empty_slices(void)
{
    static const uint32_t zeros[8];
    fresh();
    mt_run(NULL, 0, NULL, 0, NULL, 0, 0, 0, 0, 0, numbers);
    refused(MT_BAD_SIZES, 0, 0, 0, "null everywhere");
    mt_run(NULL, 0, NULL, 0, NULL, 0, 1, 2, 3, 4, numbers);
    refused(MT_BAD_SIZES, 0, 3, 1, "null everywhere, and numbers");
    mt_run(NULL, 0, store, 32, bindings, 64, 3, 0, 2, 10, numbers);
    refused(MT_BAD_SIZES, 0, 2, 3, "a null table");
    mt_run(table, 64, NULL, 0, bindings, 64, 3, 0, 2, 10, numbers);
    refused(MT_BAD_SIZES, 0, 2, 3, "a null store and a mark");
    mt_run(table, 64, NULL, 0, bindings, 64, 0, 0, 0, 10, numbers);
    refused(MT_BAD_START, 0, 0, 0, "a null store without nodes");
    mt_run(table, 64, store, 32, NULL, 0, 3, 0, 2, 10, numbers);
    refused(MT_BAD_SIZES, 0, 2, 3, "null bindings");
    mt_run(NULL, 64, NULL, 32, NULL, 64, 0, 0, 0, 10, numbers);
    refused(MT_BAD_SIZES, 0, 0, 0, "null is empty whatever its length");
    mt_check_table(NULL, 0, numbers);
    hold(numbers[0] == MT_BAD_SIZES && numbers[1] == 0, "the check of a null table");
    mt_check_store(NULL, 0, 0, numbers);
    hold(numbers[0] == MT_DONE && numbers[1] == 0, "the check of a null store");
    mt_check_store(NULL, 0, 1, numbers);
    hold(numbers[0] == MT_BAD_SIZES && numbers[1] == 0, "the check of a null store and a mark");
    mt_free_variables(NULL, 0, 0, asked);
    hold(asked[0] == MT_BAD_SIZES && asked[1] == 0 && asked[MT_MASK] == 0, "free variables of a null table");
    fresh();
    mt_run(zeros, 8, store, 32, bindings, 64, 3, 0, 2, 0, numbers);
    hold(is(numbers, MT_OUT_OF_UNITS, 0, 2, 3, 0), "no units");
}

static void indexed_runs(void)
{
    /* A BUILD of the pair 5(1, 2), which stands; a store of three nodes and its index behind it. */
    static const uint32_t build[32] = {241, 0, 1, 0, 0, 0, 0, 0, 306, 5, 2, 3, 0, 0, 0, 0, 304, 1, 0, 0, 0, 0, 0, 0, 304, 2};
    static const uint32_t signed_pair[6] = {7, 0, 0, 7, 7, 2};
    static const uint32_t all[3] = {0, 1, 2};
    uint32_t lent[31], free_bindings[64] = {0}, found[15];
    size_t i;
    for (i = 0; i < 31; i++)
        lent[i] = i < 24 ? after[i] : 9;
    mt_run_indexed(build, 32, lent, 31, 24, free_bindings, 64, 3, 0, 0, 10, numbers);
    hold(is(numbers, MT_DONE, 0, 2, 3, 4), "indexed: the pair is found in a full store");
    for (i = 24; i < 31 && lent[i] == 0; i++)
        continue;
    hold(i == 31 && same(lent, after, 24), "indexed: the index is zero and the store as it was");
    mt_run(build, 32, lent, 24, free_bindings, 64, 3, 0, 0, 10, numbers);
    hold(numbers[MT_ANSWER] == MT_OUT_OF_ROOM, "indexed: without an index there is no room");
    mt_run_indexed_signed(build, 32, lent, 30, 24, free_bindings, 64, 3, 0, 0, 10, signed_pair, 6, numbers);
    hold(is(numbers, MT_DONE, 0, 2, 3, 4), "indexed: with a signature");
    mt_run_many_indexed(build, 32, lent, 30, 24, free_bindings, 64, 3, 0, all, 3, 10, found, 15, numbers);
    hold(numbers[MT_ANSWER] == MT_DONE && is(found + 10, MT_DONE, 0, 2, 3, 4), "indexed: many subjects");
    mt_run_many_indexed_signed(build, 32, lent, 30, 24, free_bindings, 64, 3, 0, all, 3, 10, found, 15, signed_pair, 5, numbers);
    hold(numbers[MT_ANSWER] == MT_DISOBEYING_ENTRY && numbers[MT_PLACE] == 1, "indexed: many subjects and a short signature");
    mt_run_indexed(build, 32, lent, 29, 24, free_bindings, 64, 3, 0, 0, 10, numbers);
    hold(is(numbers, MT_BAD_SIZES, 0, 0, 3, 0), "indexed: an index one word short");
    lent[8] = 1;
    mt_run_indexed(build, 32, lent, 30, 24, free_bindings, 64, 3, 0, 9, 10, numbers);
    hold(is(numbers, MT_TWIN_NODE, 1, 9, 3, 0), "indexed: a twin, before a bad start");
}

/* Counts of the eight entries of the job's table: what was there, and what a run adds. */
static uint64_t counts[MT_COUNTS * 8 + 1];
static uint32_t seven[7];

/* Every count is 100 and its number before a run. */
static void fresh_counts(void)
{
    size_t i;
    fresh();
    for (i = 0; i < MT_COUNTS * 8 + 1; i++)
        counts[i] = 100 + i;
    for (i = 0; i < 7; i++)
        seven[i] = 77;
}

/* Whether a run added these to an entry's four counts. */
static int added(size_t entry, uint64_t visits, uint64_t successes, uint64_t failures, uint64_t in_flight)
{
    const uint64_t *four = counts + MT_COUNTS * entry;
    uint64_t before = 100 + MT_COUNTS * entry;
    return four[MT_VISITS] == before + visits && four[MT_SUCCESSES] == before + 1 + successes &&
           four[MT_FAILURES] == before + 2 + failures && four[MT_IN_FLIGHT] == before + 3 + in_flight;
}

/* Whether the two other numbers are these, and the counts of the patterns and the word behind them are as they were. */
static int patterns_and_pairs(uint32_t patterns, uint32_t pairs)
{
    size_t e;
    for (e = 4; e < 8; e++)
        if (!added(e, 0, 0, 0, 0))
            return 0;
    return seven[MT_PATTERN_VISITS] == patterns && seven[MT_PAIR_VISITS] == pairs && counts[32] == 132;
}

/* A counted run was refused with these numbers, and no count moved. */
static void counts_refused(uint32_t answer, uint32_t place, const char *text)
{
    size_t i;
    hold(is(seven, answer, place, 2, 3, 0) && seven[MT_PATTERN_VISITS] == 0 && seven[MT_PAIR_VISITS] == 0, text);
    for (i = 0; i < MT_COUNTS * 8 + 1 && (counts[i] == 100 + i || counts[i] > MT_MOST_COUNT); i++)
        continue;
    hold(i == MT_COUNTS * 8 + 1 && same(store, given, 32), text);
}

static void counted_runs(void)
{
    static const uint32_t twice[24] = {MT_ENTRY(MT_MATCH, 1), 0, 1, 0, 0, 0, 0, 0, MT_ENTRY(MT_PCON, 2), 5, 2, 2, 0, 0, 0, 0,
                                       MT_ENTRY(MT_PVAR, 0)};
    uint32_t lent[40];
    size_t i;
    fresh_counts();
    mt_run_counted(table, 64, store, 32, bindings, 64, 3, 0, 2, 10, counts, 32, seven);
    hold(is(seven, MT_DONE, 0, 3, 4, 10) && same(store, after, 32), "counted: the run is the run");
    hold(added(0, 1, 1, 0, 0) && added(1, 1, 1, 0, 0) && added(2, 1, 1, 0, 0) && added(3, 1, 1, 0, 0), "counted: done");
    hold(patterns_and_pairs(6, 0), "counted: six patterns of the rule");
    fresh_counts();
    mt_run_counted(table, 64, store, 32, bindings, 64, 3, 0, 2, 9, counts, 32, seven);
    hold(is(seven, MT_OUT_OF_UNITS, 0, 2, 3, 9) && patterns_and_pairs(5, 0), "counted: out of units");
    hold(added(0, 1, 0, 0, 1) && added(1, 1, 0, 0, 1) && added(2, 1, 1, 0, 0) && added(3, 1, 0, 0, 1), "counted: in flight");
    fresh_counts();
    mt_run_counted(table, 64, store, 32, bindings, 64, 3, 0, 0, 10, counts, 32, seven);
    hold(is(seven, MT_FAILED, 4, 0, 3, 4) && patterns_and_pairs(1, 0), "counted: failed");
    hold(added(0, 1, 0, 1, 0) && added(1, 1, 0, 1, 0) && added(2, 1, 0, 1, 0) && added(3, 0, 0, 0, 0), "counted: failures");
    fresh_counts();
    mt_run_counted(twice, 24, store, 32, bindings, 64, 3, 0, 2, 10, counts, 12, seven);
    hold(is(seven, MT_FAILED, 2, 2, 3, 5) && seven[MT_PATTERN_VISITS] == 3 && seven[MT_PAIR_VISITS] == 1, "counted: a pair");
    fresh_counts();
    mt_run_counted_signed(table, 64, store, 32, bindings, 64, 3, 0, 2, 10, counts, 32, signature, 6, seven);
    hold(is(seven, MT_DONE, 0, 3, 4, 10) && added(3, 1, 1, 0, 0), "counted: with a signature");
    fresh_counts();
    for (i = 0; i < 40; i++)
        lent[i] = i < 32 ? given[i] : 9;
    mt_run_indexed_counted(table, 64, lent, 40, 32, bindings, 64, 3, 0, 2, 10, counts, 32, seven);
    hold(is(seven, MT_DONE, 0, 3, 4, 10) && same(lent, after, 32) && patterns_and_pairs(6, 0), "counted: with an index");
    for (i = 32; i < 40 && lent[i] == 0; i++)
        continue;
    hold(i == 40 && added(0, 1, 1, 0, 0), "counted: the index is zero");
    fresh_counts();
    mt_run_indexed_counted_signed(table, 64, lent, 40, 32, bindings, 64, 4, 0, 2, 10, counts, 32, signature, 6, seven);
    hold(is(seven, MT_DONE, 0, 3, 4, 10) && added(3, 1, 1, 0, 0), "counted: with both, the pair stands");
    /* The list has four words for each entry, no more and no fewer. */
    for (i = 0; i < 34; i++) {
        if (i == 32)
            continue;
        fresh_counts();
        mt_run_counted(table, 64, store, 32, bindings, 64, 3, 0, 2, 10, counts, i, seven);
        counts_refused(MT_BAD_SIZES, 0, "counted: a list of another length");
    }
    fresh_counts();
    mt_run_counted(table, 64, store, 32, bindings, 64, 3, 0, 2, 10, NULL, 32, seven);
    counts_refused(MT_BAD_SIZES, 0, "counted: a null list");
    mt_run_indexed_counted(NULL, 64, NULL, 40, 32, NULL, 64, 3, 0, 2, 10, NULL, 32, seven);
    counts_refused(MT_BAD_SIZES, 0, "counted: null everywhere");
    mt_run_counted_signed(table, 64, store, 32, bindings, 64, 3, 0, 2, 10, counts, 32, NULL, 0, seven);
    counts_refused(MT_DISOBEYING_ENTRY, 4, "counted: an empty signature");
    /* A count that is too high, of a pattern's entry too; the lowest entry; after a bad start. */
    counts[30] = MT_MOST_COUNT + 1;
    mt_run_counted(table, 64, store, 32, bindings, 64, 3, 0, 2, 10, counts, 32, seven);
    counts_refused(MT_FULL_COUNT, 7, "counted: a pattern's count is too high");
    counts[9] = UINT64_MAX;
    mt_run_counted(table, 64, store, 32, bindings, 64, 3, 0, 2, 10, counts, 32, seven);
    counts_refused(MT_FULL_COUNT, 2, "counted: the lowest entry");
    mt_run_counted(table, 64, store, 32, bindings, 64, 3, 4, 2, 10, counts, 32, seven);
    counts_refused(MT_BAD_START, 0, "counted: a bad start comes first");
    fresh_counts();
    counts[0] = MT_MOST_COUNT;
    mt_run_counted(table, 64, store, 32, bindings, 64, 3, 0, 2, 0, counts, 32, seven);
    hold(is(seven, MT_OUT_OF_UNITS, 0, 2, 3, 0) && counts[0] == MT_MOST_COUNT, "counted: the highest count is taken");
    mt_run_counted(table, 64, store, 32, bindings, 64, 3, 0, 2, 1, counts, 32, seven);
    hold(is(seven, MT_OUT_OF_UNITS, 0, 2, 3, 1) && counts[0] == MT_MOST_COUNT + 1, "counted: and added to");
}

int main(void)
{
    the_job();
    both_halves();
    refusals();
    signed_runs();
    many_subjects();
    steps();
    indexed_runs();
    counted_runs();
    collection();
    rules_as_text();
    empty_slices();
    if (wrong > 0 || held == 0)
        return 1;
    puts("the C header: all answers are right");
    return 0;
}
