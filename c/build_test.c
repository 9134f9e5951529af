/*
 * Makes tables and terms by marshtrundle_build.h, runs them, and shows what comes back. Prints what is wrong, or one line that nothing is. Of
 * the C library it takes puts alone, and declares it, so that it compiles where the C library's headers are not at hand. VERSION is the Rust
 * crate's version as a number.
 */
#include "marshtrundle_build.h"

int puts(const char *text);

static int wrong = 0;
static int held = 0;

static void hold(int what, const char *text)
{
    if (what) {
        held++;
    } else {
        wrong++;
        puts(text);
    }
}

static int is_text(const char *one, const char *other)
{
    while (*one != 0 && *one == *other) {
        one++;
        other++;
    }
    return *one == *other;
}

enum { PAIR = 5, NOT = 2, A = 100, B = 101 };

static const char *name(uint32_t constructor)
{
    return constructor == PAIR ? "PAIR" : constructor == NOT ? "NOT" : constructor == A ? "a" : NULL;
}

#define NODES 64
static uint32_t words[8 * 64];
static uint32_t store[8 * NODES];
static uint32_t bindings[MT_VARIABLES];
static uint32_t numbers[5];
static uint32_t mark;
static char text[200];

static uint32_t node(uint32_t constructor, uint32_t count, uint32_t one, uint32_t two)
{
    uint32_t children[2];
    children[0] = one;
    children[1] = two;
    return mt_node(store, 8 * NODES, &mark, constructor, count, children);
}

/* PAIR(NOT(NOT(a)), 101) */
static uint32_t term(void)
{
    uint32_t a, b, inner;
    mark = 0;
    a = node(A, 0, 0, 0);
    b = node(B, 0, 0, 0);
    inner = node(NOT, 1, node(NOT, 1, a, 0), 0);
    return node(PAIR, 2, inner, b);
}

/* Runs a finished table on that term, and writes the new term to `text`. */
static uint32_t run(size_t table_words, uint32_t start)
{
    uint32_t subject = term();
    mt_run(words, table_words, store, 8 * NODES, bindings, MT_VARIABLES, mark, start, subject, 10000, numbers);
    mt_term_text(store, 8 * NODES, numbers[MT_SUBJECT], name, 100, text, sizeof text);
    return numbers[MT_ANSWER];
}

static mt_item double_not(mt_builder *b)
{
    mt_item x = mt_var(b, 3);
    return mt_rule(b, mt_con1(b, NOT, mt_con1(b, NOT, x)), x);
}

static void tables(void)
{
    mt_builder b = mt_begin(words, 8 * 64);
    mt_item x = mt_var(&b, 0), y = mt_var(&b, 1);
    mt_item swap = mt_rule(&b, mt_con2(&b, PAIR, x, y), mt_con2(&b, PAIR, y, x));
    mt_item pass = mt_bottom_up(&b, mt_attempt(&b, mt_left(&b, swap, double_not(&b))));
    size_t length = mt_finish(&b);
    static uint64_t counts[MT_COUNTS * 64];
    const uint64_t *tried;
    uint32_t subject, seven[7];
    hold(length == 8 * (size_t)b.entries && b.fault == MT_BUILT, "finished");
    mt_check_table(words, length, numbers);
    hold(numbers[MT_ANSWER] == MT_DONE, "the table check");
    hold(run(length, mt_start(&b, pass)) == MT_DONE && is_text(text, "PAIR(101, a)"), "bottom up");
    hold(run(length, mt_start(&b, swap)) == MT_DONE && is_text(text, "PAIR(101, NOT(NOT(a)))"), "a start inside the table");
    hold(mt_id(&b) == MT_NO_ITEM && b.fault == MT_BUILD_FULL, "nothing is made after the end");
    /* The pass tries the swap on each of five nodes, and it succeeds on the pair. */
    subject = term();
    mt_run_counted(words, length, store, 8 * NODES, bindings, MT_VARIABLES, mark, mt_start(&b, pass), subject, 10000, counts, length / 2, seven);
    tried = mt_counts(&b, swap, counts);
    hold(seven[MT_ANSWER] == MT_DONE && tried[MT_VISITS] == 5 && tried[MT_SUCCESSES] == 1 && tried[MT_FAILURES] == 4 && tried[MT_IN_FLIGHT] == 0,
         "the counts of a rule");
}

/* One traversal over the rule that takes double negations away: its answer and its term. */
static void traversal(mt_item (*make)(mt_builder *, mt_item), uint32_t answer, const char *after, const char *what)
{
    mt_builder b = mt_begin(words, 8 * 64);
    mt_item pass = make(&b, double_not(&b));
    size_t length = mt_finish(&b);
    hold(run(length, mt_start(&b, pass)) == answer && is_text(text, after), what);
}

static mt_item attempted_top_down(mt_builder *b, mt_item s) { return mt_top_down(b, mt_attempt(b, s)); }
static mt_item first_child(mt_builder *b, mt_item s) { return mt_path(b, 1, mt_test(b, s)); }
static mt_item by_children(mt_builder *b, mt_item s)
{
    mt_item both[2];
    both[0] = s;
    both[1] = mt_choice(b, mt_fail(b), mt_where(b, mt_build(b, mt_con0(b, B))));
    return mt_cong(b, PAIR, 2, both);
}
static mt_item negated(mt_builder *b, mt_item s) { return mt_not(b, mt_some(b, s)); }

static void traversals(void)
{
    traversal(mt_bottom_up, MT_FAILED, "PAIR(NOT(NOT(a)), 101)", "bottom_up of a bare rule fails");
    traversal(attempted_top_down, MT_DONE, "PAIR(a, 101)", "top_down");
    traversal(mt_once_td, MT_DONE, "PAIR(a, 101)", "once_td");
    traversal(mt_innermost, MT_DONE, "PAIR(a, 101)", "innermost");
    traversal(mt_repeat, MT_DONE, "PAIR(NOT(NOT(a)), 101)", "repeat at the top");
    traversal(first_child, MT_DONE, "PAIR(NOT(NOT(a)), 101)", "test restores");
    traversal(by_children, MT_DONE, "PAIR(a, 101)", "a congruence");
    traversal(negated, MT_FAILED, "PAIR(NOT(NOT(a)), 101)", "a negation");
}

static void faults(void)
{
    mt_item seven[7] = {0, 0, 0, 0, 0, 0, 0};
    mt_builder b = mt_begin(words, 8 * 64);
    mt_rule(&b, mt_var(&b, 0), mt_var(&b, 1));
    hold(b.fault == MT_BUILD_UNBOUND && mt_finish(&b) == 0, "a rule with an unbound variable");
    b = mt_begin(words, 8 * 64);
    mt_all(&b, 7);
    hold(b.fault == MT_BUILD_ITEM, "an operand that is no item");
    b = mt_begin(words, 8 * 64);
    mt_id(&b);
    mt_cong(&b, 1, 7, seven);
    hold(b.fault == MT_BUILD_OPERANDS, "seven operands");
    b = mt_begin(words, 16);
    hold(mt_all(&b, mt_id(&b)) == 1 && mt_id(&b) == MT_NO_ITEM && b.fault == MT_BUILD_FULL, "a full table");
    b = mt_begin(words, 8 * 64);
    mt_call(&b, mt_begin_rec(&b));
    hold(mt_finish(&b) == 0 && b.fault == MT_BUILD_CALL, "a recursion that was not ended");
    b = mt_begin(words, 8 * 64);
    hold(mt_var(&b, 64) == MT_NO_ITEM && b.fault == MT_BUILD_ARGUMENT, "variable 64");
    b = mt_begin(words, 8 * 64);
    hold(mt_path(&b, 0, mt_id(&b)) == MT_NO_ITEM && b.fault == MT_BUILD_ARGUMENT, "position 0");
    b = mt_begin(NULL, 80);
    hold(mt_id(&b) == MT_NO_ITEM && b.fault == MT_BUILD_FULL, "no words");
    b = mt_begin(words, 80);
    hold(mt_finish(&b) == 0 && b.fault == MT_BUILT, "no entries");
}

static void terms(void)
{
    uint32_t subject = term(), seven[7] = {0, 0, 0, 0, 0, 0, 0}, k, tower;
    hold(mark == 5 && subject == 4, "nodes");
    hold(mt_node(store, 8 * NODES, &mark, 1, 1, &subject) == 5, "a node over a node");
    hold(mt_node(store, 8 * NODES, &mark, 1, 1, &mark) == MT_NO_NODE, "a child at the mark");
    hold(mt_node(store, 8 * NODES, &mark, 1, 7, seven) == MT_NO_NODE, "seven children");
    hold(mt_node(store, 8 * NODES, &mark, 65536, 0, NULL) == MT_NO_NODE, "a constructor above 65,535");
    hold(mt_node(store, 48, &mark, 1, 0, NULL) == MT_NO_NODE && mark == 6, "a full store");
    mt_check_store(store, 8 * NODES, mark, numbers);
    hold(numbers[MT_ANSWER] == MT_DONE, "the store check");
    hold(mt_term_text(store, 8 * NODES, 4, NULL, 9, text, sizeof text) == 17 && is_text(text, "5(2(2(100)), 101)"), "by numbers");
    mt_term_text(store, 8 * NODES, 4, name, 2, text, sizeof text);
    hold(is_text(text, "PAIR(NOT(..), 101)"), "to a depth");
    hold(mt_term_text(store, 8 * NODES, 4, name, 9, text, 8) == 7 && is_text(text, "PAIR(NO"), "to a size");
    hold(mt_term_text(store, 8 * NODES, 4, name, 9, text, 0) == 0, "no size");
    hold(mt_term_text(NULL, 0, 4, name, 9, text, 8) == 0 && text[0] == 0, "no store");
    mark = 0;
    tower = node(A, 0, 0, 0);
    for (k = 0; k < 60; k++)
        tower = node(PAIR, 2, tower, tower);
    hold(mt_term_text(store, 8 * NODES, tower, name, 1000, text, sizeof text) == sizeof text - 1, "a tower of 60 levels ends");
}

static void answers(void)
{
    uint32_t k, known = 0;
    for (k = 0; k < 100; k++)
        known += !is_text(mt_answer_text(k), mt_answer_text(3));
    hold(known >= 13, "every answer has words");
    hold(is_text(mt_answer_text(MT_TOO_DEEP), "a visit is nested too deep"), "the words of an answer");
    hold(is_text(mt_answer_text(MT_FULL_COUNT), "a count is too high to be added to"), "the words of answer 24");
    hold(mt_version() == VERSION, "the version is the Rust crate's");
}

int main(void)
{
    tables();
    traversals();
    faults();
    terms();
    answers();
    if (wrong > 0 || held == 0)
        return 1;
    puts("the C builder: all is right");
    return 0;
}
