/* Measures the stack that check, infer and run take on programs of up to 2,048 records that are as deep as they can be, each of another shape: deep
 * from the start, or deep in a part that a step copies. Infer gets each without its types, and must write it with them. Prints each, and the largest
 * of each call. */
#define _GNU_SOURCE
#include <stdio.h>
#include <string.h>
#include <ucontext.h>
#include "../include/muntinyarrow.h"

enum { STACK = 8 << 20, RECORDS = 2048, TYPES = 6 };

/* The types of every program, by number. */
enum { NAT = 1, CODE, FN, CODE_FN, FN_CODE, FN_FN };
static const unsigned short entries[TYPES][3] = {{1, 0, 0}, {3, NAT, 0}, {2, NAT, NAT}, {3, FN, 0}, {2, CODE, CODE}, {2, FN, NAT}};

struct node {
    unsigned short kind, type, a, b;
    unsigned value;
    int child[3];
};

static struct node nodes[2 * RECORDS];
static int count;
static unsigned char stack[STACK], program[4 + 6 * TYPES + 16 * RECORDS], untyped[sizeof program];
static size_t length;
static unsigned char output[MUNTINYARROW_OUTPUT], work[MUNTINYARROW_WORK];
static ucontext_t back, there;
static struct muntinyarrow_check_answer checked;
static struct muntinyarrow_infer_answer inferred;
static struct muntinyarrow_run_answer run;

static int node(int kind, int type, int a, unsigned value, int one, int two, int three) {
    nodes[count] = (struct node){kind, type, a, 0, value, {one, two, three}};
    return count++;
}
static int number(unsigned value) { return node(1, NAT, 0, value, -1, -1, -1); }
static int variable(int type, int index) { return node(2, type, index, 0, -1, -1, -1); }
static int function(int body) { return node(3, FN, NAT, 0, body, -1, -1); }
static int application(int type, int one, int two) { return node(4, type, 0, 0, one, two, -1); }
static int fix(int type, int one) { return node(5, type, 0, 0, one, -1, -1); }
static int quote(int type, int one) { return node(7, type, 0, 0, one, -1, -1); }
static int splice(int type, int one) { return node(8, type, 0, 0, one, -1, -1); }
static int match_number(int type, int code, int success, int failure) { return node(9, type, 0, 9, code, success, failure); }
static int match_lift(int type, int code, int success, int failure) { return node(12, type, NAT, 0, code, success, failure); }
static int match_function(int type, int code, int success, int failure) { return node(13, type, FN_CODE, 0, code, success, failure); }

/* fix and function in turn, n of each, over the variable with this index outside of them. */
static int fixes(int n, int index) {
    int t = variable(NAT, index + n);
    while (n-- > 0)
        t = fix(NAT, function(t));
    return t;
}

/* (function: 0) ((function: 0) (..)), over t, which is closed. */
static int rights(int n, int t) {
    while (n-- > 0)
        t = application(NAT, function(variable(NAT, 0)), t);
    return t;
}

/* (function: (function: (..) 1) 1) 1: functions in one another's bodies. */
static int bodies(int n) {
    int t = variable(NAT, 0);
    while (n-- > 0)
        t = application(NAT, function(t), number(1));
    return t;
}

/* A quote over a splice over a quote, and so on, with n records. */
static int turns(int n) {
    int t = number(3);
    for (int i = 1; i < n; i++)
        t = i % 2 ? quote(CODE, t) : splice(NAT, t);
    return t;
}

static int code_matches(int n) {
    int t = quote(CODE, number(9));
    while (n-- > 0)
        t = match_number(CODE, t, quote(CODE, number(9)), quote(CODE, number(1)));
    return t;
}
static int failing_matches(int n) {
    int t = number(1);
    while (n-- > 0)
        t = match_number(NAT, quote(CODE, number(2)), number(1), t);
    return t;
}
static int succeeding_matches(int n) {
    int t = number(1);
    while (n-- > 0)
        t = match_number(NAT, quote(CODE, number(9)), t, number(1));
    return t;
}

/* quote(function: splice((function c: quote(function: splice c)) quote(t))): code with the index of the outer function put under one more. */
static int raised(int t) {
    int inner = node(3, FN_CODE, CODE, 0, quote(CODE, application(NAT, function(splice(NAT, variable(CODE, 1))), number(1))), -1, -1);
    return quote(CODE_FN, function(splice(NAT, application(CODE, inner, quote(CODE, t)))));
}

struct shape {
    const char *name;
    int (*make)(void);
};

static int chain(void) { return turns(RECORDS); }
static int fix_chain(void) { return application(NAT, function(fixes(1022, 0)), number(7)); }
static int fix_plain(void) { return quote(CODE, application(NAT, function(fixes(1020, 0)), number(7))); }
static int fix_first(void) { return fix(NAT, function(fixes(1022, 0))); }
static int right_spine(void) { return rights(682, number(1)); }
static int right_quoted(void) { return quote(CODE, rights(682, number(1))); }
static int right_copied(void) { return application(NAT, function(rights(680, variable(NAT, 0))), number(7)); }
static int body_spine(void) { return bodies(682); }
static int body_quoted(void) { return quote(CODE, bodies(682)); }
static int codes(void) { return code_matches(409); }
static int failures(void) { return failing_matches(511); }
static int successes(void) { return succeeding_matches(511); }
static int lifted(void) { return match_lift(NAT, quote(CODE, number(7)), fixes(1021, 0), number(1)); }
static int opened(void) {
    return match_function(CODE, quote(CODE_FN, function(fixes(1018, 0))), application(CODE, variable(FN_CODE, 0), quote(CODE, number(7))), quote(CODE, number(1)));
}
static int raised_code(void) { return raised(fixes(1016, 0)); }
static int turns_copied(void) { return application(CODE, node(3, FN_CODE, CODE, 0, turns(2042), -1, -1), quote(CODE, number(1))); }

static const struct shape shapes[] = {
    {"quote and splice in turn", chain},
    {"a function of fixes, applied", fix_chain},
    {"the same, quoted", fix_plain},
    {"fixes and functions in turn", fix_first},
    {"applications to the right", right_spine},
    {"the same, quoted", right_quoted},
    {"the same, copied", right_copied},
    {"functions in bodies", body_spine},
    {"the same, quoted", body_quoted},
    {"matches in code", codes},
    {"matches in failures", failures},
    {"matches in successes", successes},
    {"a success of fixes", lifted},
    {"a function of fixes, opened", opened},
    {"code of fixes, raised", raised_code},
    {"quote and splice in turn, copied", turns_copied},
};

static void put16(unsigned char *at, unsigned v) {
    at[0] = v & 255;
    at[1] = v >> 8;
}

/* Writes the tree of node t as records from number n on; returns the number after it. */
static int write_tree(int t, int n) {
    unsigned char *r = program + 4 + 6 * TYPES + 16 * (n - 1);
    const struct node *x = nodes + t;
    put16(r, x->kind);
    put16(r + 2, x->type);
    put16(r + 4, x->a);
    put16(r + 6, x->b);
    put16(r + 8, x->child[0] < 0 ? 0 : n + 1);
    put16(r + 10, 0);
    put16(r + 12, x->value & 0xffff);
    put16(r + 14, x->value >> 16);
    int next = n + 1;
    for (int i = 0; i < 3 && x->child[i] >= 0; i++) {
        int first = next;
        next = write_tree(x->child[i], first);
        if (i < 2 && x->child[i + 1] >= 0)
            put16(program + 4 + 6 * TYPES + 16 * (first - 1) + 10, next);
    }
    return next;
}

static void make_program(const struct shape *shape) {
    count = 0;
    int root = shape->make();
    memset(program, 0, sizeof program);
    put16(program, TYPES);
    put16(program + 2, count);
    for (int i = 0; i < TYPES; i++)
        for (int j = 0; j < 3; j++)
            put16(program + 4 + 6 * i + 2 * j, entries[i][j]);
    write_tree(root, 1);
    length = 4 + 6 * TYPES + 16 * (size_t)count;
    memcpy(untyped, program, length);
    for (size_t at = 4 + 6 * TYPES; at < length; at += 16)
        put16(untyped + at + 2, 0);
}

static void call_check(void) { checked = muntinyarrow_check(program, length); }

static void call_infer(void) { inferred = muntinyarrow_infer(untyped, length, output, sizeof output, work, sizeof work); }

static int typed(void) { return inferred.number == 0 && inferred.written == length && !memcmp(output, program, length); }

static void call_run(void) { run = muntinyarrow_run(program, length, 3000, output, sizeof output, work, sizeof work); }

/* The bytes of a fresh stack that the call touches. */
static size_t stack_of(void (*call)(void)) {
    memset(stack, 0xa5, STACK);
    getcontext(&there);
    there.uc_stack.ss_sp = stack;
    there.uc_stack.ss_size = STACK;
    there.uc_link = &back;
    makecontext(&there, call, 0);
    swapcontext(&back, &there);
    size_t untouched = 0;
    while (untouched < STACK && stack[untouched] == 0xa5)
        untouched++;
    return (size_t)STACK - untouched;
}

static size_t most(size_t one, size_t other) { return one > other ? one : other; }

int main(void) {
    size_t check_most = 0, infer_most = 0, run_most = 0;
    int wrong = 0;
    for (size_t i = 0; i < sizeof shapes / sizeof *shapes; i++) {
        make_program(shapes + i);
        size_t in_check = stack_of(call_check), in_infer = stack_of(call_infer);
        wrong |= checked.number != 0 || !typed() || count > RECORDS;
        size_t in_run = stack_of(call_run);
        wrong |= run.number != 0;
        printf("%s, %d records: numbers %u %u %u, ", shapes[i].name, count, checked.number, inferred.number, run.number);
        printf("ending %u, steps %u; ", run.ending, run.steps);
        printf("%zu bytes of stack in check, %zu in infer, %zu in run\n", in_check, in_infer, in_run);
        check_most = most(check_most, in_check);
        infer_most = most(infer_most, in_infer);
        run_most = most(run_most, in_run);
    }
    printf("the largest: %zu bytes of stack in check, %zu in infer, %zu in run\n", check_most, infer_most, run_most);
    return wrong;
}
