/* Makes the call that NAME.args names for each NAME.bin given, and compares what it answers and writes with NAME.txt, byte by byte. NAME.args is
 * `infer`, `check` or `run`, with `--output N` and `--work N` where a buffer has another length than the call asks for. NAME.bin is a program, for
 * run after 4 bytes of fuel. The buffers are filled with a pattern first: what must not change is looked at too. Files of other calls are skipped. */
#include <stdio.h>
#include <stdlib.h>
#include <string.h>
#include "../include/muntinyarrow.h"

enum { MOST = 1 << 20, PATTERN = 0xa5 };

static unsigned char bytes[MOST], output[MOST], work[MOST];
static char told[MOST], right[MOST];

struct call {
    char name[16];
    size_t output_length, work_length;
};

static FILE *open_beside(const char *bin, const char *ending) {
    char name[4096];
    snprintf(name, sizeof name, "%.*s%s", (int)strlen(bin) - 3, bin, ending);
    FILE *f = fopen(name, "rb");
    if (!f) { perror(name); exit(2); }
    return f;
}

static size_t read_beside(const char *bin, const char *ending, void *to) {
    FILE *f = open_beside(bin, ending);
    size_t n = fread(to, 1, MOST, f);
    fclose(f);
    return n;
}

static struct call read_call(const char *bin) {
    struct call call = {"", MUNTINYARROW_OUTPUT, MUNTINYARROW_WORK};
    char option[16];
    size_t n;
    FILE *f = open_beside(bin, "args");
    int named = fscanf(f, "%15s", call.name);
    while (fscanf(f, " --%15s %zu", option, &n) == 2)
        *(strcmp(option, "output") ? &call.work_length : &call.output_length) = n;
    fclose(f);
    if (named != 1 || call.output_length > MOST || call.work_length > MOST) { fprintf(stderr, "%s: no call, or too long a buffer\n", bin); exit(2); }
    return call;
}

static unsigned get16(const unsigned char *at) { return at[0] + 256u * at[1]; }
static unsigned get32(const unsigned char *at) { return get16(at) + 65536u * get16(at + 2); }

/* Adds the lines of the program in the output to the n bytes that are told. */
static size_t tell_program(size_t n) {
    unsigned types = get16(output), records = get16(output + 2);
    const unsigned char *at = output + 4;
    for (unsigned i = 1; i <= types; i++, at += 6)
        n += sprintf(told + n, "type %u %u %u %u\n", i, get16(at), get16(at + 2), get16(at + 4));
    for (unsigned i = 1; i <= records; i++, at += 16) {
        n += sprintf(told + n, "%u %u %u %u %u ", i, get16(at), get16(at + 2), get16(at + 4), get16(at + 6));
        n += sprintf(told + n, "%u %u %u\n", get16(at + 8), get16(at + 10), get32(at + 12));
    }
    return n;
}

/* Whether the bytes are still the pattern, but for so many of each buffer. */
static int kept(size_t output_used, size_t work_used) {
    for (size_t i = output_used; i < MOST; i++)
        if (output[i] != PATTERN) return 0;
    for (size_t i = work_used; i < MOST; i++)
        if (work[i] != PATTERN) return 0;
    return 1;
}

static int call_infer(struct call call, size_t n, size_t *length) {
    struct muntinyarrow_infer_answer a = muntinyarrow_infer(bytes, n, output, call.output_length, work, call.work_length);
    *length = sprintf(told, "number=%u place=%u root=%u length=%u\n", a.number, a.place, a.root_type, a.written);
    if (a.number) return kept(0, 0);
    *length = tell_program(*length);
    return kept(a.written, MUNTINYARROW_WORK);
}

static int call_check(size_t n, size_t *length) {
    struct muntinyarrow_check_answer a = muntinyarrow_check(bytes, n);
    *length = sprintf(told, "number=%u place=%u root=%u records=%u\n", a.number, a.place, a.root_type, a.records);
    return 1;
}

static int call_run(struct call call, size_t n, size_t *length) {
    size_t cut = n < 4 ? n : 4;
    uint32_t fuel = n < 4 ? 0 : get32(bytes);
    struct muntinyarrow_run_answer a = muntinyarrow_run(bytes + cut, n - cut, fuel, output, call.output_length, work, call.work_length);
    *length = sprintf(told, "number=%u place=%u ending=%u ", a.number, a.place, a.ending);
    *length += sprintf(told + *length, "steps=%u root=%u length=%u replaced=%llu\n", a.steps, a.root_type, a.written, (unsigned long long)a.replaced);
    if (a.number) return kept(0, 0);
    *length = tell_program(*length);
    return kept(a.written, MUNTINYARROW_WORK);
}

/* 1 where the file's call answers and writes what it should, 0 where not, -1 where the call is another one. */
static int agrees(const char *bin) {
    struct call call = read_call(bin);
    size_t n = read_beside(bin, "bin", bytes), length, expected = read_beside(bin, "txt", right);
    memset(output, PATTERN, MOST);
    memset(work, PATTERN, MOST);
    int stays;
    if (!strcmp(call.name, "infer")) stays = call_infer(call, n, &length);
    else if (!strcmp(call.name, "check")) stays = call_check(n, &length);
    else if (!strcmp(call.name, "run")) stays = call_run(call, n, &length);
    else return -1;
    return stays && length == expected && !memcmp(told, right, length);
}

int main(int argc, char **argv) {
    int failed = 0, skipped = 0;
    for (int i = 1; i < argc; i++) {
        int good = agrees(argv[i]);
        skipped += good < 0;
        failed += good == 0;
        if (!good) printf("%s: the answer or the written program differs, or a byte that stays\n", argv[i]);
    }
    printf("%d passed, %d failed, %d skipped\n", argc - 1 - failed - skipped, failed, skipped);
    return failed != 0;
}
