/* Runs each NAME.bin given (4 bytes of fuel, then a program), and compares the listing of the answer with NAME.txt, byte by byte. The buffers are
 * longer than needed and filled with a pattern first: what must not change is looked at too. */
#include <stdio.h>
#include <stdlib.h>
#include <string.h>
#include "../include/muntinyarrow.h"

enum { MOST = 1 << 20, SPARE = 64, OUT = MUNTINYARROW_OUTPUT + SPARE, WORK = MUNTINYARROW_WORK + SPARE };

static unsigned char bytes[MOST], output[OUT], work[WORK];
static char listing[MOST], right[MOST];

static size_t read_file(const char *name, void *to) {
    FILE *f = fopen(name, "rb");
    if (!f) { perror(name); exit(2); }
    size_t n = fread(to, 1, MOST, f);
    fclose(f);
    return n;
}

static unsigned get16(const unsigned char *at) { return at[0] + 256u * at[1]; }

/* The listing of an accepted answer, from the written bytes. */
static size_t list(struct muntinyarrow_run_answer a) {
    static const char *const word[] = { "", "value", "spent", "full" };
    if (a.number)
        return sprintf(listing, "refused %u %u\n", a.number, a.place);
    unsigned types = get16(output), records = get16(output + 2);
    size_t n = sprintf(listing, "%s %u %u %u\n", word[a.ending & 3], a.steps, a.root_type, records);
    for (unsigned i = 0; i < records; i++) {
        const unsigned char *r = output + 4 + 6 * types + 16 * i;
        unsigned value = get16(r + 12) + 65536u * get16(r + 14);
        n += sprintf(listing + n, "%u %u %u %u %u %u %u %u\n", i + 1, get16(r), get16(r + 2), get16(r + 4), get16(r + 6), get16(r + 8), get16(r + 10), value);
    }
    return n;
}

/* Whether the bytes that stay are still the pattern. */
static int kept(struct muntinyarrow_run_answer a) {
    size_t from = a.number ? 0 : a.written, work_from = a.number ? 0 : MUNTINYARROW_WORK;
    for (size_t i = from; i < OUT; i++)
        if (output[i] != 0xa5) return 0;
    for (size_t i = work_from; i < WORK; i++)
        if (work[i] != 0xa5) return 0;
    return 1;
}

int main(int argc, char **argv) {
    int failed = 0;
    for (int i = 1; i < argc; i++) {
        size_t n = read_file(argv[i], bytes), cut = n < 4 ? n : 4;
        uint32_t fuel = n < 4 ? 0 : get16(bytes) + 65536u * get16(bytes + 2);
        memset(output, 0xa5, OUT);
        memset(work, 0xa5, WORK);
        struct muntinyarrow_run_answer a = muntinyarrow_run(bytes + cut, n - cut, fuel, output, OUT, work, WORK);
        size_t length = list(a);
        char name[4096];
        snprintf(name, sizeof name, "%.*stxt", (int)strlen(argv[i]) - 3, argv[i]);
        size_t expected = read_file(name, right);
        if (length != expected || memcmp(listing, right, length) || !kept(a)) {
            printf("%s: the listing differs, or a byte that stays\n", argv[i]);
            failed++;
        }
    }
    printf("%d passed, %d failed\n", argc - 1 - failed, failed);
    return failed != 0;
}
