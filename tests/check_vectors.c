/* Compares check's answer with the first line of a right listing, for each NAME.bin given (beside it NAME.txt).
 * NAME.bin is 4 bytes of fuel and a program. A listing begins with `refused`, number and place, or with an ending, steps, root type and records. */
#include <stdio.h>
#include <stdlib.h>
#include <string.h>
#include "../include/muntinyarrow.h"

enum { MOST = 1 << 20 };

static size_t read_file(const char *name, unsigned char *to) {
    FILE *f = fopen(name, "rb");
    if (!f) { perror(name); exit(2); }
    size_t n = fread(to, 1, MOST, f);
    fclose(f);
    return n;
}

/* The first line of NAME.txt for NAME.bin. */
static void first_line(const char *bin, char *line, int most) {
    char name[4096];
    size_t n = strlen(bin);
    if (n < 4 || n >= sizeof name) { fprintf(stderr, "%s: not a .bin\n", bin); exit(2); }
    memcpy(name, bin, n - 3);
    strcpy(name + n - 3, "txt");
    FILE *f = fopen(name, "r");
    if (!f || !fgets(line, most, f)) { perror(name); exit(2); }
    fclose(f);
}

static int agrees(const char *line, struct muntinyarrow_check_answer a, const unsigned char *program, size_t n) {
    unsigned number, place, steps, type, records;
    char word[32];
    if (sscanf(line, "refused %u %u", &number, &place) == 2)
        return a.number == number && a.place == place && a.root_type == 0 && a.records == 0;
    if (sscanf(line, "%31s %u %u %u", word, &steps, &type, &records) != 4 || n < 4)
        return 0;
    return a.number == 0 && a.place == 0 && a.root_type == type && a.records == program[2] + 256u * program[3];
}

int main(int argc, char **argv) {
    static unsigned char bytes[MOST];
    char line[256];
    int failed = 0;
    for (int i = 1; i < argc; i++) {
        size_t n = read_file(argv[i], bytes);
        size_t cut = n < 4 ? n : 4;
        struct muntinyarrow_check_answer a = muntinyarrow_check(bytes + cut, n - cut);
        first_line(argv[i], line, sizeof line);
        if (!agrees(line, a, bytes + cut, n - cut)) {
            printf("%s: check says %u %u %u %u, the listing %s", argv[i], a.number, a.place, a.root_type, a.records, line);
            failed++;
        }
    }
    printf("%d passed, %d failed\n", argc - 1 - failed, failed);
    return failed != 0;
}
