/* Muntinyarrow: a proved engine for the two-level generator language. Link with libengine.a.
 * The calls keep no state: any number of them may go on at once, each with its own buffers. The program and the buffers of one call must not
 * overlap. Where a length is 0 its pointer is not read, and may be anything. */
#ifndef MUNTINYARROW_H
#define MUNTINYARROW_H

#include <stddef.h>
#include <stdint.h>

#ifdef __cplusplus
extern "C" {
#endif

/* The buffers that infer and run are lent have at least these lengths. */
#define MUNTINYARROW_OUTPUT 34308
#define MUNTINYARROW_WORK 65536

/* What check says of a program. Passed: number and place are 0, root_type is the root's type entry and records the number of records.
 * Refused: number is 3 to 12, place the entry or record that is named (0 for 3 to 5), and the other fields are 0. */
struct muntinyarrow_check_answer {
    uint32_t number;
    uint32_t place;
    uint32_t root_type;
    uint32_t records;
};

/* What infer answers. Accepted: number and place are 0, root_type is the root's type entry in the written table and written the length of the program
 * in the output. Refused: number is 1 to 14, place as for check (0 for 1 and 2; for 13 and 14 the record of the program that was given), and the
 * other fields are 0. */
struct muntinyarrow_infer_answer {
    uint32_t number;
    uint32_t place;
    uint32_t root_type;
    uint32_t written;
};

/* What a run answers. Accepted: number and place are 0; ending is 1 for a value, 2 for spent fuel, 3 for a full table; steps is how many were
 * made, root_type the root's type entry, written the length of the program in the output, and replaced how many variable records gave way to what
 * replaced them, in all the steps; it can pass 32 bits. Refused: number is 1 to 12, place as for check (0 for 1 and 2), and the other fields are 0. */
struct muntinyarrow_run_answer {
    uint32_t number;
    uint32_t place;
    uint32_t ending;
    uint32_t steps;
    uint32_t root_type;
    uint32_t written;
    uint64_t replaced;
};

/* Checks a program of any bytes. */
struct muntinyarrow_check_answer muntinyarrow_check(const uint8_t *program, size_t length);

/* Types a program of any bytes: its type fields are all 0, its binders' types are given. The output gets the same type table, the missing types
 * after it, and the typed records in preorder; its bytes beyond the written length stay. After an accepted call the first 65,536 bytes of the work
 * buffer hold what they may, and the others stay. A refused call changes no byte of either. */
struct muntinyarrow_infer_answer muntinyarrow_infer(const uint8_t *program, size_t length, uint8_t *output, size_t output_length, uint8_t *work,
                                                    size_t work_length);

/* Runs a program of any bytes with the fuel. The output gets the same type table and the last term; its bytes beyond the written length stay. After
 * an accepted run the first 65,536 bytes of the work buffer hold what they may, and the others stay. A refused run changes no byte of either. */
struct muntinyarrow_run_answer muntinyarrow_run(const uint8_t *program, size_t length, uint32_t fuel, uint8_t *output, size_t output_length,
                                                uint8_t *work, size_t work_length);

#ifdef __cplusplus
}
#endif

#endif
