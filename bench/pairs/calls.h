/* A library's calls behind one function, so that two libraries with other answers can be called from one program. */
#include <stddef.h>
#include <stdint.h>

/* A call, by its number: 0 check, 1 infer, 2 run. */
struct call {
    uint32_t number, fuel;
    const uint8_t *program;
    size_t length;
    uint8_t *output;
    size_t output_length;
    uint8_t *work;
    size_t work_length;
};

/* The number of the refusal, or 0; and -1 where the library has no such call. */
int before_call(const struct call *call);
int after_call(const struct call *call);
