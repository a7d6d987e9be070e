/* The calls of one library by its own header: LIBRARY is `before` or `after`, and HAS_NAME is defined for each call that the header declares. */
#include "calls.h"
#include "muntinyarrow.h"

#define JOINED(a, b) a##_##b
#define NAMED(a, b) JOINED(a, b)

int NAMED(LIBRARY, call)(const struct call *c) {
    switch (c->number) {
#ifdef HAS_check
    case 0: return muntinyarrow_check(c->program, c->length).number;
#endif
#ifdef HAS_infer
    case 1: return muntinyarrow_infer(c->program, c->length, c->output, c->output_length, c->work, c->work_length).number;
#endif
#ifdef HAS_run
    case 2: return muntinyarrow_run(c->program, c->length, c->fuel, c->output, c->output_length, c->work, c->work_length).number;
#endif
    default: return -1;
    }
}
