/* The calls of the archive or of the monitor by hand, as values. */
#ifndef CALLS_H
#define CALLS_H

#include <stddef.h>
#include <stdint.h>

typedef uint64_t (*load_call)(const uint8_t *, size_t);
typedef uint64_t (*run_call)(const uint8_t *, size_t, const uint8_t *, size_t, uint32_t, uint32_t, uint8_t *, size_t);
typedef uint64_t (*hand_out_call)(const uint8_t *, size_t, const uint8_t *, size_t, uint32_t, const uint8_t *, size_t, uint8_t *, size_t);

enum which { LOAD, RUN, HAND_OUT, CALLS };

struct monitor {
    load_call load;
    run_call run;
    hand_out_call hand_out;
};

#endif
