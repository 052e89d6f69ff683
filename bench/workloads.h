/* What is measured: four sheets whose runs spend as much fuel as is wanted, the load of the largest sheet, and the three
 * calls that an order desk makes for an order, on two sheets.
 *
 * Each call is compared before it is measured: the answer word and what is written by archive and C, and the units that a
 * run must spend. */
#ifndef WORKLOADS_H
#define WORKLOADS_H

#include "calls.h"
#include "sheets.h"

/* The two monitors. */
extern const struct monitor archive, by_hand;

struct workload {
    const char *name;
    void (*draft)(struct draft *, int32_t rounds);
    uint32_t units_a_round;
    enum beltuqash_mode mode;
};

enum { WORKLOADS = 4 };

extern const struct workload workloads[WORKLOADS];

/* The name of the load's figure. */
extern const char load_name[];

/* A sheet of the order desk: the names of its calls' figures, the units of its run, and who then asks. */
struct desk_sheet {
    const char *names[CALLS];
    void (*draft)(struct draft *);
    uint32_t units, reader;
};

enum { DESK_SHEETS = 2 };

extern const struct desk_sheet desk_sheets[DESK_SHEETS];

/* A run, and the units that it spends. */
struct job {
    struct bytes sheet, store;
    uint32_t mode, fuel, units;
};

/* An order: its run, and the request to its final store. */
struct order {
    struct job job;
    struct bytes final_store, request;
    uint32_t reader;
};

/* The workload's run that finishes with nearly all of this fuel spent. */
void prepare_run(struct job *job, const struct workload *workload, uint32_t fuel);

/* The largest sheet, which both take. */
void prepare_load(struct bytes *sheet);

/* The sheet's order, with a request for each of its fields. */
void prepare_order(struct order *order, const struct desk_sheet *sheet);

/* Makes the run by one of the two monitors. */
uint64_t run(run_call call, const struct job *job);

/* Makes one of the order's calls. */
uint64_t desk_call(const struct monitor *monitor, enum which which, const struct order *order);

#endif
