/* Times the archive's calls against the same monitor by hand in C: both in one program, on the same sheets, in turn. */
#define _POSIX_C_SOURCE 200809L
#include "workloads.h"

#include <stdio.h>
#include <stdlib.h>
#include <time.h>

/* A time is the best of the repetitions, and each repetition times so many calls: tens of milliseconds. */
enum { REPETITIONS = 21, RUNS = 3, LOADS = 2000, DESK_CALLS = 20000 };

/* Times, in seconds a call. */

struct times {
    double archive, c;
};

static double now(void)
{
    struct timespec spent;
    clock_gettime(CLOCK_PROCESS_CPUTIME_ID, &spent);
    return (double)spent.tv_sec + 1e-9 * (double)spent.tv_nsec;
}

static double time_run(run_call call, const struct job *job)
{
    double start = now();
    for (int i = 0; i < RUNS; i++)
        run(call, job);
    return (now() - start) / RUNS;
}

static double time_load(load_call call, const struct bytes *sheet)
{
    double start = now();
    for (int i = 0; i < LOADS; i++)
        call(sheet->at, sheet->length);
    return (now() - start) / LOADS;
}

static double time_desk_call(const struct monitor *monitor, enum which which, const struct order *order)
{
    double start = now();
    for (int i = 0; i < DESK_CALLS; i++)
        desk_call(monitor, which, order);
    return (now() - start) / DESK_CALLS;
}

/* Keeps the best; the first repetition has nothing to beat. */
static void keep(double *best, double seconds)
{
    if (*best == 0 || seconds < *best)
        *best = seconds;
}

static void repeat_run(const struct job *job, struct times *best)
{
    keep(&best->archive, time_run(beltuqash_run, job));
    keep(&best->c, time_run(c_run, job));
}

static void repeat_load(const struct bytes *sheet, struct times *best)
{
    keep(&best->archive, time_load(beltuqash_load, sheet));
    keep(&best->c, time_load(c_load, sheet));
}

/* An order, and the times of its calls. */
struct served {
    struct order order;
    struct times of[CALLS];
};

static void repeat_order(struct served *served)
{
    for (enum which which = LOAD; which < CALLS; which++) {
        keep(&served->of[which].archive, time_desk_call(&archive, which, &served->order));
        keep(&served->of[which].c, time_desk_call(&by_hand, which, &served->order));
    }
}

/* A sheet at fuel f and at 2f, 500,000 and 1,000,000 units. */
struct measured {
    struct job f, f2;
    struct times at_f, at_f2;
};

/* One line a figure, for `run` to put together: its name, the archive's time and C's in nanoseconds, and how the archive's
 * time grows with twice the units. */
static void print_figure(const char *name, double archive, double c, double growth)
{
    printf("%s\t%f\t%f\t%f\n", name, archive * 1e9, c * 1e9, growth);
}

static void print_runs(const struct measured *measured)
{
    for (int i = 0; i < WORKLOADS; i++) {
        struct times f = measured[i].at_f, f2 = measured[i].at_f2;
        double units = measured[i].f2.units;
        print_figure(workloads[i].name, f2.archive / units, f2.c / units, f2.archive / f.archive);
    }
}

static void print_orders(const struct served *served)
{
    for (int i = 0; i < DESK_SHEETS; i++)
        for (enum which which = LOAD; which < CALLS; which++)
            print_figure(desk_sheets[i].names[which], served[i].of[which].archive, served[i].of[which].c, 1);
}

int main(void)
{
    static struct measured measured[WORKLOADS];
    static struct served served[DESK_SHEETS];
    static struct bytes largest;
    struct times load = {0, 0};
    prepare_load(&largest);
    for (int i = 0; i < WORKLOADS; i++) {
        prepare_run(&measured[i].f, &workloads[i], BELTUQASH_MOST_FUEL / 2);
        prepare_run(&measured[i].f2, &workloads[i], BELTUQASH_MOST_FUEL);
    }
    for (int i = 0; i < DESK_SHEETS; i++)
        prepare_order(&served[i].order, &desk_sheets[i]);
    for (int repetition = 0; repetition < REPETITIONS; repetition++) {
        for (int i = 0; i < WORKLOADS; i++) {
            repeat_run(&measured[i].f, &measured[i].at_f);
            repeat_run(&measured[i].f2, &measured[i].at_f2);
        }
        repeat_load(&largest, &load);
        for (int i = 0; i < DESK_SHEETS; i++)
            repeat_order(&served[i]);
    }
    print_runs(measured);
    print_figure(load_name, load.archive, load.c, 1);
    print_orders(served);
    return EXIT_SUCCESS;
}
