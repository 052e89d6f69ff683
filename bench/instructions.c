/* Counts the instructions of the archive's calls and of the same monitor by hand in C.
 *
 * The processor stops after each instruction while its trap flag is set, and a signal handler counts the stops. So a count is exact and the same at each
 * run, emulated or not; only the C library's memcpy and memset may go another way on another processor. What a unit takes is what a longer run takes
 * more, divided by the units that it spends more. */
#define _POSIX_C_SOURCE 200809L
#include "workloads.h"

#include <signal.h>
#include <stdio.h>
#include <stdlib.h>

/* The fuel of the two runs. */
enum { SHORT_RUN = 1000, LONG_RUN = 3000 };

static volatile uint64_t stops;

static void count_stop(int signal)
{
    (void)signal;
    stops++;
}

/* Sets or clears the trap flag, bit 8 of the flags. What lies below the stack pointer may be in use, and is left alone. */
static inline void set_trap_flag(void)
{
    __asm__ volatile("sub $128, %%rsp; pushfq; orq $0x100, (%%rsp); popfq; add $128, %%rsp" ::: "cc", "memory");
}

static inline void clear_trap_flag(void)
{
    __asm__ volatile("sub $128, %%rsp; pushfq; andq $~0x100, (%%rsp); popfq; add $128, %%rsp" ::: "cc", "memory");
}

static uint64_t count_run(run_call call, const struct job *job)
{
    stops = 0;
    set_trap_flag();
    run(call, job);
    clear_trap_flag();
    return stops;
}

static uint64_t count_load(load_call call, const struct bytes *sheet)
{
    stops = 0;
    set_trap_flag();
    call(sheet->at, sheet->length);
    clear_trap_flag();
    return stops;
}

static uint64_t count_desk_call(const struct monitor *monitor, enum which which, const struct order *order)
{
    stops = 0;
    set_trap_flag();
    desk_call(monitor, which, order);
    clear_trap_flag();
    return stops;
}

/* The calls of nobody take nothing but what counting itself takes. */

static uint64_t no_load(const uint8_t *sheet, size_t sheet_len)
{
    (void)sheet, (void)sheet_len;
    return 0;
}

static uint64_t no_run(const uint8_t *sheet, size_t sheet_len, const uint8_t *store, size_t store_len, uint32_t mode, uint32_t fuel,
                       uint8_t *out, size_t out_len)
{
    (void)sheet, (void)sheet_len, (void)store, (void)store_len, (void)mode, (void)fuel, (void)out, (void)out_len;
    return 0;
}

static uint64_t no_hand_out(const uint8_t *sheet, size_t sheet_len, const uint8_t *store, size_t store_len, uint32_t reader,
                            const uint8_t *request, size_t request_len, uint8_t *answer, size_t answer_len)
{
    (void)sheet, (void)sheet_len, (void)store, (void)store_len, (void)reader;
    (void)request, (void)request_len, (void)answer, (void)answer_len;
    return 0;
}

static const struct monitor nobody = {no_load, no_run, no_hand_out};

static double instructions_a_unit(run_call call, const struct job *one, const struct job *longer)
{
    return (double)(count_run(call, longer) - count_run(call, one)) / (longer->units - one->units);
}

static void print_figure(const char *name, double archive, double c)
{
    printf("%-34s %10.1f %10.1f %6.2f\n", name, archive, c, archive / c);
}

static void print_run(const struct workload *workload)
{
    static struct job one, longer;
    prepare_run(&one, workload, SHORT_RUN);
    prepare_run(&longer, workload, LONG_RUN);
    print_figure(workload->name, instructions_a_unit(beltuqash_run, &one, &longer), instructions_a_unit(c_run, &one, &longer));
}

static void print_load(void)
{
    static struct bytes largest;
    prepare_load(&largest);
    uint64_t nothing = count_load(no_load, &largest);
    print_figure(load_name, (double)(count_load(beltuqash_load, &largest) - nothing), (double)(count_load(c_load, &largest) - nothing));
}

static void print_order(const struct desk_sheet *sheet)
{
    static struct order order;
    prepare_order(&order, sheet);
    for (enum which which = LOAD; which < CALLS; which++) {
        uint64_t nothing = count_desk_call(&nobody, which, &order);
        uint64_t by_archive = count_desk_call(&archive, which, &order), by_c = count_desk_call(&by_hand, which, &order);
        print_figure(sheet->names[which], (double)(by_archive - nothing), (double)(by_c - nothing));
    }
}

int main(void)
{
    struct sigaction action = {.sa_handler = count_stop};
    if (sigaction(SIGTRAP, &action, NULL) != 0) {
        perror("instructions cannot be counted");
        return EXIT_FAILURE;
    }
    printf("%-34s %10s %10s %6s\n", "instructions", "archive", "C", "ratio");
    for (int i = 0; i < WORKLOADS; i++)
        print_run(&workloads[i]);
    print_load();
    for (int i = 0; i < DESK_SHEETS; i++)
        print_order(&desk_sheets[i]);
    return EXIT_SUCCESS;
}
