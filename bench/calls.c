/* The calls as C programs make them: what the bytes cost beside the same call on plain lists, and the stack that a call takes. */
#include "bench.h"
#include "wakhvosi.h"
#include <pthread.h>
#include <stdio.h>
#include <stdlib.h>
#include <string.h>
#include <time.h>

#define BOOK const uint16_t *, size_t, const uint16_t *, size_t, const uint32_t *, size_t
void plain_filter(BOOK, uint16_t, const uint16_t *, size_t, uint64_t *, size_t, uint16_t *, size_t, uint16_t *, size_t, uint16_t *);

enum { ROUNDS = 15, STACK = 1 << 20, PAINT = 0xa5 };

/* The lists of one network; on this machine they are their own little-endian bytes. A record has width, tuples and live count for the
 * calls on bytes; for those on lists the counts stand in a list of their own. */
static network n;
static uint16_t records[3 * MAX_RELATIONS], pairs[2 * MAX_RELATIONS], counts[MAX_RELATIONS], supports[MAX_NUMBERS], row;
static uint64_t marks[WORDS];

static void all_living(void) {
    memset(marks, 0, sizeof marks);
    for (size_t g = 0; g < tuple_count(&n); g++) marks[g / 64] |= 1ull << (g % 64);
    for (size_t r = 0; r < n.relations; r++) records[3 * r + 2] = counts[r] = (uint16_t)size_of(&n, r);
}

static void draw_lists(const description *d) {
    draw_network(&n, d);
    for (size_t r = 0; r < n.relations; r++) {
        records[3 * r] = pairs[2 * r] = (uint16_t)width_of(&n, r);
        records[3 * r + 1] = pairs[2 * r + 1] = (uint16_t)size_of(&n, r);
    }
}

#define BYTES(at, count) (uint8_t *)(at), sizeof *(at) * (count)
#define GIVEN BYTES(records, 3 * n.relations), BYTES(n.variables, n.variable_count), BYTES(n.values, n.value_count)
#define LENT GIVEN, (uint16_t)n.m, BYTES(n.members, n.pairs), (uint8_t *)marks, sizeof marks, (uint8_t *)supports, sizeof supports

static double now(void) {
    struct timespec t;
    clock_gettime(CLOCK_MONOTONIC, &t);
    return (double)t.tv_sec + (double)t.tv_nsec * 1e-9;
}

static double least(double a, double b) { return a < b ? a : b; }

/* The least times of filter on bytes and on lists, in turn. */
static void cost(const description *d) {
    double bytes = 1e9, lists = 1e9;
    uint16_t out[5];
    char name[NAME_SIZE];
    draw_lists(d);
    name_network(d, name);
    for (int k = 0; k < ROUNDS; k++) {
        all_living();
        double t = now();
        wakhvosi_filter(LENT);
        bytes = least(bytes, now() - t);
        all_living();
        t = now();
        plain_filter(pairs, 2 * n.relations, n.variables, n.variable_count, n.values, n.value_count, (uint16_t)n.m, n.members, n.pairs, marks, WORDS, supports, MAX_NUMBERS, counts, n.relations, out);
        lists = least(lists, now() - t);
    }
    printf("%-36s %7.3f ms %9.3f ms   %.2f\n", name, bytes * 1e3, lists * 1e3, bytes / lists);
}

static void *nothing(void *arg) { return arg; }
static void *call_filter(void *arg) { return wakhvosi_filter(LENT), arg; }
static void *call_withdraw(void *arg) { return wakhvosi_withdraw(LENT, BYTES(&row, 1)), arg; }
static void *call_choose(void *arg) { return wakhvosi_choose(LENT, 2, 1), arg; }
static const uint16_t chosen_questions[] = {1, 2};
static const uint32_t chosen_codes[] = {1, 1};
static void *call_several(void *arg) { return wakhvosi_choose_several(LENT, BYTES(chosen_questions, 2), BYTES(chosen_codes, 2)), arg; }
static void *call_test(void *arg) { return wakhvosi_test(GIVEN, (uint16_t)n.m, BYTES(n.members, n.pairs), (uint8_t *)marks, sizeof marks), arg; }
static void *call_compare(void *arg) { return wakhvosi_compare(GIVEN, 0, 1), arg; }
static uint16_t listed[WAKHVOSI_MAX_COMBINATIONS_BYTES / 2];
static void *call_combinations(void *arg) { return wakhvosi_combinations(GIVEN, (uint16_t)n.m, (uint8_t *)listed, sizeof listed), arg; }

/* How many bytes a thread that makes the call has written of a painted stack. */
static size_t stack_of(void *(*call)(void *)) {
    uint8_t *stack = aligned_alloc(4096, STACK);
    memset(stack, PAINT, STACK);
    pthread_attr_t attributes;
    pthread_t thread;
    pthread_attr_init(&attributes);
    pthread_attr_setstack(&attributes, stack, STACK);
    all_living();
    pthread_create(&thread, &attributes, call, NULL);
    pthread_join(thread, NULL);
    size_t low = 0;
    while (low < STACK && stack[low] == PAINT) low++;
    free(stack);
    return STACK - low;
}

static int stacks(void) {
    static void *(*const calls[])(void *) = {call_filter, call_withdraw, call_choose, call_several, call_test, call_compare, call_combinations};
    size_t most = 0, base = stack_of(nothing);
    for (size_t k = 0; k < growth_count; k++) {
        if (growth[k].tuples * growth[k].relations < 4000) continue;
        draw_lists(growth + k);
        printf("m = %zu, 4000 tuples:", n.m);
        for (size_t i = 0; i < sizeof calls / sizeof *calls; i++) {
            size_t used = stack_of(calls[i]) - base;
            printf(" %zu", used);
            if (most < used) most = used;
        }
        puts(" bytes");
    }
    printf("the most: %zu KB\n", (most + 1023) / 1024);
    return most > 384 * 1024;
}

int main(void) {
    printf("\n%-36s %10s %12s   ratio\n", "filter", "bytes", "lists");
    for (size_t i = 0; i < suite_count; i++)
        if (suite[i].shape == NEIGHBOURS && suite[i].factor == 1) cost(suite + i);
    for (size_t i = 0; i < growth_count; i++) cost(growth + i);
    puts("stack of filter, withdraw, choose, choose several, test, compare, combinations:");
    return stacks();
}
