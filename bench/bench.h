/* What the benchmark compares: functions of the proved library (bench_) and the same in plain C (c_), on the same networks. */
#ifndef BENCH_H
#define BENCH_H
#include <stdbool.h>
#include <stddef.h>
#include <stdint.h>
#include <stdio.h>

/* The limits of a network, and what stands for no support, for no variable and for every value. */
enum { MAX_RELATIONS = 64, MAX_WIDTH = 8, MAX_TUPLES = 4096, MAX_MEMBERS = 4, MAX_COMBINATIONS = 256, MAX_NUMBERS = 32768 };
enum { NO_SUPPORT = 65535, NO_VARIABLE = 64 };
#define ANY 4294967295u
enum { WORDS = MAX_TUPLES / 64, MAX_PAIRS = MAX_COMBINATIONS * MAX_MEMBERS };

/* A network with its combinations, and where each relation and each pair's numbers begin. The library takes the three tables and the
 * number of relations behind them as one array. */
typedef struct {
    uint32_t values[MAX_TUPLES * MAX_WIDTH];
    uint16_t variables[MAX_RELATIONS * MAX_WIDTH], members[MAX_PAIRS];
    uint16_t variable_starts[MAX_RELATIONS + 1], tuple_starts[MAX_RELATIONS + 1], value_starts[MAX_RELATIONS + 1], relations;
    uint16_t pair_starts[MAX_PAIRS];
    size_t variable_count, value_count, m, pairs, needed;
} network;
_Static_assert(offsetof(network, relations) == offsetof(network, variable_starts) + 2 * 3 * 65, "the starts are one array");

/* Networks, made relation by relation and then combination by combination. */
void clear_network(network *, size_t m);
/* A relation more, with all its values 0. */
void add_relation(network *, const uint16_t *scope, size_t width, size_t tuples);
/* Whether there was room for a combination more. */
bool add_combination(network *, const uint16_t *members);
bool is_connected(const network *, const uint16_t *members);
/* The next m relations that rise, in the order of the first, then the second, and so on; false behind the last. */
bool next_choice(const network *, uint16_t *members);
size_t width_of(const network *, size_t relation);
size_t size_of(const network *, size_t relation);
size_t tuple_count(const network *);
/* In the desk's text form, docs/TEXT.md. Reading is for texts that were written so; false where a number lacks or is too large. */
void write_network(const network *, FILE *);
bool read_network(network *, FILE *);

/* The suite. `networks.c` says what each shape and each kind of codes is. */
typedef enum { NEIGHBOURS, PATH, STAR, RING, CLIQUE, CATALOGUE } network_shape;
typedef enum { MULTIPLES, RANDOM, TOPMOST, WIDE, RAISED, CODE_KINDS } code_kind;
typedef struct {
    network_shape shape;
    size_t m, relations, tuples; /* tuples of each relation */
    unsigned values;             /* different values of a variable */
    code_kind codes;
    unsigned factor; /* of multiples */
    size_t step;     /* of the combinations that the shape has, every so manieth */
    size_t alike;    /* so many tuples are alike but for private variables */
    bool apart;      /* the last relation agrees with none */
    unsigned any;    /* of a hundred values so many are any */
} description;

/* Of these, only `with_any` has networks with any. */
extern const description suite[], growth[], with_any[];
extern const size_t suite_count, growth_count, with_any_count;
enum { NAME_SIZE = 64 };
void name_network(const description *, char name[NAME_SIZE]);
void draw_network(network *, const description *);
/* The scope of one of so many relations of a shape, and its width. */
size_t shape_scope(network_shape, size_t relations, size_t relation, uint16_t *scope);
/* The code of a value; different ones have different codes, and none is any. */
uint32_t code_of(const description *, unsigned value);
/* The same network with codes whose lower 16 bits are different, of whichever kind is most like its own. */
description narrowed(const description *);

uint16_t bench_first_clash(const uint16_t *, size_t, const uint32_t *, size_t, const uint16_t *, size_t, const uint32_t *, size_t);
uint16_t bench_next(const uint64_t *, size_t, uint16_t, uint16_t);
uint16_t bench_count(const uint64_t *, size_t, uint16_t, uint16_t);
void bench_filter(const uint16_t *, size_t, const uint32_t *, size_t, const uint16_t *, const uint16_t *, size_t, uint16_t, uint64_t *, size_t, uint16_t *, size_t);
void c_filter(const network *, uint64_t *, uint16_t *);
uint16_t c_first_clash(const uint16_t *, size_t, const uint32_t *, size_t, const uint16_t *, size_t, const uint32_t *, size_t);
uint16_t c_next(const uint64_t *, size_t, uint16_t, uint16_t);
uint16_t c_count(const uint64_t *, size_t, uint16_t, uint16_t);
#endif
