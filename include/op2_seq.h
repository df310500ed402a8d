// The calls of a source for op2, so that a C compiler can make a program of it: each loop runs one element after another, in the order of its
// set. docs/COMPILERS.md says how it is used, with which flags, and what it doesn't see.
// It is for sources that op2 accepts: it judges nothing. Names that begin with op_seq_ or OP_SEQ_ are its own. The compiler may be one of C++ too.
#ifndef OP2_SEQ_H
#define OP2_SEQ_H

#include <stddef.h>

// Declared here and not by the headers of the C library, whose other names a source may use as its own. In C++ a declaration would have to
// say of exceptions what these headers say, which differs; what the compiler knows as its own needs none.
#ifdef __cplusplus
#define OP_SEQ_LIBRARY(function) __builtin_##function
#else
#define OP_SEQ_LIBRARY(function) function
int (printf)(const char *format, ...);
void *(malloc)(size_t size);
void (free)(void *data);
void (abort)(void);
#endif

typedef struct op_seq_set {
    int size;
} *op_set;

typedef struct op_seq_map {
    int dim;
    const int *targets;
} *op_map;

typedef struct op_seq_dat {
    op_set set;
    const char *set_name;
    int dim;
    int *values;
} *op_dat;

// An argument of a loop: element e has the cells from cells[dim * e] on, or where it is mapped from cells[dim * targets[arity * e]] on.
// It has no padding, which gcc would clear with -ftrivial-auto-var-init=zero, and keep the whole in memory for that.
typedef struct {
    int *cells;
    ptrdiff_t dim;
    const int *targets;
    ptrdiff_t arity;
    ptrdiff_t mapped;
} op_seq_arg;

typedef enum { OP_READ, OP_WRITE, OP_RW, OP_INC, OP_MIN, OP_MAX } op_seq_access;

#define OP_ID ((op_map)0)

// As many as op2 allows.
static struct op_seq_set op_seq_sets[64];
static struct op_seq_map op_seq_maps[64];
static struct op_seq_dat op_seq_dats[256];
static int op_seq_set_count, op_seq_map_count, op_seq_dat_count;

static inline void op_init(int argc, char **argv, int level) {
    (void)argc;
    (void)argv;
    (void)level;
}

static inline void op_exit(void) {
    while (op_seq_dat_count > 0) OP_SEQ_LIBRARY(free)(op_seq_dats[--op_seq_dat_count].values);
}

static inline op_set op_decl_set(int size, const char *name) {
    op_set set = &op_seq_sets[op_seq_set_count++];
    (void)name;
    set->size = size;
    return set;
}

static inline op_map op_decl_map(op_set from, op_set to, int dim, const int *targets, const char *name) {
    op_map map = &op_seq_maps[op_seq_map_count++];
    (void)from;
    (void)to;
    (void)name;
    map->dim = dim;
    map->targets = targets;
    return map;
}

// A dat has a copy of the values, so that several may begin with those of one array. A printed dat shows the set's name in the source.
#define op_decl_dat(set, dim, type, values, name) op_seq_decl_dat(set, #set, dim, values)

static inline op_dat op_seq_decl_dat(op_set set, const char *set_name, int dim, const int *values) {
    op_dat dat = &op_seq_dats[op_seq_dat_count++];
    size_t i, count = (size_t)set->size * (size_t)dim;
    dat->set = set;
    dat->set_name = set_name;
    dat->dim = dim;
    dat->values = (int *)OP_SEQ_LIBRARY(malloc)(count * sizeof(int) + 1);
    if (!dat->values) OP_SEQ_LIBRARY(abort)();
    for (i = 0; i < count; i++) dat->values[i] = values[i];
    return dat;
}

static inline void op_decl_const(int dim, const char *type, const int *values) {
    (void)dim;
    (void)type;
    (void)values;
}

// What of an argument is a number is known in the loop over the elements only where these are put in place before all else.
#ifdef __GNUC__
#define OP_SEQ_INLINE static inline __attribute__((__always_inline__))
#else
#define OP_SEQ_INLINE static inline
#endif

// The index of an argument without a map is -1. It is a number of the source, so that the compiler knows which arguments are mapped, and
// tests none for each element.
OP_SEQ_INLINE op_seq_arg op_arg_dat(op_dat dat, int index, op_map map, int dim, const char *type, op_seq_access access) {
    const int mapped = index >= 0;
    op_seq_arg arg = {dat->values, dim, mapped ? map->targets + index : 0, mapped ? map->dim : 0, mapped};
    (void)type;
    (void)access;
    return arg;
}

// A variable has one place for all elements. Only OP_READ arguments are constants, and no kernel stores through these.
OP_SEQ_INLINE op_seq_arg op_arg_gbl(const int *values, int dim, const char *type, op_seq_access access) {
    op_seq_arg arg = {(int *)values, 0, 0, 0, 0};
    (void)dim;
    (void)type;
    (void)access;
    return arg;
}

OP_SEQ_INLINE int *op_seq_cells(const op_seq_arg *arg, ptrdiff_t element) {
    return arg->cells + arg->dim * (arg->mapped ? arg->targets[arg->arity * element] : element);
}

#define op_print_dat_to_txtfile(dat, file) op_seq_print_dat(dat, #dat, file)

static inline void op_seq_print_dat(op_dat dat, const char *name, const char *file) {
    int element, i;
    const int *value = dat->values;
    OP_SEQ_LIBRARY(printf)("%s: %s %s %d %d\n", file, name, dat->set_name, dat->set->size, dat->dim);
    for (element = 0; element < dat->set->size; element++)
        for (i = 0; i < dat->dim; i++) OP_SEQ_LIBRARY(printf)(i + 1 < dat->dim ? "%d " : "%d\n", *value++);
}

// A loop with 1 to 16 arguments: the kernel is called by its name, so that the compiler compares the types and can put it in place.
#define op_par_loop(kernel, name, set, ...) \
    do { \
        const op_seq_arg op_seq_args[] = {__VA_ARGS__}; \
        const ptrdiff_t op_seq_size = (set)->size; \
        ptrdiff_t op_seq_element; \
        for (op_seq_element = 0; op_seq_element < op_seq_size; op_seq_element++) \
            kernel(OP_SEQ_CALL(OP_SEQ_COUNT(__VA_ARGS__, 16, 15, 14, 13, 12, 11, 10, 9, 8, 7, 6, 5, 4, 3, 2, 1, 0))); \
    } while (0)

#define OP_SEQ_COUNT(a, b, c, d, e, f, g, h, i, j, k, l, m, n, o, p, count, ...) count
#define OP_SEQ_CALL(count) OP_SEQ_JOINED(count)
#define OP_SEQ_JOINED(count) OP_SEQ_##count
#define OP_SEQ_AT(i) op_seq_cells(&op_seq_args[i], op_seq_element)
#define OP_SEQ_1 OP_SEQ_AT(0)
#define OP_SEQ_2 OP_SEQ_1, OP_SEQ_AT(1)
#define OP_SEQ_3 OP_SEQ_2, OP_SEQ_AT(2)
#define OP_SEQ_4 OP_SEQ_3, OP_SEQ_AT(3)
#define OP_SEQ_5 OP_SEQ_4, OP_SEQ_AT(4)
#define OP_SEQ_6 OP_SEQ_5, OP_SEQ_AT(5)
#define OP_SEQ_7 OP_SEQ_6, OP_SEQ_AT(6)
#define OP_SEQ_8 OP_SEQ_7, OP_SEQ_AT(7)
#define OP_SEQ_9 OP_SEQ_8, OP_SEQ_AT(8)
#define OP_SEQ_10 OP_SEQ_9, OP_SEQ_AT(9)
#define OP_SEQ_11 OP_SEQ_10, OP_SEQ_AT(10)
#define OP_SEQ_12 OP_SEQ_11, OP_SEQ_AT(11)
#define OP_SEQ_13 OP_SEQ_12, OP_SEQ_AT(12)
#define OP_SEQ_14 OP_SEQ_13, OP_SEQ_AT(13)
#define OP_SEQ_15 OP_SEQ_14, OP_SEQ_AT(14)
#define OP_SEQ_16 OP_SEQ_15, OP_SEQ_AT(15)

// What follows stands for words of the source. gcc would name lines of this file where it warns of such a word, as of one whose argument has no
// value yet; it doesn't where they are a system's.
#ifdef __GNUC__
#pragma GCC system_header
#endif

#define op_printf (void)OP_SEQ_LIBRARY(printf)

#undef MIN
#undef MAX
#undef ABS
// By `0 +` no argument that is a comparison is compared itself, and no result is a condition, of which compilers warn.
#define MIN(a, b) (0 + (0 + (a) < 0 + (b) ? (a) : (b)))
#define MAX(a, b) (0 + (0 + (a) > 0 + (b) ? (a) : (b)))
// By `-(a)` gcc 12 would take `ABS(x) <= 2` for a test of a range, which is wrong for the least number, with -fwrapv too.
#define ABS(a) ((int)(0 + (a) < 0 ? 0u - (unsigned)(a) : 0u + (unsigned)(a)))

// By C99 the definition of an `inline void k` that is neither static nor extern isn't one for the linker, which looks for it where the compiler
// hasn't put it in place of its call. By the older rule of gcc, which clang has too, it is one. In C++ it is one, and `static inline` is the same
// by all rules.
#if defined(__GNUC_STDC_INLINE__) && !defined(__cplusplus)
#define inline __inline __attribute__((__gnu_inline__))
#endif

#endif
