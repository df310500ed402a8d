// Writes the entries of a mesh text as C definitions, for a source that a C compiler makes a program of (docs/COMPILERS.md). tools/mesh_c
// compiles and calls it. Usage: mesh_c MESH [SOURCE]
// With SOURCE it writes only the entries that SOURCE declares extern. Without SOURCE it writes all, as weak symbols, which give way to names
// of the source's own. The mesh text is one that op2 reads: ranges of numbers and names that stand twice are not judged here.
#include <stdio.h>
#include <stdlib.h>
#include <string.h>

// A token: its first byte, and how many it has.
struct word {
    const char *at;
    size_t size;
};

static const char *mesh_name;

static void fail(const char *why, const char *file) {
    fflush(stdout);
    fprintf(stderr, "mesh_c: %s%s\n", why, file);
    exit(1);
}

// All bytes of a file, with a zero behind them.
static char *read_file(const char *name) {
    size_t size = 0, room = 1 << 16, got;
    char *bytes = malloc(room);
    FILE *file = fopen(name, "rb");
    if (!file) fail("cannot read ", name);
    while (bytes && (got = fread(bytes + size, 1, room - size - 1, file)) > 0) {
        size += got;
        if (size + 1 == room) bytes = realloc(bytes, room *= 2);
    }
    if (!bytes) fail("out of memory for ", name);
    if (ferror(file)) fail("cannot read ", name);
    fclose(file);
    bytes[size] = 0;
    return bytes;
}

// ---- what is written, in pieces

static char out[1 << 16];
static size_t out_size;

static void flush(void) {
    if (fwrite(out, 1, out_size, stdout) != out_size) fail("cannot write", "");
    out_size = 0;
}

static void put(const char *bytes, size_t size) {
    for (; size > sizeof out - out_size; flush()) {
        size_t part = sizeof out - out_size;
        memcpy(out + out_size, bytes, part);
        out_size += part, bytes += part, size -= part;
    }
    memcpy(out + out_size, bytes, size);
    out_size += size;
}

static void put_text(const char *text) { put(text, strlen(text)); }

// ---- the source: which names it declares extern

static struct word *externs;
static size_t extern_count;

static int is_name_byte(char byte) {
    return (byte >= 'a' && byte <= 'z') || (byte >= 'A' && byte <= 'Z') || (byte >= '0' && byte <= '9') || byte == '_';
}

static int is(struct word word, const char *text) { return word.size == strlen(text) && !memcmp(word.at, text, word.size); }

static int compare(const void *a, const void *b) {
    const struct word *x = a, *y = b;
    if (x->size != y->size) return x->size < y->size ? -1 : 1;
    return memcmp(x->at, y->at, x->size);
}

// Where a comment, a line of #include or a text that begins here ends; where none begins, here.
static const char *passed(const char *at) {
    const char *end = 0;
    if (at[0] == '#' || (at[0] == '/' && at[1] == '/')) end = strchr(at, '\n');
    else if (at[0] == '/' && at[1] == '*') end = (end = strstr(at + 2, "*/")) ? end + 2 : 0;
    else if (*at == '"') {
        for (end = at + 1; *end && *end != '"'; end++) end += *end == '\\' && end[1];
        return *end ? end + 1 : end;
    } else return at;
    return end ? end : at + strlen(at);
}

// The next name, number or sign of one byte, or an empty one behind the last.
static struct word next_of_source(const char **at) {
    struct word word = {*at, 0};
    const char *end;
    for (; *word.at; word.at = end) {
        end = passed(word.at);
        if (end == word.at && *word.at != ' ' && *word.at != '\t' && *word.at != '\r' && *word.at != '\n') break;
        end += end == word.at;
    }
    while (is_name_byte(word.at[word.size])) word.size++;
    word.size += !word.size && *word.at;
    *at = word.at + word.size;
    return word;
}

static void read_externs(const char *text) {
    struct word word, before = {0, 0}, first = {0, 0};
    size_t room = 0;
    while ((word = next_of_source(&text)).size) {
        if (is(first, "extern") && is(before, "int")) {
            if (extern_count == room) externs = realloc(externs, (room = 2 * room + 16) * sizeof *externs);
            if (!externs) fail("out of memory", "");
            externs[extern_count++] = word;
        }
        first = before;
        before = word;
    }
    if (extern_count) qsort(externs, extern_count, sizeof *externs, compare);
}

// ---- the mesh

static int is_blank(char byte) { return byte == ' ' || byte == '\t' || byte == '\r' || byte == '\n'; }

// The next token: of bytes above the blank, since the tokens of a mesh have no others.
static struct word next_of_mesh(const char **text) {
    const char *at = *text;
    struct word word;
    while (is_blank(*at)) at++;
    word.at = at;
    while ((unsigned char)*at > ' ') at++;
    word.size = (size_t)(at - word.at);
    if (!word.size) fail("no mesh text, or one without its end: ", mesh_name);
    *text = at;
    return word;
}

// Numbers of a mesh may begin with zeros, which would make them octal in C.
static long number(struct word word) {
    char *end;
    long value = strtol(word.at, &end, 10);
    if (end != word.at + word.size) fail("a number is none in ", mesh_name);
    return value;
}

// ---- the definitions

// Entries of these names are left out where no SOURCE says which are wanted: words of C, what op2_seq.h declares, and words of the language.
static const char *const reserved[] = {
    "auto", "break", "case", "char", "const", "continue", "default", "do", "double", "else", "enum", "extern", "float", "for", "goto", "if",
    "inline", "int", "long", "main", "register", "restrict", "return", "short", "signed", "sizeof", "static", "struct", "switch", "typedef",
    "union", "unsigned", "void", "volatile", "while", "abort", "free", "malloc", "printf", "op_set", "op_map", "op_dat", "op_init", "op_exit",
    "op_decl_set", "op_decl_map", "op_decl_dat", "op_decl_const", "op_par_loop", "op_arg_dat", "op_arg_gbl", "op_printf",
    "op_print_dat_to_txtfile", "OP_ID", "OP_READ", "OP_WRITE", "OP_RW", "OP_INC", "OP_MIN", "OP_MAX", "MIN", "MAX", "ABS"};

static int has_source;

static int is_defined(struct word name) {
    size_t i;
    if (has_source) return extern_count && bsearch(&name, externs, extern_count, sizeof *externs, compare);
    for (i = 0; i < sizeof reserved / sizeof *reserved; i++)
        if (is(name, reserved[i])) return 0;
    return 1;
}

static void put_head(struct word name) {
    if (!has_source) put_text("__attribute__((weak)) ");
    put_text("int ");
    put(name.at, name.size);
}

// A value as it is written, behind a comma and a blank.
struct value {
    char bytes[24];
    size_t size;
};

// Digits behind one `-` or not. The least int is the value of no literal.
static struct value read_value(const char *at, const char *end) {
    struct value value = {", ", 2};
    size_t digits;
    if (*at == '-') value.bytes[value.size++] = *at++;
    while (at + 1 < end && *at == '0') at++;
    digits = (size_t)(end - at);
    if (digits < 1 || digits > 10 || end[-1] < '0' || end[-1] > '9') fail("a value is none in ", mesh_name);
    memcpy(value.bytes + value.size, at, digits);
    value.size += digits;
    if (!strcmp(value.bytes, ", -2147483648")) value.size = (size_t)sprintf(value.bytes, ", -2147483647 - 1");
    return value;
}

static void put_int(struct word name, struct word word) {
    struct value value = read_value(word.at, word.at + word.size);
    put_head(name);
    put_text(" = ");
    put(value.bytes + 2, value.size - 2);
    put_text(";\n");
}

// The value behind k others of its array. Copying all bytes of it is faster than copying as many as count.
static inline void put_behind(const struct value *value, long k) {
    if (sizeof out - out_size < sizeof value->bytes) flush();
    if (k == 0) {
        put(value->bytes + 2, value->size - 2);
        return;
    }
    memcpy(out + out_size, value->bytes, sizeof value->bytes);
    if (k % 16 == 0) out[out_size + 1] = '\n';
    out_size += value->size;
}

// The values behind the count, each alone or as a run N*V. C has no array without values: it gets one 0.
static void put_array(struct word name, long count, const char **at) {
    int defined = is_defined(name);
    long times, k = 0, end;
    char size[32];
    if (defined) {
        put_head(name);
        put(size, (size_t)sprintf(size, "[%ld] = {\n%s", count ? count : 1, count ? "" : "0"));
    }
    while (k < count) {
        struct word word = next_of_mesh(at);
        const char *star = memchr(word.at, '*', word.size);
        struct value value = read_value(star ? star + 1 : word.at, word.at + word.size);
        times = star ? strtol(word.at, 0, 10) : 1;
        if (times < 1 || times > count - k) fail("a value is none in ", mesh_name);
        end = k + times;
        if (!defined) k = end;
        for (; k < end; k++) put_behind(&value, k);
    }
    if (defined) put_text("\n};\n");
}

static void put_entries(const char *text) {
    struct word kind, name;
    if (!is(next_of_mesh(&text), "op2mesh")) fail("no mesh text: ", mesh_name);
    next_of_mesh(&text);
    while (!is(kind = next_of_mesh(&text), "done")) {
        name = next_of_mesh(&text);
        if (is(kind, "ints")) put_array(name, number(next_of_mesh(&text)), &text);
        else if (!is(kind, "int")) fail("an entry is none in ", mesh_name);
        else if (is_defined(name)) put_int(name, next_of_mesh(&text));
        else next_of_mesh(&text);
    }
}

int main(int argc, char **argv) {
    if (argc < 2 || argc > 3) {
        fputs("usage: mesh_c MESH [SOURCE]\n", stderr);
        return 2;
    }
    mesh_name = argv[1];
    has_source = argc == 3;
    if (has_source) read_externs(read_file(argv[2]));
    put_entries(read_file(mesh_name));
    flush();
    if (fflush(stdout)) fail("cannot write", "");
    return 0;
}
