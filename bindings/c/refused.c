/* Each allocation of each call fails in turn: the answer is the right one or BORSH_OUT_OF_MEMORY, and nothing is left allocated. Linked
 * with `--wrap`, so that the library's allocations come here. The exit status is 0, or 1 after the first failure, which is printed. */
#include "borsh.h"

#include <stdio.h>
#include <string.h>

void *__real_malloc(size_t size);
void *__real_calloc(size_t count, size_t size);
void *__real_realloc(void *block, size_t size);
void __real_free(void *block);

/* How many requests are granted before one is refused, and how many blocks are allocated. */
static size_t granted = SIZE_MAX;
static size_t blocks = 0;

static bool refuses(void) {
    if (granted == SIZE_MAX)
        return false;
    if (granted == 0)
        return true;
    granted--;
    return false;
}

static void *counted(void *block) {
    blocks += block != NULL;
    return block;
}

void *__wrap_malloc(size_t size) { return refuses() ? NULL : counted(__real_malloc(size)); }

void *__wrap_calloc(size_t count, size_t size) { return refuses() ? NULL : counted(__real_calloc(count, size)); }

void *__wrap_realloc(void *block, size_t size) {
    if (refuses())
        return NULL;
    return block == NULL ? counted(__real_realloc(NULL, size)) : __real_realloc(block, size);
}

void __wrap_free(void *block) {
    blocks -= block != NULL;
    __real_free(block);
}

/* `A { x: u64, y: String }`, a value, JSON, and bytes that are no value. */
static const uint8_t schema[] =
    "\1\0\0\0A\4\0\0\0\1\0\0\0A\4\0\2\0\0\0\1\0\0\0x\3\0\0\0u64\1\0\0\0y\6\0\0\0String\6\0\0\0String\1\4\0\0\0\0\0\0\0\0"
    "\377\377\377\377\0\0\0\0\2\0\0\0u8\3\0\0\0u64\0\10\2\0\0\0u8\0\1";
static const uint8_t value[] = "\14\0\0\0\0\0\0\0\3\0\0\0h\303\251";
static const uint8_t json[] = "{\"y\": \"h\\u00e9\", \"x\": 12}";

#define LENGTH(text) (sizeof(text) - 1)

/* Two values, and the beginning of a third. */
static const uint8_t values[] = "\14\0\0\0\0\0\0\0\3\0\0\0h\303\251\15\0\0\0\0\0\0\0\0\0\0\0\16";
static const size_t lengths[] = {15, 12};

/* The beginning of a value. */
static const uint8_t cut[] = "\14\0\0";

/* The text of a type, a name, one that isn't there, and a container that has other values: `u8`. */
static const uint8_t source[] = "struct A { x: u64, y: String }";
static const uint8_t type[] = "A";
static const uint8_t unknown[] = "Strin";
static const uint8_t other[] = "\2\0\0\0u8\1\0\0\0\2\0\0\0u8\0\1";

#define COUNT(list) (sizeof(list) / sizeof((list)[0]))

/* The calls that `ask` makes: the code that each returns, and whether it may give fewer lines where memory is refused. */
static const struct {
    const char *name;
    uint32_t code;
    bool may_be_fewer;
} samples[] = {
    /* tools/calls.py writes: samples */
    {"borsh_valid", 0, false},
    {"borsh_valid", 2, false},
    {"borsh_size", 0, false},
    {"borsh_names", 0, false},
    {"borsh_member", 0, false},
    {"borsh_member", 1, false},
    {"borsh_to_json", 0, false},
    {"borsh_from_json", 0, false},
    {"borsh_records", 0, false},
    {"borsh_records", 6, false},
    {"borsh_json_lines", 0, true},
    {"borsh_compile", 0, false},
    {"borsh_compile", 1, false},
    {"borsh_compile", 1, false},
    {"borsh_compare", 0, false},
    {"borsh_compare", 1, false},
    {"borsh_compare", 2, false},
    /* tools/calls.py: end */
};

static uint32_t ask(size_t call, struct borsh_buffer *out) {
    size_t size = 0, found[3];
    switch (call) {
    /* tools/calls.py writes: calls */
    case 0:
        return borsh_valid(schema, LENGTH(schema), out);
    case 1:
        return borsh_valid(value, LENGTH(value), out);
    case 2:
        return borsh_size(schema, LENGTH(schema), &size, out);
    case 3:
        return borsh_names(schema, LENGTH(schema), out);
    case 4:
        return borsh_member(schema, LENGTH(schema), value, LENGTH(value), out);
    case 5:
        return borsh_member(schema, LENGTH(schema), cut, LENGTH(cut), out);
    case 6:
        return borsh_to_json(schema, LENGTH(schema), value, LENGTH(value), false, false, out);
    case 7:
        return borsh_from_json(schema, LENGTH(schema), json, LENGTH(json), out);
    case 8:
        return borsh_records(schema, LENGTH(schema), values, LENGTH(values), found, COUNT(found), &size, out);
    case 9:
        return borsh_records(schema, LENGTH(schema), cut, LENGTH(cut), found, COUNT(found), &size, out);
    case 10:
        return borsh_json_lines(schema, LENGTH(schema), values, LENGTH(values), lengths, COUNT(lengths), false, &size, out);
    case 11:
        return borsh_compile(source, LENGTH(source), type, LENGTH(type), out);
    case 12:
        return borsh_compile(source, LENGTH(source), unknown, LENGTH(unknown), out);
    case 13:
        return borsh_compile(source, LENGTH(source), cut, LENGTH(cut), out);
    case 14:
        return borsh_compare(schema, LENGTH(schema), schema, LENGTH(schema), out);
    case 15:
        return borsh_compare(schema, LENGTH(schema), other, LENGTH(other), out);
    case 16:
        return borsh_compare(schema, LENGTH(schema), value, LENGTH(value), out);
    /* tools/calls.py: end */
    }
    return BORSH_NULL;
}

int main(void) {
    for (size_t call = 0; call < COUNT(samples); call++) {
        struct borsh_buffer right, out;
        uint32_t code = ask(call, &right);
        if (code != samples[call].code) {
            printf("%s: code %u\n", samples[call].name, (unsigned)code);
            return 1;
        }
        size_t before = blocks;
        size_t count = 0;
        for (bool refused = true; refused; count++) {
            granted = count;
            uint32_t said = ask(call, &out);
            refused = granted == 0;
            granted = SIZE_MAX;
            bool same = said == code && out.length <= right.length && memcmp(out.data, right.data, out.length) == 0 &&
                        (out.length == right.length || (samples[call].may_be_fewer && refused && out.length > 0));
            bool none = said == BORSH_OUT_OF_MEMORY && strcmp((const char *)out.data, "out of memory") == 0;
            borsh_free(&out);
            if (!(same || (refused && none)) || blocks != before) {
                printf("%s, request %zu: code %u, %zu blocks left\n", samples[call].name, count, (unsigned)said, blocks - before);
                return 1;
            }
        }
        printf("%s: code %u, each of %zu requests refused in turn\n", samples[call].name, (unsigned)code, count - 1);
        borsh_free(&right);
    }
    return 0;
}
