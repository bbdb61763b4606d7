/* The answers of the native library: for each line "CALL ARGUMENT..", whose arguments are words, the code, the number that is given (the
 * size, or how many values), the place, the bytes, and the lengths that are given. Bytes are hexadecimal digits, or `-` where there are
 * none; numbers have commas between them; of a room for numbers it is said for how many. */
#include "borsh.h"

#include <stdio.h>
#include <stdlib.h>
#include <string.h>

struct bytes {
    const uint8_t *start;
    size_t length;
};

enum { MOST_NUMBERS = 64 };
static size_t numbers[MOST_NUMBERS];

static char *word(void) {
    char *found = strtok(NULL, " \n");
    if (found == NULL)
        exit(1);
    return strcmp(found, "-") == 0 ? found + 1 : found;
}

/* The bytes of digits, in their own place. */
static struct bytes bytes_in(void) {
    char *digits = word();
    size_t length = 0;
    for (; digits[2 * length] != 0; length++) {
        char two[3] = {digits[2 * length], digits[2 * length + 1], 0};
        digits[length] = (char)strtoul(two, NULL, 16);
    }
    return (struct bytes){(const uint8_t *)digits, length};
}

static size_t number_in(void) { return strtoull(word(), NULL, 10); }

/* Reads numbers; how many. */
static size_t numbers_in(void) {
    size_t count = 0;
    for (char *at = word(); *at != 0 && count < MOST_NUMBERS; at += *at == ',')
        numbers[count++] = strtoull(at, &at, 10);
    return count;
}

static uint32_t ask(const char *call, size_t *number, struct borsh_buffer *out) {
    /* tools/calls.py writes: calls */
    if (strcmp(call, "valid") == 0) {
        struct bytes schema = bytes_in();
        return borsh_valid(schema.start, schema.length, out);
    }
    if (strcmp(call, "size") == 0) {
        struct bytes schema = bytes_in();
        return borsh_size(schema.start, schema.length, number, out);
    }
    if (strcmp(call, "names") == 0) {
        struct bytes schema = bytes_in();
        return borsh_names(schema.start, schema.length, out);
    }
    if (strcmp(call, "member") == 0) {
        struct bytes schema = bytes_in();
        struct bytes value = bytes_in();
        return borsh_member(schema.start, schema.length, value.start, value.length, out);
    }
    if (strcmp(call, "to_json") == 0) {
        struct bytes schema = bytes_in();
        struct bytes value = bytes_in();
        bool is_compact = number_in() == 1;
        bool has_quoted_numbers = number_in() == 1;
        return borsh_to_json(schema.start, schema.length, value.start, value.length, is_compact, has_quoted_numbers, out);
    }
    if (strcmp(call, "from_json") == 0) {
        struct bytes schema = bytes_in();
        struct bytes json = bytes_in();
        return borsh_from_json(schema.start, schema.length, json.start, json.length, out);
    }
    if (strcmp(call, "records") == 0) {
        struct bytes schema = bytes_in();
        struct bytes bytes = bytes_in();
        size_t lengths = number_in();
        return borsh_records(schema.start, schema.length, bytes.start, bytes.length, numbers, lengths, number, out);
    }
    if (strcmp(call, "json_lines") == 0) {
        struct bytes schema = bytes_in();
        struct bytes values = bytes_in();
        size_t lengths = numbers_in();
        bool has_quoted_numbers = number_in() == 1;
        return borsh_json_lines(schema.start, schema.length, values.start, values.length, numbers, lengths, has_quoted_numbers, number, out);
    }
    if (strcmp(call, "compile") == 0) {
        struct bytes text = bytes_in();
        struct bytes type_text = bytes_in();
        return borsh_compile(text.start, text.length, type_text.start, type_text.length, out);
    }
    if (strcmp(call, "compare") == 0) {
        struct bytes old_schema = bytes_in();
        struct bytes new_schema = bytes_in();
        return borsh_compare(old_schema.start, old_schema.length, new_schema.start, new_schema.length, out);
    }
    /* tools/calls.py: end */
    exit(1);
}

int main(void) {
    char *line = NULL;
    size_t room = 0;
    while (getline(&line, &room, stdin) > 0) {
        size_t number = 0;
        struct borsh_buffer out;
        const char *call = strtok(line, " \n");
        uint32_t code = ask(call, &number, &out);
        printf("%u %zu ", code, number);
        if (out.has_offset)
            printf("%zu", out.offset);
        if (out.path != NULL)
            printf(":%zu+%zu", (size_t)(out.path - out.data), out.path_length);
        printf(" ");
        for (size_t i = 0; i < out.length; i++)
            printf("%02x", out.data[i]);
        for (size_t i = 0; i < number && strcmp(call, "records") == 0; i++)
            printf(" %zu", numbers[i]);
        puts("");
        borsh_free(&out);
    }
    free(line);
    return 0;
}
