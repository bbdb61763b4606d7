/* What the library for C answers of each case (cases.py): `answers FILE [CALLS]`. A line for each question: of the schema, of the schema
 * with one byte changed, of the value, and of the value with each byte changed in turn. With CALLS it prints instead how many bytes are
 * taken of the heap before and after so many calls. */
#include "borsh.h"

#include <malloc.h>
#include <stdio.h>
#include <stdlib.h>
#include <string.h>

struct bytes {
    uint8_t *data;
    size_t length;
};

static size_t calls = 0;
static FILE *answers;

/* The bytes that a word's digits are, in their own place. */
static struct bytes bytes_of(char *digits) {
    struct bytes bytes = {(uint8_t *)digits, 0};
    if (strcmp(digits, "-") == 0)
        return bytes;
    for (; digits[2 * bytes.length] != 0; bytes.length++) {
        char two[3] = {digits[2 * bytes.length], digits[2 * bytes.length + 1], 0};
        bytes.data[bytes.length] = (uint8_t)strtoul(two, NULL, 16);
    }
    return bytes;
}

/* Names that were changed may have characters that end a line, or part what is in it. */
static void print_plain(const uint8_t *text, size_t length) {
    for (size_t i = 0; i < length; i++)
        fputc(text[i] < 32 ? '?' : text[i], answers);
}

static void tell_refusal(uint32_t code, const struct borsh_buffer *text) {
    fprintf(answers, "%u|", code == BORSH_SHORT ? BORSH_NO : code);
    if (text->path != NULL)
        print_plain(text->path, text->path_length);
    fputc('|', answers);
    if (text->has_offset)
        fprintf(answers, "%zu", text->offset);
    fputc('|', answers);
    print_plain(text->data, text->length);
}

/* Tells a yes, or why not, before another answer. */
static void tell_verdict(uint32_t code, struct borsh_buffer *text) {
    if (code == BORSH_YES)
        fprintf(answers, "0");
    else
        tell_refusal(code, text);
    borsh_free(text);
    fputs(" ; ", answers);
}

/* Whether the bytes are a schema. */
static bool ask_schema(struct bytes schema) {
    struct borsh_buffer text;
    size_t size = 0;
    uint32_t code = borsh_valid(schema.data, schema.length, &text);
    tell_verdict(code, &text);
    code = borsh_size(schema.data, schema.length, &size, &text);
    if (code == BORSH_YES)
        fprintf(answers, "0 %zu", size);
    else
        tell_refusal(code, &text);
    borsh_free(&text);
    fputc('\n', answers);
    calls += 2;
    return code != BORSH_MALFORMED;
}

/* The container of a type by its text, and whether data of the old schema is still read by the new one. */
static void ask_types(struct bytes items, struct bytes type, struct bytes old, struct bytes new) {
    struct borsh_buffer out;
    uint32_t code = borsh_compile(items.data, items.length, type.data, type.length, &out);
    if (code == BORSH_YES)
        fputs("0 ", answers);
    else
        tell_refusal(code, &out);
    for (size_t i = 0; code == BORSH_YES && i < out.length; i++)
        fprintf(answers, "%02x", out.data[i]);
    borsh_free(&out);
    code = borsh_compare(old.data, old.length, new.data, new.length, &out);
    fprintf(answers, " ; %u ", code);
    print_plain(out.data, out.length);
    borsh_free(&out);
    fputc('\n', answers);
    calls += 2;
}

static void ask_value(struct bytes schema, struct bytes value) {
    struct borsh_buffer text, again;
    uint32_t code = borsh_member(schema.data, schema.length, value.data, value.length, &text);
    tell_verdict(code, &text);
    code = borsh_to_json(schema.data, schema.length, value.data, value.length, true, false, &text);
    if (code == BORSH_YES) {
        fwrite(text.data, 1, text.length, answers);
        code = borsh_from_json(schema.data, schema.length, text.data, text.length, &again);
        if (code == BORSH_YES && again.length == value.length && memcmp(again.data, value.data, value.length) == 0)
            fputs(" ; 0", answers);
        else
            tell_refusal(code, &again);
        borsh_free(&again);
    } else {
        tell_refusal(code, &text);
    }
    borsh_free(&text);
    fputc('\n', answers);
    calls += 3;
}

static void ask(char *line) {
    struct bytes schema = bytes_of(strtok(line, " \n"));
    size_t at = strtoul(strtok(NULL, " \n"), NULL, 10);
    uint8_t mask = (uint8_t)strtoul(strtok(NULL, " \n"), NULL, 10);
    struct bytes value = bytes_of(strtok(NULL, " \n"));
    struct bytes masks = bytes_of(strtok(NULL, " \n"));
    struct bytes items = bytes_of(strtok(NULL, " \n"));
    struct bytes type = bytes_of(strtok(NULL, " \n"));
    static uint8_t copy[1 << 12]; /* longer than any schema */
    struct bytes changed = {copy, schema.length};
    memcpy(copy, schema.data, schema.length);
    copy[at] ^= mask;
    ask_schema(schema);
    ask_types(items, type, schema, ask_schema(changed) ? changed : schema);
    ask_value(schema, value);
    for (size_t i = 0; i < value.length; i++) {
        value.data[i] ^= masks.data[i];
        ask_value(schema, value);
        value.data[i] ^= masks.data[i];
    }
}

int main(int count, char **words) {
    if (count < 2)
        return 2;
    size_t most = count > 2 ? strtoul(words[2], NULL, 10) : 0, before = 0;
    answers = most > 0 ? fopen("/dev/null", "w") : stdout;
    size_t room = 1 << 16; /* longer than any line */
    char *line = malloc(room);
    FILE *cases = fopen(words[1], "r");
    if (cases == NULL)
        return 2;
    for (;;) {
        if (getline(&line, &room, cases) <= 0) {
            if (most == 0)
                return 0;
            rewind(cases);
            continue;
        }
        ask(line);
        /* After the first calls all buffers of the C library itself are there. */
        if (most > 0 && before == 0 && calls >= most / 10) {
            calls = 0;
            before = mallinfo2().uordblks;
        }
        if (most > 0 && before > 0 && calls >= most) {
            printf("%zu %zu\n", before, mallinfo2().uordblks);
            return 0;
        }
    }
}
