/* Null pointers, and buffers that are freed twice. The exit status is the number of the first check that fails, or 0. */
#include "borsh.h"

#include <stdio.h>
#include <stdlib.h>
#include <string.h>

/* A container: `u8`, a byte. */
static const uint8_t byte[] = {2, 0, 0, 0, 'u', '8', 1, 0, 0, 0, 2, 0, 0, 0, 'u', '8', 0, 1};

/* Whether a call returned this code and this text, which is freed. */
static bool is(uint32_t code, uint32_t wanted, struct borsh_buffer *text, const char *says) {
    bool same = code == wanted && text->length == strlen(says) && strcmp((const char *)text->data, says) == 0;
    borsh_free(text);
    return same && text->length == 0 && text->block == NULL;
}

/* Ends the program unless a call was refused for a null pointer; `text` is null if that is the pointer. */
static void refuses(const char *what, uint32_t code, struct borsh_buffer *text) {
    if (code == BORSH_NULL && (text == NULL || is(code, BORSH_NULL, text, "null pointer")))
        return;
    printf("not refused where it is null: %s\n", what);
    exit(90);
}

/* Each pointer to an input whose length isn't 0, and to a result, is null in turn. */
static void check_null(void) {
    const size_t n = sizeof byte;
    size_t lengths[2] = {1, 2}, number = 0;
    struct borsh_buffer text;
    /* tools/calls.py writes: calls */
    refuses("borsh_valid, schema", borsh_valid(NULL, 1, &text), &text);
    refuses("borsh_valid, text", borsh_valid(byte, n, NULL), NULL);
    refuses("borsh_size, schema", borsh_size(NULL, 1, &number, &text), &text);
    refuses("borsh_size, size", borsh_size(byte, n, NULL, &text), &text);
    refuses("borsh_size, text", borsh_size(byte, n, &number, NULL), NULL);
    refuses("borsh_names, schema", borsh_names(NULL, 1, &text), &text);
    refuses("borsh_names, json", borsh_names(byte, n, NULL), NULL);
    refuses("borsh_member, schema", borsh_member(NULL, 1, byte, n, &text), &text);
    refuses("borsh_member, value", borsh_member(byte, n, NULL, 1, &text), &text);
    refuses("borsh_member, text", borsh_member(byte, n, byte, n, NULL), NULL);
    refuses("borsh_to_json, schema", borsh_to_json(NULL, 1, byte, n, false, false, &text), &text);
    refuses("borsh_to_json, value", borsh_to_json(byte, n, NULL, 1, false, false, &text), &text);
    refuses("borsh_to_json, json", borsh_to_json(byte, n, byte, n, false, false, NULL), NULL);
    refuses("borsh_from_json, schema", borsh_from_json(NULL, 1, byte, n, &text), &text);
    refuses("borsh_from_json, json", borsh_from_json(byte, n, NULL, 1, &text), &text);
    refuses("borsh_from_json, value", borsh_from_json(byte, n, byte, n, NULL), NULL);
    refuses("borsh_records, schema", borsh_records(NULL, 1, byte, n, lengths, 2, &number, &text), &text);
    refuses("borsh_records, bytes", borsh_records(byte, n, NULL, 1, lengths, 2, &number, &text), &text);
    refuses("borsh_records, lengths", borsh_records(byte, n, byte, n, NULL, 2, &number, &text), &text);
    refuses("borsh_records, count", borsh_records(byte, n, byte, n, lengths, 2, NULL, &text), &text);
    refuses("borsh_records, text", borsh_records(byte, n, byte, n, lengths, 2, &number, NULL), NULL);
    refuses("borsh_json_lines, schema", borsh_json_lines(NULL, 1, byte, n, lengths, 2, false, &number, &text), &text);
    refuses("borsh_json_lines, values", borsh_json_lines(byte, n, NULL, 1, lengths, 2, false, &number, &text), &text);
    refuses("borsh_json_lines, lengths", borsh_json_lines(byte, n, byte, n, NULL, 2, false, &number, &text), &text);
    refuses("borsh_json_lines, count", borsh_json_lines(byte, n, byte, n, lengths, 2, false, NULL, &text), &text);
    refuses("borsh_json_lines, lines", borsh_json_lines(byte, n, byte, n, lengths, 2, false, &number, NULL), NULL);
    refuses("borsh_compile, text", borsh_compile(NULL, 1, byte, n, &text), &text);
    refuses("borsh_compile, type_text", borsh_compile(byte, n, NULL, 1, &text), &text);
    refuses("borsh_compile, container", borsh_compile(byte, n, byte, n, NULL), NULL);
    refuses("borsh_compare, old_schema", borsh_compare(NULL, 1, byte, n, &text), &text);
    refuses("borsh_compare, new_schema", borsh_compare(byte, n, NULL, 1, &text), &text);
    refuses("borsh_compare, text", borsh_compare(byte, n, byte, n, NULL), NULL);
    /* tools/calls.py: end */
}

int main(void) {
    struct borsh_buffer text;
    size_t size = 7;
    const char *ends = "not a schema container: Unexpected length of input";
    const char *few = "no member: u8 (`u8` at byte 0): too few bytes are left";

    /* Null with length 0 is no bytes. */
    if (!is(borsh_valid(NULL, 0, &text), BORSH_MALFORMED, &text, ends)) return 1;
    if (!is(borsh_size(NULL, 0, &size, &text), BORSH_MALFORMED, &text, ends)) return 2;
    if (!is(borsh_member(byte, sizeof byte, NULL, 0, &text), BORSH_NO, &text, few)) return 3;
    if (!is(borsh_to_json(byte, sizeof byte, NULL, 0, true, false, &text), BORSH_NO, &text, few + strlen("no member: "))) return 4;
    if (borsh_from_json(byte, sizeof byte, NULL, 0, &text) != BORSH_NO) return 5;
    borsh_free(&text);

    /* A null pointer to a result changes no other. */
    if (borsh_valid(byte, sizeof byte, NULL) != BORSH_NULL) return 12;
    if (borsh_size(byte, sizeof byte, &size, NULL) != BORSH_NULL || size != 7) return 13;
    check_null();

    size_t lengths[2] = {1, 2}, count = 7;
    const size_t n = sizeof byte;
    if (!is(borsh_records(byte, n, NULL, 0, NULL, 0, &count, &text), BORSH_YES, &text, "") || count != 0) return 23;
    if (!is(borsh_json_lines(byte, n, NULL, 0, NULL, 0, false, &count, &text), BORSH_YES, &text, "") || count != 0) return 26;

    /* The lines up to a value that has none. */
    if (!is(borsh_json_lines(byte, n, byte, 3, lengths, 2, false, &count, &text), BORSH_YES, &text, "2\n") || count != 1) return 32;
    if (borsh_json_lines(byte, n, byte, 3, lengths + 1, 1, false, &count, &text) != BORSH_NO || count != 0) return 33;
    borsh_free(&text);
    if (!is(borsh_records(byte, n, byte, n, lengths, 2, &count, &text), BORSH_YES, &text, "")) return 34;
    if (count != 2 || lengths[0] != 1 || lengths[1] != 1) return 35;

    /* A type without items, and containers compared. */
    const uint8_t u8[] = {'u', '8'};
    if (borsh_compile(NULL, 0, u8, sizeof u8, &text) != BORSH_YES || text.length != n || memcmp(text.data, byte, n) != 0) return 40;
    borsh_free(&text);
    if (!is(borsh_compile(NULL, 0, NULL, 0, &text), BORSH_NO, &text, "type: line 1, column 1: the text ends, expected a type")) return 41;
    if (!is(borsh_compare(byte, n, byte, n, &text), BORSH_YES, &text, "the same: the two schemas have the same values, with the same JSON\n")) return 42;
    if (!is(borsh_compare(byte, n, NULL, 0, &text), BORSH_MALFORMED, &text, "new: not a schema container: Unexpected length of input")) return 43;

    /* A buffer may be freed twice, and a null pointer be freed. */
    if (!is(borsh_size(byte, sizeof byte, &size, &text), BORSH_YES, &text, "") || size != 1) return 14;
    borsh_free(&text);
    borsh_free(&text);
    borsh_free(NULL);

    /* JSON that is longer than the first room. */
    static uint8_t list[4096 + 4] = {0, 16, 0, 0};
    static const uint8_t bools[] = {6,   0,   0, 0, 'V', 'e', 'c', '<', 'b', '>', 2, 0, 0, 0, 6, 0, 0, 0, 'V', 'e', 'c', '<', 'b', '>', 1,
                                    4,   0,   0, 0, 0,   0,   0,   0,   0,   255, 255, 255, 255, 0, 0, 0, 0, 4, 0, 0, 0, 'b', 'o', 'o', 'l',
                                    4,   0,   0, 0, 'b', 'o', 'o', 'l', 0,   1};
    if (borsh_to_json(bools, sizeof bools, list, sizeof list, true, false, &text) != BORSH_YES) return 15;
    if (text.length != 4096 * 6 + 1 || text.data[0] != '[' || text.data[text.length - 1] != ']') return 16;
    struct borsh_buffer again;
    if (borsh_from_json(bools, sizeof bools, text.data, text.length, &again) != BORSH_YES) return 17;
    if (again.length != sizeof list || memcmp(again.data, list, sizeof list) != 0) return 18;
    borsh_free(&again);
    borsh_free(&text);
    return 0;
}
