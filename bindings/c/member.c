/* What the library says of a container, and of bytes by it: `member SCHEMA VALUE`, two files. The exit status is 0 if the
 * bytes are a value, 1 if not, 2 if a file can't be read. */
#include "borsh.h"

#include <stdio.h>
#include <stdlib.h>

struct file {
    uint8_t *bytes;
    size_t length;
};

/* Reads a file into memory; on failure says so and ends the program. */
static struct file file_at(const char *path) {
    struct file file = {NULL, 0};
    FILE *input = fopen(path, "rb");
    while (input != NULL) {
        uint8_t *grown = realloc(file.bytes, file.length + 4096);
        if (grown == NULL)
            break;
        file.bytes = grown;
        size_t count = fread(file.bytes + file.length, 1, 4096, input);
        file.length += count;
        if (count == 0 && !ferror(input)) {
            fclose(input);
            return file;
        }
        if (count == 0)
            break;
    }
    fprintf(stderr, "%s: can't be read\n", path);
    exit(2);
}

static void print_text(const char *call, uint32_t code, const struct borsh_buffer *text) {
    printf("%s: %u%s%s\n", call, (unsigned)code, text->length == 0 ? "" : " ", (const char *)text->data);
    if (text->path != NULL)
        printf("place: %.*s", (int)text->path_length, (const char *)text->path);
    if (text->has_offset)
        printf(" at byte %zu", text->offset);
    if (text->path != NULL || text->has_offset)
        printf("\n");
}

static void print_bytes(const char *call, uint32_t code, const struct borsh_buffer *bytes) {
    printf("%s: %u%s", call, (unsigned)code, bytes->length == 0 ? "" : " ");
    for (size_t i = 0; i < bytes->length; i++)
        printf("%02x", bytes->data[i]);
    printf("\n");
}

/* The value as JSON, and the bytes of that JSON. */
static void print_json(const struct file *schema, const struct file *value) {
    struct borsh_buffer json, again;
    uint32_t code = borsh_to_json(schema->bytes, schema->length, value->bytes, value->length, true, false, &json);
    print_text("to_json", code, &json);
    if (code == BORSH_YES) {
        code = borsh_from_json(schema->bytes, schema->length, json.data, json.length, &again);
        if (code == BORSH_YES)
            print_bytes("from_json", code, &again);
        else
            print_text("from_json", code, &again);
        borsh_free(&again);
    }
    borsh_free(&json);
}

int main(int count, char **words) {
    if (count != 3) {
        fprintf(stderr, "member SCHEMA VALUE\n");
        return 2;
    }
    struct file schema = file_at(words[1]);
    struct file value = file_at(words[2]);
    struct borsh_buffer text;

    uint32_t code = borsh_valid(schema.bytes, schema.length, &text);
    print_text("valid", code, &text);
    borsh_free(&text);

    size_t size = 0;
    code = borsh_size(schema.bytes, schema.length, &size, &text);
    print_text("size", code, &text);
    borsh_free(&text);
    if (code == BORSH_YES)
        printf("%zu bytes at most\n", size);

    uint32_t is_member = borsh_member(schema.bytes, schema.length, value.bytes, value.length, &text);
    print_text("member", is_member, &text);
    borsh_free(&text);

    print_json(&schema, &value);
    free(schema.bytes);
    free(value.bytes);
    return is_member == BORSH_YES ? 0 : 1;
}
