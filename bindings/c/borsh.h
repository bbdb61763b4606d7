/* The Borsh library for C: what an encoded schema container says, and what bytes mean by it.
 *
 * A container is given by its encoding, as `to_vec` of a `BorshSchemaContainer` makes it, in Rust or in Rattle.
 *
 * Each call returns one of the codes below and fills a buffer, which `borsh_free` frees whatever the code was:
 * after BORSH_YES with what was asked for, after any other code with a text that says why.
 *
 *     struct borsh_buffer text;
 *     if (borsh_member(schema, schema_length, value, value_length, &text) != BORSH_YES)
 *         fprintf(stderr, "%s\n", (const char *)text.data);
 *     borsh_free(&text);
 *
 * No call ends the process, whatever bytes it is given. Input is a pointer and a length; with length 0 the pointer may be
 * null. Calls share nothing, so any thread may make them. They must not be made from a signal handler, or from
 * the forked child of a process with threads. */
#ifndef BORSH_H
#define BORSH_H

#include <stdbool.h>
#include <stddef.h>
#include <stdint.h>

#ifdef __cplusplus
extern "C" {
#endif

/* tools/calls.py writes: codes */
enum borsh_code {
    /* Yes; the buffer has what was asked for. */
    BORSH_YES = 0,
    /* No: the container breaks a rule or has no size, the bytes are no value, the JSON says none, the type has no container, or
     * the new schema hasn't all values of the old one. */
    BORSH_NO = 1,
    /* The bytes of the schema aren't the encoding of a container. */
    BORSH_MALFORMED = 2,
    /* An allocation failed. */
    BORSH_OUT_OF_MEMORY = 3,
    /* A pointer is null: that of an input whose length isn't 0, or that of a result. */
    BORSH_NULL = 4,
    /* The container allows two values for the same bytes, or breaks a rule of widths, so it has no answer; of `borsh_compare`:
     * neither answer was found. */
    BORSH_UNDECIDED = 5,
    /* The bytes end within a value, of which more bytes may make one: of `borsh_records` alone. */
    BORSH_SHORT = 6,
};
/* tools/calls.py: end */

struct borsh_buffer {
    /* Never null after a call, and behind the last byte is a zero byte that isn't counted. */
    const uint8_t *data;
    size_t length;
    /* After BORSH_NO or BORSH_SHORT of a call about values: the path of the part that the text is about, as `A.y[3]`, which lies in `data`, or null;
     * of `borsh_compile`: the input that is wrong, `text` or `type`. */
    const uint8_t *path;
    size_t path_length;
    /* If `has_offset`, the byte at which the value has no such part, or near which the JSON is wrong, or which is wrong in that input. */
    size_t offset;
    bool has_offset;
    /* What `borsh_free` frees. */
    void *block;
};

/* Frees a buffer that a call filled, and empties it. A null pointer and an empty buffer are taken. */
void borsh_free(struct borsh_buffer *buffer);

/* tools/calls.py writes: calls */
/* Whether the container keeps the rules of schemas. After BORSH_NO the text is `invalid`, the rule and a name. */
uint32_t borsh_valid(const uint8_t *schema, size_t schema_length, struct borsh_buffer *text);

/* The greatest size of the container's root, in `*size`, which otherwise is unchanged; no encoding is longer. After BORSH_NO the
 * text is `overflow`, `recursive`, or `missing` and a name. */
uint32_t borsh_size(const uint8_t *schema, size_t schema_length, size_t *size, struct borsh_buffer *text);

/* How the values of each name that the root leads to are written as JSON: a JSON object in UTF-8, with a member for each, that
 * of the root first. It is a word: `empty` (no bytes, `null`), `bool`, `number`, `signed number`, `float`, `bytes` (another
 * primitive), `text`, `byte list`, `list`, `map` (an object), `row` (an array of so many), `newtype` (what its part is),
 * `object`, `option` (`null`, or its value), `enum`, or `refused`, of which JSON says no value. `sorted byte list` and `sorted
 * list` are sets and maps, if an order of their keys is told, but for parts of these. BORSH_NO isn't returned. */
uint32_t borsh_names(const uint8_t *schema, size_t schema_length, struct borsh_buffer *json);

/* Whether all of the bytes are a value of the root. After BORSH_NO the text says where they stop being one, and why; so do
 * `path` and `offset`. */
uint32_t borsh_member(const uint8_t *schema, size_t schema_length, const uint8_t *value, size_t value_length,
                      struct borsh_buffer *text);

/* The value that all of the bytes are as JSON, in UTF-8: on one line if `is_compact`, and with numbers of 64 bits as strings if
 * `has_quoted_numbers`. */
uint32_t borsh_to_json(const uint8_t *schema, size_t schema_length, const uint8_t *value, size_t value_length,
                       bool is_compact, bool has_quoted_numbers, struct borsh_buffer *json);

/* The bytes of the value that JSON says, which is UTF-8. */
uint32_t borsh_from_json(const uint8_t *schema, size_t schema_length, const uint8_t *json, size_t json_length,
                         struct borsh_buffer *value);

/* Values one after another, as in a file: how long each of them is that the bytes begin with. This call and the next one decode
 * the schema once, so that many values cost little more than their bytes.
 *
 * The lengths of as many values as are whole are written to `lengths`, at most `lengths_room` of them, and how many those are to
 * `*count`. Each has at least one byte, and no other bytes could be that value, whatever follows. After BORSH_YES there are
 * some, unless there are no bytes or no room for a length; what is behind them is for another call, which says what is wrong
 * with it. After any other code `*count` is 0, and
 * - BORSH_SHORT says that the bytes end within the first value: read on, and call again;
 * - BORSH_NO says that they begin with no value, whatever bytes follow, or that a value may be empty, so that they may be any
 *   number of values. */
uint32_t borsh_records(const uint8_t *schema, size_t schema_length, const uint8_t *bytes, size_t bytes_length,
                       size_t *lengths, size_t lengths_room, size_t *count, struct borsh_buffer *text);

/* The JSON of each of the values that have these lengths and lie one after another at `values`, as of `borsh_to_json` on one
 * line, and a line end behind each. It stops before a value that has no JSON: `*count` is how many have a line. After BORSH_NO
 * and BORSH_UNDECIDED the first has none, and `*count` is 0. A length that reaches beyond the bytes is cut. */
uint32_t borsh_json_lines(const uint8_t *schema, size_t schema_length, const uint8_t *values, size_t values_length,
                          const size_t *lengths, size_t lengths_count, bool has_quoted_numbers, size_t *count,
                          struct borsh_buffer *lines);

/* The encoded container of a type, which `type_text` names in Rust's words, as `Vec<Account>`. `text` has the items that it may
 * name: Rust source text, an Anchor IDL, or a schema object of borsh-js, whose own type is named `Schema`; it may be empty. Both
 * are UTF-8. After BORSH_NO the text says what is wrong, as the tool does, behind `text` or `type`, which `path` is; `offset` is
 * the byte of that input, where it is known. The container keeps the rules of schemas. */
uint32_t borsh_compile(const uint8_t *text, size_t text_length, const uint8_t *type_text, size_t type_text_length,
                       struct borsh_buffer *container);

/* Whether each value of the old schema is a value of the new one, by the definitions alone. The text is what the tool prints: a
 * line with `the same`, `compatible`, `incompatible` or `not known`, and what changed. BORSH_YES says that each is, BORSH_NO
 * that one is not, whose bytes the text has, and BORSH_UNDECIDED that neither was found. After BORSH_MALFORMED the text begins
 * with `old` or `new`. */
uint32_t borsh_compare(const uint8_t *old_schema, size_t old_schema_length,
                       const uint8_t *new_schema, size_t new_schema_length, struct borsh_buffer *text);
/* tools/calls.py: end */

#ifdef __cplusplus
}
#endif

#endif
