/* The calls of `borsh.h`, over the proved functions of `crates/borsh_c`.
 *
 * This file isn't proved. It takes null pointers, which a proved function can't, and allocates the buffers: a proved
 * function writes into a room that it is lent, and says how many bytes it has to give. If the room is too small, the call is
 * made again with a room of that size. */
#include "borsh.h"

#include <stdlib.h>

/* Where a refusal is: `Place` of `crates/borsh_c`. The path is a part of the text. */
struct place {
    bool has_offset;
    bool has_path;
    size_t offset;
    size_t path_start;
    size_t path_length;
};

/* The functions of `crates/borsh_c`. No pointer may be null. */
/* tools/calls.py writes: functions */
uint32_t borsh_c_valid(const uint8_t *schema, size_t schema_length, uint8_t *room, size_t room_length, size_t *needed);
uint32_t borsh_c_size(const uint8_t *schema, size_t schema_length, size_t *size,
                      uint8_t *room, size_t room_length, size_t *needed);
uint32_t borsh_c_names(const uint8_t *schema, size_t schema_length, uint8_t *room, size_t room_length, size_t *needed);
uint32_t borsh_c_member(const uint8_t *schema, size_t schema_length, const uint8_t *value, size_t value_length,
                        struct place *place, uint8_t *room, size_t room_length, size_t *needed);
uint32_t borsh_c_to_json(const uint8_t *schema, size_t schema_length, const uint8_t *value, size_t value_length,
                         bool is_compact, bool has_quoted_numbers, struct place *place,
                         uint8_t *room, size_t room_length, size_t *needed);
uint32_t borsh_c_from_json(const uint8_t *schema, size_t schema_length, const uint8_t *json, size_t json_length,
                           struct place *place, uint8_t *room, size_t room_length, size_t *needed);
uint32_t borsh_c_records(const uint8_t *schema, size_t schema_length, const uint8_t *bytes, size_t bytes_length,
                         size_t *lengths, size_t lengths_room, size_t *count, struct place *place,
                         uint8_t *room, size_t room_length, size_t *needed);
uint32_t borsh_c_json_lines(const uint8_t *schema, size_t schema_length, const uint8_t *values, size_t values_length,
                            const size_t *lengths, size_t lengths_count, bool has_quoted_numbers, size_t *count,
                            struct place *place, uint8_t *room, size_t room_length, size_t *needed);
uint32_t borsh_c_compile(const uint8_t *text, size_t text_length, const uint8_t *type_text, size_t type_text_length,
                         struct place *place, uint8_t *room, size_t room_length, size_t *needed);
uint32_t borsh_c_compare(const uint8_t *old_schema, size_t old_schema_length,
                         const uint8_t *new_schema, size_t new_schema_length,
                         uint8_t *room, size_t room_length, size_t *needed);
/* tools/calls.py: end */

/* How many inputs and flags a call has at most. */
/* tools/calls.py writes: most */
enum { MOST_BYTES = 2, MOST_FLAGS = 2 };
/* tools/calls.py: end */

struct bytes {
    const uint8_t *start;
    size_t length;
};

struct question;

/* What makes a call of the library, with the question's arguments, has these. */
#define ASKED struct question *q, struct place *place, uint8_t *room, size_t room_length, size_t *needed

/* What is asked; what the call isn't given is zero. */
struct question {
    uint32_t (*call)(ASKED);
    struct bytes bytes[MOST_BYTES];
    bool flags[MOST_FLAGS];
    size_t *numbers;
    size_t numbers_count;
    /* What the call writes beside its text. */
    size_t number;
    /* One more than which of the inputs tells how long the answer is about, or 0 where it is short. */
    size_t long_of;
};

static const uint8_t nothing[1] = {0};

void borsh_free(struct borsh_buffer *buffer) {
    if (buffer == NULL)
        return;
    free(buffer->block);
    *buffer = (struct borsh_buffer){.data = nothing};
}

/* An error that the proved functions don't have. Its text isn't allocated. */
static uint32_t fail(uint32_t code, const char *text, size_t length, struct borsh_buffer *out) {
    if (out != NULL)
        *out = (struct borsh_buffer){.data = (const uint8_t *)text, .length = length};
    return code;
}

#define FAIL(code, text, out) fail((code), (text), sizeof(text) - 1, (out))

/* Whether a pointer is null that may not be. Where no bytes and no numbers are, there is then one that isn't. */
static bool has_null(struct question *q) {
    static size_t no_number = 0;
    for (size_t i = 0; i < MOST_BYTES; i++) {
        if (q->bytes[i].start == NULL && q->bytes[i].length != 0)
            return true;
        if (q->bytes[i].start == NULL)
            q->bytes[i].start = nothing;
    }
    if (q->numbers == NULL && q->numbers_count != 0)
        return true;
    if (q->numbers == NULL)
        q->numbers = &no_number;
    return false;
}

/* A first room, in which most answers fit. */
static size_t first_room(const struct question *q) {
    size_t length = q->long_of == 0 ? 0 : q->bytes[q->long_of - 1].length;
    return length < SIZE_MAX / 8 ? 4 * length + 256 : 256;
}

static uint32_t ask(struct question *q, struct borsh_buffer *out) {
    if (out == NULL || has_null(q))
        return FAIL(BORSH_NULL, "null pointer", out);
    size_t room_length = first_room(q);
    /* A call whose answer doesn't fit asks for a larger room, and no answer to a question is longer than a certain one: so one fits. */
    while (room_length < SIZE_MAX) {
        uint8_t *room = calloc(room_length + 1, 1);
        if (room == NULL)
            break;
        size_t needed = 0;
        struct place place = {false, false, 0, 0, 0};
        uint32_t code = q->call(q, &place, room, room_length, &needed);
        if (needed <= room_length) {
            room[needed] = 0;
            *out = (struct borsh_buffer){.data = room, .length = needed, .block = room};
            out->path = place.has_path ? room + place.path_start : NULL;
            out->path_length = place.path_length;
            out->has_offset = place.has_offset;
            out->offset = place.offset;
            return code;
        }
        free(room);
        room_length = needed;
    }
    return FAIL(BORSH_OUT_OF_MEMORY, "out of memory", out);
}

/* The same where the call writes a number, which after another code than BORSH_YES is unchanged, or 0 if it is a count. */
static uint32_t ask_number(struct question *q, size_t *number, bool is_count, struct borsh_buffer *out) {
    if (number == NULL)
        return FAIL(BORSH_NULL, "null pointer", out);
    uint32_t code = ask(q, out);
    if (code == BORSH_YES)
        *number = q->number;
    else if (is_count)
        *number = 0;
    return code;
}

/* tools/calls.py writes: calls */
static uint32_t call_valid(ASKED) {
    (void)place;
    return borsh_c_valid(q->bytes[0].start, q->bytes[0].length, room, room_length, needed);
}

uint32_t borsh_valid(const uint8_t *schema, size_t schema_length, struct borsh_buffer *text) {
    struct question q = {.call = call_valid, .bytes = {{schema, schema_length}}};
    return ask(&q, text);
}

static uint32_t call_size(ASKED) {
    (void)place;
    return borsh_c_size(q->bytes[0].start, q->bytes[0].length, &q->number, room, room_length, needed);
}

uint32_t borsh_size(const uint8_t *schema, size_t schema_length, size_t *size, struct borsh_buffer *text) {
    struct question q = {.call = call_size, .bytes = {{schema, schema_length}}};
    return ask_number(&q, size, false, text);
}

static uint32_t call_names(ASKED) {
    (void)place;
    return borsh_c_names(q->bytes[0].start, q->bytes[0].length, room, room_length, needed);
}

uint32_t borsh_names(const uint8_t *schema, size_t schema_length, struct borsh_buffer *json) {
    struct question q = {.call = call_names, .bytes = {{schema, schema_length}}, .long_of = 1};
    return ask(&q, json);
}

static uint32_t call_member(ASKED) {
    return borsh_c_member(q->bytes[0].start, q->bytes[0].length, q->bytes[1].start, q->bytes[1].length, place, room,
                          room_length, needed);
}

uint32_t borsh_member(const uint8_t *schema, size_t schema_length, const uint8_t *value, size_t value_length,
                      struct borsh_buffer *text) {
    struct question q = {.call = call_member, .bytes = {{schema, schema_length}, {value, value_length}}};
    return ask(&q, text);
}

static uint32_t call_to_json(ASKED) {
    return borsh_c_to_json(q->bytes[0].start, q->bytes[0].length, q->bytes[1].start, q->bytes[1].length, q->flags[0],
                           q->flags[1], place, room, room_length, needed);
}

uint32_t borsh_to_json(const uint8_t *schema, size_t schema_length, const uint8_t *value, size_t value_length,
                       bool is_compact, bool has_quoted_numbers, struct borsh_buffer *json) {
    struct question q = {
        .call = call_to_json,
        .bytes = {{schema, schema_length}, {value, value_length}},
        .flags = {is_compact, has_quoted_numbers},
        .long_of = 2,
    };
    return ask(&q, json);
}

static uint32_t call_from_json(ASKED) {
    return borsh_c_from_json(q->bytes[0].start, q->bytes[0].length, q->bytes[1].start, q->bytes[1].length, place, room,
                             room_length, needed);
}

uint32_t borsh_from_json(const uint8_t *schema, size_t schema_length, const uint8_t *json, size_t json_length,
                         struct borsh_buffer *value) {
    struct question q = {.call = call_from_json, .bytes = {{schema, schema_length}, {json, json_length}}, .long_of = 2};
    return ask(&q, value);
}

static uint32_t call_records(ASKED) {
    return borsh_c_records(q->bytes[0].start, q->bytes[0].length, q->bytes[1].start, q->bytes[1].length, q->numbers,
                           q->numbers_count, &q->number, place, room, room_length, needed);
}

uint32_t borsh_records(const uint8_t *schema, size_t schema_length, const uint8_t *bytes, size_t bytes_length,
                       size_t *lengths, size_t lengths_room, size_t *count, struct borsh_buffer *text) {
    struct question q = {
        .call = call_records,
        .bytes = {{schema, schema_length}, {bytes, bytes_length}},
        .numbers = lengths,
        .numbers_count = lengths_room,
    };
    return ask_number(&q, count, true, text);
}

static uint32_t call_json_lines(ASKED) {
    return borsh_c_json_lines(q->bytes[0].start, q->bytes[0].length, q->bytes[1].start, q->bytes[1].length, q->numbers,
                              q->numbers_count, q->flags[0], &q->number, place, room, room_length, needed);
}

uint32_t borsh_json_lines(const uint8_t *schema, size_t schema_length, const uint8_t *values, size_t values_length,
                          const size_t *lengths, size_t lengths_count, bool has_quoted_numbers, size_t *count,
                          struct borsh_buffer *lines) {
    struct question q = {
        .call = call_json_lines,
        .bytes = {{schema, schema_length}, {values, values_length}},
        .numbers = (size_t *)lengths,
        .numbers_count = lengths_count,
        .flags = {has_quoted_numbers},
        .long_of = 2,
    };
    return ask_number(&q, count, true, lines);
}

static uint32_t call_compile(ASKED) {
    return borsh_c_compile(q->bytes[0].start, q->bytes[0].length, q->bytes[1].start, q->bytes[1].length, place, room,
                           room_length, needed);
}

uint32_t borsh_compile(const uint8_t *text, size_t text_length, const uint8_t *type_text, size_t type_text_length,
                       struct borsh_buffer *container) {
    struct question q = {.call = call_compile, .bytes = {{text, text_length}, {type_text, type_text_length}}, .long_of = 1};
    return ask(&q, container);
}

static uint32_t call_compare(ASKED) {
    (void)place;
    return borsh_c_compare(q->bytes[0].start, q->bytes[0].length, q->bytes[1].start, q->bytes[1].length, room, room_length,
                           needed);
}

uint32_t borsh_compare(const uint8_t *old_schema, size_t old_schema_length,
                       const uint8_t *new_schema, size_t new_schema_length, struct borsh_buffer *text) {
    struct question q = {.call = call_compare, .bytes = {{old_schema, old_schema_length}, {new_schema, new_schema_length}}};
    return ask(&q, text);
}
/* tools/calls.py: end */
