/* native SCHEMA VALUE JSON TIMES: the least microseconds of `borsh_member`, `borsh_to_json` and `borsh_from_json` of the C library, in that
 * order; each file is read first. The exit status is 1 if a call refuses. */
#include "borsh.h"

#include <stdio.h>
#include <stdlib.h>
#include <time.h>

struct bytes {
    uint8_t *data;
    size_t length;
};

static struct bytes read_file(const char *name) {
    FILE *file = fopen(name, "rb");
    struct bytes it = {NULL, 0};
    if (file == NULL || fseek(file, 0, SEEK_END) != 0)
        exit(1);
    it.length = (size_t)ftell(file);
    it.data = malloc(it.length + 1);
    rewind(file);
    if (it.data == NULL || fread(it.data, 1, it.length, file) != it.length)
        exit(1);
    fclose(file);
    return it;
}

static double now(void) {
    struct timespec time;
    clock_gettime(CLOCK_MONOTONIC, &time);
    return (double)time.tv_sec * 1e6 + (double)time.tv_nsec / 1e3;
}

static uint32_t call(int which, struct bytes schema, struct bytes value, struct bytes json, struct borsh_buffer *out) {
    if (which == 0)
        return borsh_member(schema.data, schema.length, value.data, value.length, out);
    if (which == 1)
        return borsh_to_json(schema.data, schema.length, value.data, value.length, true, true, out);
    return borsh_from_json(schema.data, schema.length, json.data, json.length, out);
}

int main(int count, char **words) {
    if (count != 5)
        return 1;
    struct bytes schema = read_file(words[1]), value = read_file(words[2]), json = read_file(words[3]);
    for (int which = 0; which < 3; which++) {
        double least = 1e30;
        for (int i = atoi(words[4]); i > 0; i--) {
            struct borsh_buffer out;
            double start = now();
            if (call(which, schema, value, json, &out) != BORSH_YES)
                return 1;
            borsh_free(&out);
            double taken = now() - start;
            least = taken < least ? taken : least;
        }
        printf("%.1f\n", least);
    }
    return 0;
}
