/* Times the calls for C of one column, beside which library.py times the package.
 *
 *     library TYPE ROWS REPEATS VALUES [VALID]
 *
 * VALUES is a file of ROWS integers of the TYPE i32, i64 or u32, VALID one of a byte for each row, 0 where it is null. It prints a
 * line `CALL MICROSECONDS BYTES` for each call and repeat, by the clock of the process: `compress`, whose bytes are those of the
 * tree, `store` and `open` of its file, and `decode` into buffers of its own, as zeros, with the bytes of the values.
 */
#include <inttypes.h>
#include <stdio.h>
#include <stdlib.h>
#include <string.h>
#include <time.h>

#include "nuvaike.h"

static void stop(const char *why)
{
    fprintf(stderr, "library: %s\n", why);
    exit(1);
}

static void done(uint8_t status, const char *call)
{
    if (status != NUVAIKE_DONE) {
        stop(call);
    }
}

static int64_t micros(void)
{
    struct timespec now;
    clock_gettime(CLOCK_PROCESS_CPUTIME_ID, &now);
    return (int64_t)now.tv_sec * 1000000 + now.tv_nsec / 1000;
}

static void tell(const char *call, int64_t begin, uint64_t bytes)
{
    printf("%s %" PRId64 " %" PRIu64 "\n", call, micros() - begin, bytes);
}

static void *zeros(size_t count, size_t width)
{
    void *place = calloc(count ? count : 1, width);
    if (place == NULL) {
        stop("no memory");
    }
    return place;
}

static void *contents(const char *path, size_t bytes)
{
    void *place = zeros(bytes, 1);
    FILE *file = fopen(path, "rb");
    if (file == NULL || fread(place, 1, bytes, file) != bytes) {
        stop("a file is missing or too short");
    }
    fclose(file);
    return place;
}

/* A column in memory. */
struct column {
    char type;              /* 'i' for i32, 'l' for i64, 'u' for u32 */
    size_t width;
    size_t rows;
    void *values;
    uint8_t *valid;         /* NULL: no row is null */
};

static void compress(const struct column *in, struct nuvaike_tree *out)
{
    uint64_t word = 0, bytes = 0;
    uint8_t form = in->valid ? NUVAIKE_BYTES : NUVAIKE_ALL_VALID;
    size_t bits = in->valid ? in->rows : 0;
    int64_t begin = micros();
    uint8_t status = in->type == 'i'   ? nuvaike_compress_i32(in->values, in->rows, form, in->valid, bits, 0, &word, 1, out)
                     : in->type == 'l' ? nuvaike_compress_i64(in->values, in->rows, form, in->valid, bits, 0, &word, 1, out)
                                       : nuvaike_compress_u32(in->values, in->rows, form, in->valid, bits, 0, &word, 1, out);
    done(status, "compress");
    done(nuvaike_nbytes(out, &bytes), "nbytes");
    tell("compress", begin, bytes);
}

static void decode(const struct column *in, struct nuvaike_tree *tree)
{
    int64_t begin = micros();
    void *out = zeros(in->rows, in->width);
    bool *valid = zeros(in->rows, 1);
    uint8_t status = in->type == 'i'   ? nuvaike_decode_i32(tree, out, in->rows, valid, in->rows)
                     : in->type == 'l' ? nuvaike_decode_i64(tree, out, in->rows, valid, in->rows)
                                       : nuvaike_decode_u32(tree, out, in->rows, valid, in->rows);
    done(status, "decode");
    tell("decode", begin, in->rows * in->width);
    for (size_t row = 0; row < in->rows; row++) {
        bool is_valid = in->valid == NULL || in->valid[row] != 0;
        const char *left = (const char *)out + row * in->width, *right = (const char *)in->values + row * in->width;
        if (valid[row] != is_valid || (is_valid && memcmp(left, right, in->width) != 0)) {
            stop("a row comes back as another one");
        }
    }
    free(out);
    free(valid);
}

static void store_and_open(struct nuvaike_tree *tree)
{
    uint64_t size = 0;
    struct nuvaike_tree again = {0};
    uint8_t status = nuvaike_store(tree, NULL, 0, &size);
    if (status != NUVAIKE_BUFFER_LENGTH) {
        stop("store");
    }
    uint8_t *file = zeros(size, 1);
    int64_t begin = micros();
    done(nuvaike_store(tree, file, size, &size), "store");
    tell("store", begin, size);
    begin = micros();
    done(nuvaike_open(file, size, &again), "open");
    tell("open", begin, size);
    nuvaike_free(&again);
    free(file);
}

int main(int count, char **words)
{
    if (count != 5 && count != 6) {
        stop("TYPE ROWS REPEATS VALUES [VALID]");
    }
    struct column in = {.rows = strtoull(words[2], NULL, 10)};
    in.type = strcmp(words[1], "i32") == 0 ? 'i' : strcmp(words[1], "i64") == 0 ? 'l' : 'u';
    in.width = in.type == 'l' ? 8 : 4;
    in.values = contents(words[4], in.rows * in.width);
    in.valid = count == 6 ? contents(words[5], in.rows) : NULL;
    for (long repeat = strtol(words[3], NULL, 10); repeat > 0; repeat--) {
        struct nuvaike_tree tree = {0};
        compress(&in, &tree);
        store_and_open(&tree);
        decode(&in, &tree);
        nuvaike_free(&tree);
    }
    free(in.values);
    free(in.valid);
    return 0;
}
