/* A column of readings with nulls: compressed, listed, stored, opened again and decoded. Ends with 0 where all of it came back.
 *
 *     c/link out && cc -Ic c/example.c out/libnuvaike.so -Wl,-rpath,$PWD/out -o example && ./example [FILE]
 *
 * With FILE it also writes the column's file there, which `vx show` and `vx rows` read. */
#include "nuvaike.h"

#include <inttypes.h>
#include <stdio.h>
#include <stdlib.h>
#include <string.h>

#define ROWS 100000

/* Ends the program where a call is refused. */
static void done(const char *call, uint8_t status)
{
    if (status != NUVAIKE_DONE) {
        fprintf(stderr, "%s: status %d\n", call, status);
        exit(1);
    }
}

static void *block(size_t count, size_t size)
{
    void *made = calloc(count ? count : 1, size);
    if (made == NULL) {
        fprintf(stderr, "no memory\n");
        exit(1);
    }
    return made;
}

/* The bytes that a call hands out: their number first, then into a place of that length. */
static uint8_t *bytes_of(uint8_t (*call)(struct nuvaike_tree *, uint8_t *, size_t, uint64_t *), struct nuvaike_tree *tree, uint64_t *count)
{
    *count = 0;
    uint8_t status = call(tree, NULL, 0, count);
    if (status != NUVAIKE_BUFFER_LENGTH)
        done("length", status);
    uint8_t *place = block(*count, 1);
    done("bytes", call(tree, place, *count, count));
    return place;
}

static void write_file(const char *path, const uint8_t *bytes, uint64_t count)
{
    FILE *file = fopen(path, "wb");
    if (file == NULL || fwrite(bytes, 1, count, file) != count || fclose(file) != 0) {
        fprintf(stderr, "%s isn't written\n", path);
        exit(1);
    }
}

/* The number of rows that came back otherwise than they were given. */
static size_t differences(struct nuvaike_tree *tree, const int64_t *rows, const uint8_t *bitmap, uint64_t offset)
{
    int64_t *back = block(ROWS, sizeof *back);
    bool *valid = block(ROWS, sizeof *valid);
    size_t wrong = 0;
    done("decode", nuvaike_decode_i64(tree, back, ROWS, valid, ROWS));
    for (size_t row = 0; row < ROWS; row++) {
        bool there = bitmap[(offset + row) / 8] >> (offset + row) % 8 & 1;
        wrong += valid[row] != there || back[row] != (there ? rows[row] : 0);
    }
    free(back);
    free(valid);
    return wrong;
}

/* What is refused, by its status; the handle must stay as it is. */
static int refusals(struct nuvaike_tree *tree, const int64_t *rows)
{
    uint64_t word = 0, before = 0, after = 0;
    int64_t one = 5;
    bool valid = false;
    done("rows", nuvaike_rows(tree, &before));
    int wrong = nuvaike_compress_i64(rows, 3, NUVAIKE_ALL_VALID, NULL, 0, 0, NULL, 0, tree) != NUVAIKE_NO_WORDS;
    wrong += nuvaike_compress_i64(rows, 3, NUVAIKE_BYTES, (const uint8_t *)"\1\1", 2, 0, &word, 1, tree) != NUVAIKE_VALIDITY_LENGTH;
    wrong += nuvaike_compress_i64(rows, 3, NUVAIKE_BITMAP, (const uint8_t *)"\7", 1, 6, &word, 1, tree) != NUVAIKE_VALIDITY_LENGTH;
    wrong += nuvaike_compress_i64(rows, 3, 3, NULL, 0, 0, &word, 1, tree) != NUVAIKE_UNKNOWN_FORM;
    wrong += nuvaike_open((const uint8_t *)"VXTREES", 7, tree) != NUVAIKE_BAD_FILE;
    wrong += nuvaike_decode_i64(tree, &one, 1, &valid, 1) != NUVAIKE_BUFFER_LENGTH || one != 5;
    wrong += nuvaike_decode_i32(tree, (int32_t *)&one, 1, &valid, 1) != NUVAIKE_OTHER_TYPE || one != 5;
    done("rows", nuvaike_rows(tree, &after));
    return wrong + (before != after);
}

int main(int count, char **words)
{
    int64_t *rows = block(ROWS, sizeof *rows);
    uint8_t *bitmap = block(ROWS / 8 + 2, 1);
    uint64_t offset = 3, word = 0, plain_bytes = 0, bytes = 0, length = 0;
    for (size_t row = 0; row < ROWS; row++) {
        rows[row] = 1000000 + (int64_t)(row * 2654435761u % 500);
        if (row % 7 != 0)
            bitmap[(offset + row) / 8] |= 1 << (offset + row) % 8;
    }
    struct nuvaike_tree tree = {0}, plain = {0}, again = {0};
    done("compress", nuvaike_compress_i64(rows, ROWS, NUVAIKE_BITMAP, bitmap, ROWS / 8 + 2, offset, &word, 1, &tree));
    uint8_t *listing = bytes_of(nuvaike_listing, &tree, &length);
    printf("%.*s", (int)length, (const char *)listing);
    done("plain", nuvaike_plain(&tree, &plain));
    done("nbytes", nuvaike_nbytes(&plain, &plain_bytes));
    done("nbytes", nuvaike_nbytes(&tree, &bytes));
    printf("plain=%" PRIu64 " tree=%" PRIu64 "\n", plain_bytes, bytes);
    uint8_t *file = bytes_of(nuvaike_store, &tree, &length);
    if (count > 1)
        write_file(words[1], file, length);
    done("open", nuvaike_open(file, length, &again));
    size_t wrong = differences(&tree, rows, bitmap, offset) + differences(&again, rows, bitmap, offset) + differences(&plain, rows, bitmap, offset);
    int unlike = refusals(&again, rows);
    printf("%zu rows differ, %d refusals differ\n", wrong, unlike);
    nuvaike_free(&tree);
    nuvaike_free(&plain);
    nuvaike_free(&again);
    free(rows);
    free(bitmap);
    free(listing);
    free(file);
    return wrong != 0 || unlike != 0;
}
