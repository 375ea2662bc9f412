// Counts the bytes that a program's heap blocks take, and tells with each line that it writes what was in use at most since
// the line before. Loaded in front of the C library: LD_PRELOAD=peak.so vx_bench compress < document.
//
// For each write to standard output a line goes to standard error, `WORD LIVE PEAK`: the first word that is written, the
// bytes in use at the write, and the most in use since the write before. A block counts what the C library keeps for it (malloc_usable_size and the word in front of it), so a small block
// costs what it really takes, and freed memory counts no more, though the system may not have it back yet.
#define _GNU_SOURCE
#include <dlfcn.h>
#include <malloc.h>
#include <stdio.h>
#include <stdlib.h>
#include <unistd.h>

static size_t live, peak;

static void *grown(void *block) {
    if (block) {
        live += malloc_usable_size(block) + sizeof(size_t);
        if (live > peak) peak = live;
    }
    return block;
}

static void shrink(void *block) {
    if (block) live -= malloc_usable_size(block) + sizeof(size_t);
}

extern void *__libc_malloc(size_t), *__libc_calloc(size_t, size_t), *__libc_realloc(void *, size_t), *__libc_memalign(size_t, size_t);
extern void __libc_free(void *);

void *malloc(size_t size) { return grown(__libc_malloc(size)); }
void *calloc(size_t count, size_t size) { return grown(__libc_calloc(count, size)); }
void *memalign(size_t align, size_t size) { return grown(__libc_memalign(align, size)); }
void *aligned_alloc(size_t align, size_t size) { return grown(__libc_memalign(align, size)); }

int posix_memalign(void **block, size_t align, size_t size) {
    void *found = grown(__libc_memalign(align, size));
    if (!found) return 12;
    *block = found;
    return 0;
}

void free(void *block) {
    shrink(block);
    __libc_free(block);
}

void *realloc(void *block, size_t size) {
    shrink(block);
    void *moved = __libc_realloc(block, size);
    return grown(moved ? moved : size ? block : NULL);
}

ssize_t write(int file, const void *bytes, size_t count) {
    static ssize_t (*next)(int, const void *, size_t);
    if (!next) next = (ssize_t (*)(int, const void *, size_t))dlsym(RTLD_NEXT, "write");
    if (file == 1) {
        char line[80];
        int word = 0;
        while (word < 20 && word < (int)count && ((const char *)bytes)[word] > ' ') word++;
        next(2, line, snprintf(line, sizeof line, "%.*s %zu %zu\n", word, (const char *)bytes, live, peak));
        peak = live;
    }
    return next(file, bytes, count);
}
