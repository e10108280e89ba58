/* The heap of the library: the program's malloc, realloc and free. Nothing proves this file: it is trusted. Who has an
 * allocator of his own, or a limit, puts it here. Blocks are aligned to 16 bytes, and an alignment of more is not asked
 * for. No header is included, so that a compiler without those of the C library builds it too. */
#define BG_HIDDEN __attribute__((visibility("hidden")))

typedef __SIZE_TYPE__ bg_size;

void *malloc(bg_size size);
void *realloc(void *block, bg_size size);
void free(void *block);

/* A block that was asked for. Where there is none `ok` is 0, and the pointer, which is never null, is not used. */
struct bg_tried {
    unsigned char ok;
    void *block;
};

BG_HIDDEN struct bg_tried rattle_alloc(bg_size size, bg_size align);
BG_HIDDEN struct bg_tried rattle_realloc(void *block, bg_size kept, bg_size size, bg_size align);
BG_HIDDEN void rattle_dealloc(void *block);

static char bg_no_block;

static struct bg_tried bg_tried_of(void *block) {
    struct bg_tried tried = {1, block};
    if (!block) {
        tried.ok = 0;
        tried.block = &bg_no_block;
    }
    return tried;
}

struct bg_tried rattle_alloc(bg_size size, bg_size align) {
    return bg_tried_of(malloc(size ? size : align));
}

/* The block that is to grow stays where there is none. `kept` is the size that it has. */
struct bg_tried rattle_realloc(void *block, bg_size kept, bg_size size, bg_size align) {
    (void)kept;
    return bg_tried_of(realloc(block, size ? size : align));
}

void rattle_dealloc(void *block) {
    free(block);
}
