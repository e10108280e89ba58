#include "counting_heap.h"

#include <stdlib.h>

struct bg_tried {
    unsigned char ok;
    void *block;
};

struct bg_tried rattle_alloc(size_t size, size_t align);
struct bg_tried rattle_realloc(void *block, size_t kept, size_t size, size_t align);
void rattle_dealloc(void *block);

struct counting_heap counting_heap = {.refused = HEAP_REFUSES_NONE};

static char no_block;

static int is_refused(void) {
    if (counting_heap.is_paused) {
        return 0;
    }
    return counting_heap.asked++ == counting_heap.refused;
}

static struct bg_tried tried_of(void *block) {
    struct bg_tried tried = {block != NULL, block ? block : &no_block};
    return tried;
}

struct bg_tried rattle_alloc(size_t size, size_t align) {
    void *block = is_refused() ? NULL : malloc(size ? size : align);
    counting_heap.live += block != NULL;
    return tried_of(block);
}

struct bg_tried rattle_realloc(void *block, size_t kept, size_t size, size_t align) {
    (void)kept;
    return tried_of(is_refused() ? NULL : realloc(block, size ? size : align));
}

void rattle_dealloc(void *block) {
    counting_heap.live--;
    free(block);
}
