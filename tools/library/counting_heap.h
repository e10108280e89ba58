/* A heap in the place of include/heap.c, which counts what it is asked for, and refuses one of these requests. */
#ifndef COUNTING_HEAP_H
#define COUNTING_HEAP_H

#include <stddef.h>

#define HEAP_REFUSES_NONE (-1L)

struct counting_heap {
    long asked;     /* how many blocks were asked for, or asked to grow */
    long refused;   /* the number of the request that is refused, from 0 */
    long live;      /* how many blocks there are */
    int is_paused;  /* whether requests are neither counted nor refused */
};

extern struct counting_heap counting_heap;

#endif
