/* The heap of the module: heap.c. */
#include <stddef.h>
#include <stdint.h>

/* What the proved code gets: whether there is memory, and where; the pointer is never NULL. */
typedef struct {
    _Bool ok;
    void *p;
} tried;

tried rattle_alloc(size_t n, size_t a);
tried rattle_realloc(void *p, size_t kept, size_t n, size_t a);
void rattle_dealloc(void *p);

/* Memory for so many bytes, aligned to 16; NULL for none. */
void *heap_take(size_t bytes);
/* Gives back what heap_take or heap_resize returned. */
void heap_give(void *bytes);
/* Makes memory that was taken as large as wanted, perhaps elsewhere, with its first `kept` bytes; NULL if there is none, and all
 * is as it was. */
void *heap_resize(void *bytes, size_t kept, size_t wanted);
