/* The module's exports: calls of domethyme.h, each behind the guard that the toolchain's own modules have, and memory for the
 * host's arrays. The host may catch a trap and call again, over memory that is half written: such a call traps too.
 * domethyme_version and domethyme_beside are left out: a page has one thread, and reads what it has written. */
#include "domethyme.h"
#include "heap.h"

_Bool __rattle_enter(void);
void __rattle_leave(void);
void __rattle_trap(void);

#define EXPORT(name) __attribute__((export_name(#name)))

#define CALL(result, name, parameters, arguments) \
    EXPORT(domethyme_##name) result web_##name parameters { \
        if (__rattle_enter()) __rattle_trap(); \
        result found = domethyme_##name arguments; \
        __rattle_leave(); \
        return found; \
    }

CALL(uint32_t, open, (domethyme *handle, const uint8_t *bytes, size_t count), (handle, bytes, count))
CALL(uint32_t, nodes, (domethyme *handle, uint32_t *nodes), (handle, nodes))
CALL(uint32_t, length, (domethyme *handle, uint32_t from, uint32_t to, uint64_t *length), (handle, from, to, length))
CALL(uint32_t, route, (domethyme *handle, uint32_t from, uint32_t to, domethyme_route_info *route, uint32_t *nodes, size_t room),
     (handle, from, to, route, nodes, room))
CALL(uint32_t, between,
     (domethyme *handle, const domethyme_seed *starts, size_t start_count, const domethyme_seed *ends, size_t end_count,
      domethyme_between_info *route, uint32_t *nodes, size_t room),
     (handle, starts, start_count, ends, end_count, route, nodes, room))
CALL(uint32_t, lengths, (domethyme *handle, const domethyme_pair *pairs, size_t pair_count, uint64_t *lengths, size_t room),
     (handle, pairs, pair_count, lengths, room))
CALL(uint32_t, table,
     (domethyme *handle, const uint32_t *sources, size_t source_count, const uint32_t *targets, size_t target_count,
      uint64_t *lengths, size_t room),
     (handle, sources, source_count, targets, target_count, lengths, room))
CALL(uint32_t, reach,
     (domethyme *handle, const domethyme_seed *starts, size_t start_count, uint64_t limit, uint64_t *lengths, size_t room),
     (handle, starts, start_count, limit, lengths, room))
CALL(size_t, text, (uint32_t code, char *text, size_t room), (code, text, room))

EXPORT(domethyme_close) void web_close(domethyme *handle) {
    if (__rattle_enter()) __rattle_trap();
    domethyme_close(handle);
    __rattle_leave();
}

/* Memory for so many bytes of the host, aligned to 16; 0 for none. web_give takes it back. */
EXPORT(web_take) void *web_take(size_t bytes) {
    if (__rattle_enter()) __rattle_trap();
    void *found = heap_take(bytes);
    __rattle_leave();
    return found;
}

EXPORT(web_give) void web_give(void *at) {
    if (__rattle_enter()) __rattle_trap();
    heap_give(at);
    __rattle_leave();
}
