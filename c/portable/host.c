/* coop_run of c/coop.h, by the module of WebAssembly as C: the heap that the module asks for, and one call in an
   instance of its own. What runtime/engine/host.js is to the page, this is to C. No proof covers it.

   Nothing static is written but where each thread's call is, so there is no race. */
#if defined(__linux__) && !defined(COOP_PLAIN_MEMORY)
#define _GNU_SOURCE /* mremap */
#include <sys/mman.h>
#endif
#include "portable.h"
#include "module.h"

#define PAGE 65536u
#define SPARE 4u /* pages for a short document and its line, so that most calls need no more */
#define NOWHERE 16u
#define OUT_OF_MEMORY 7u
#define NO_ANSWER 70u
#define ENDED 124u
#define FIRST_TURNS (1u << 20) /* of loops: some 20 ms */
#define TURNS (1u << 16)
#define CLASSES 64
#ifndef COOP_MOST /* the most memory of a call */
#define COOP_MOST (1024u * 1024u * 1024u)
#endif
#if defined(_MSC_VER)
#define THREAD __declspec(thread)
#else
#define THREAD __thread
#endif

struct Z_heap_instance_t {
    wasm_rt_memory_t *memory;
    uint8_t *kinds;              /* the class of each block, a byte for 16 of the memory's */
    uint64_t base, next;         /* where the heap begins, and where no byte is in use */
    uint32_t waiting[CLASSES];   /* blocks that were given back: each has the place of the next one in it */
    const volatile int *ends;    /* what the caller sets to end the call; or null */
    jmp_buf stop;                /* is left with the status */
};

/* The call of this thread. */
static THREAD struct Z_heap_instance_t *current;

bool wasm_rt_is_initialized(void) { return true; }

void wasm_rt_trap(wasm_rt_trap_t code)
{
    (void)code;
    longjmp(current->stop, NO_ANSWER);
}

void coop_look(wasm_rt_memory_t *memory)
{
    memory->turns = TURNS;
    if (current->ends && *current->ends)
        longjmp(current->stop, ENDED);
}

/* The module has no table of functions, so nobody compares types. */
uint32_t wasm_rt_register_func_type(uint32_t params, uint32_t results, ...)
{
    (void)params; (void)results;
    return 1;
}

/* The memory. Where the system can, its pages cost nothing before they are used, and need no copy when it grows. */
#if defined(__linux__) && !defined(COOP_PLAIN_MEMORY)
static uint8_t *memory_of(size_t size)
{
    void *data = mmap(NULL, size, PROT_READ | PROT_WRITE, MAP_PRIVATE | MAP_ANONYMOUS, -1, 0);
    return data == MAP_FAILED ? NULL : data;
}

static uint8_t *grown(uint8_t *data, size_t before, size_t after)
{
    void *now = mremap(data, before, after, MREMAP_MAYMOVE);
    return now == MAP_FAILED ? NULL : now;
}

static void forget(uint8_t *data, size_t size)
{
    if (data)
        munmap(data, size);
}
#else
static uint8_t *memory_of(size_t size) { return calloc(size, 1); }

static uint8_t *grown(uint8_t *data, size_t before, size_t after)
{
    uint8_t *now = realloc(data, after);
    if (now)
        memset(now + before, 0, after - before);
    return now;
}

static void forget(uint8_t *data, size_t size)
{
    (void)size;
    free(data);
}
#endif

void wasm_rt_allocate_memory(wasm_rt_memory_t *memory, uint32_t initial, uint32_t most)
{
    memory->data = memory_of((size_t)(initial + SPARE) * PAGE);
    if (!memory->data)
        longjmp(current->stop, OUT_OF_MEMORY);
    memory->pages = initial + SPARE;
    memory->max_pages = most;
    memory->size = memory->pages * PAGE;
    memory->turns = FIRST_TURNS;
}

void wasm_rt_free_memory(wasm_rt_memory_t *memory) { forget(memory->data, memory->size); }

/* Blocks of 16, 32, 48, 64, 96, 128, .. bytes. */
static unsigned class_of(uint64_t size)
{
    unsigned power = 4;
    if (size <= 16)
        return 0;
    while ((2ull << power) < size)
        power++;
    return 2 * (power - 4) + (power > 4 && size <= 3ull << (power - 1) ? 1 : 2);
}

static uint64_t room_of(unsigned kind) { return (uint64_t)(kind % 2 ? 24 : 16) << (kind / 2); }

static int grow(struct Z_heap_instance_t *heap, uint64_t end)
{
    wasm_rt_memory_t *memory = heap->memory;
    uint64_t wanted = memory->size + memory->size / 4;
    uint8_t *data, *kinds;
    if (end > COOP_MOST)
        return 0;
    if (wanted < end)
        wanted = end;
    if (wanted > COOP_MOST)
        wanted = COOP_MOST;
    wanted = (wanted + PAGE - 1) / PAGE * PAGE;
    kinds = realloc(heap->kinds, wanted / 16);
    if (!kinds)
        return 0;
    heap->kinds = kinds;
    data = grown(memory->data, memory->size, wanted);
    if (!data)
        return 0;
    memory->data = data;
    memory->pages = (uint32_t)(wanted / PAGE);
    memory->size = (uint32_t)wanted;
    return 1;
}

/* The place of a block, or 0 if there is none. */
static uint64_t take(struct Z_heap_instance_t *heap, uint64_t size)
{
    unsigned kind;
    uint64_t at, end;
    if (size > COOP_MOST)
        return 0;
    kind = class_of(size);
    if (heap->waiting[kind]) {
        at = heap->waiting[kind];
        if (at > heap->memory->size - 4)
            wasm_rt_trap(WASM_RT_TRAP_OOB);
        memcpy(&heap->waiting[kind], heap->memory->data + at, 4);
        return at;
    }
    at = heap->next;
    end = at + room_of(kind);
    if (end > heap->memory->size && !grow(heap, end))
        return 0;
    heap->next = end;
    heap->kinds[at / 16] = (uint8_t)kind;
    return at;
}

/* The class of the block that begins at a place. */
static unsigned kind_at(struct Z_heap_instance_t *heap, uint64_t at)
{
    if (at % 16 || at < heap->base || at >= heap->next)
        wasm_rt_trap(WASM_RT_TRAP_OOB);
    return heap->kinds[at / 16] % CLASSES;
}

static void give(struct Z_heap_instance_t *heap, uint64_t at)
{
    unsigned kind = kind_at(heap, at);
    memcpy(heap->memory->data + at, &heap->waiting[kind], 4);
    heap->waiting[kind] = (uint32_t)at;
}

static void tell(struct Z_heap_instance_t *heap, uint64_t to, uint64_t at)
{
    uint64_t answer[2];
    if (to > heap->memory->size - 16)
        wasm_rt_trap(WASM_RT_TRAP_OOB);
    answer[0] = at != 0;
    answer[1] = at ? at : NOWHERE;
    memcpy(heap->memory->data + to, answer, 16);
}

void Z_heapZ_rattle_alloc(struct Z_heap_instance_t *heap, u64 to, u64 size, u64 align)
{
    (void)align;
    tell(heap, to, take(heap, size));
}

void Z_heapZ_rattle_realloc(struct Z_heap_instance_t *heap, u64 to, u64 at, u64 kept, u64 size, u64 align)
{
    uint64_t place = at;
    (void)align;
    if (size > room_of(kind_at(heap, at))) {
        place = take(heap, size);
        if (place) {
            if (kept > heap->memory->size - at || kept > size)
                wasm_rt_trap(WASM_RT_TRAP_OOB);
            memmove(heap->memory->data + place, heap->memory->data + at, kept);
            give(heap, at);
        }
    }
    tell(heap, to, place);
}

void Z_heapZ_rattle_dealloc(struct Z_heap_instance_t *heap, u64 at) { give(heap, at); }

/* One call in a new instance. A trap comes back here; the instance is its caller's, so nothing of it is lost. */
static uint32_t call(Z_coop_instance_t *module, struct Z_heap_instance_t *heap, const uint8_t *words, size_t words_length,
                     const uint8_t *document, size_t document_length, uint8_t *line, size_t room, size_t *count)
{
    uint64_t places[4], sizes[4], written;
    uint32_t status;
    int k, stopped = setjmp(heap->stop);
    if (stopped)
        return (uint32_t)stopped;
    Z_coop_instantiate(module, heap);
    heap->memory = Z_coopZ_memory(module);
    heap->base = heap->next = (*Z_coopZ___heap_base(module) + 15) / 16 * 16;
    heap->kinds = calloc(heap->memory->size / 16, 1);
    if (!heap->kinds)
        return OUT_OF_MEMORY;
    sizes[0] = words_length; sizes[1] = document_length; sizes[2] = room; sizes[3] = 8;
    for (k = 0; k < 4; k++)
        if (!(places[k] = take(heap, sizes[k])))
            return OUT_OF_MEMORY;
    if (words_length)
        memcpy(heap->memory->data + places[0], words, words_length);
    if (document_length)
        memcpy(heap->memory->data + places[1], document, document_length);
    status = Z_coopZ_coop_run(module, places[0], words_length, places[1], document_length, places[2], room, places[3]);
    memcpy(&written, heap->memory->data + places[3], 8);
    if (written > room || status > 7 || status == 4 || status == 5)
        return NO_ANSWER;
    if (written)
        memcpy(line, heap->memory->data + places[2], written);
    *count = written;
    return status;
}

uint32_t coop_run_until(const uint8_t *words, size_t words_length, const uint8_t *document, size_t document_length,
                        uint8_t *line, size_t room, size_t *count, const volatile int *ends)
{
    size_t uncounted, *const counted = count ? count : &uncounted;
    Z_coop_instance_t module;
    struct Z_heap_instance_t heap;
    uint32_t status;
    memset(&module, 0, sizeof module);
    memset(&heap, 0, sizeof heap);
    heap.ends = ends;
    current = &heap;
    *counted = 0;
    status = call(&module, &heap, words, words ? words_length : 0, document, document ? document_length : 0, line,
                  line ? room : 0, counted);
    free(heap.kinds);
    Z_coop_free(&module);
    return status;
}

uint32_t coop_run(const uint8_t *words, size_t words_length, const uint8_t *document, size_t document_length,
                  uint8_t *line, size_t room, size_t *count)
{
    return coop_run_until(words, words_length, document, document_length, line, room, count, NULL);
}

const char *coop_version(void) { return COOP_VERSION; }
