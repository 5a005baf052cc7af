/* Calls the C library on cases, for tools/gate/try-library.

       library_calls answers FILE          one call a case; writes status, count and line of each
       library_calls rooms FILE            each case with each room from none to two bytes more than its line has
       library_calls threads FILE N KB     all cases in N threads at once, each with KB of stack
       library_calls again FILE TIMES      the cases again and again, TIMES calls, which have to leave memory as it was
       library_calls refuse FILE           each case once for each of its requests for memory, which is refused

   The file has for each case three numbers of 64 bits, the lengths of words, document and room, and then the bytes of the
   first two. A length with all bits set stands for a null pointer. Words and document lie in blocks of just their length, so
   that valgrind sees a read too far; a write too far is seen by what stands behind the room. Ends with 1 where something
   isn't as it should be, and says what.
   What takes and gives back memory for the library leads here: the linker is given --wrap for it. */
#define _GNU_SOURCE /* mremap */
#include <pthread.h>
#include <stdint.h>
#include <stdio.h>
#include <stdlib.h>
#include <string.h>
#include <sys/mman.h>
#include "coop.h"

#define NULL_LENGTH UINT64_MAX
#define UNTOUCHED 0xA5
#define GUARD 64

struct case_ {
    uint64_t words_length, document_length, room;
    uint8_t *words, *document;
};

struct answer {
    uint32_t status;
    size_t count;
    uint8_t *line;
};

static struct case_ *cases;
static size_t case_count;
static unsigned long requests, refused;
/* How many blocks the library holds. */
static long held;

void *__real_malloc(size_t size);
void *__real_calloc(size_t count, size_t size);
void *__real_realloc(void *memory, size_t size);
void __real_free(void *memory);
void *__real_mmap(void *place, size_t size, int protection, int flags, int file, off_t offset);
void *__real_mremap(void *memory, size_t before, size_t after, int flags);
int __real_munmap(void *memory, size_t size);

static int is_refused(void) { return refused && ++requests == refused; }

static void *counted(void *memory)
{
    if (memory) __atomic_add_fetch(&held, 1, __ATOMIC_SEQ_CST);
    return memory;
}

void *__wrap_malloc(size_t size) { return is_refused() ? NULL : counted(__real_malloc(size)); }

void *__wrap_calloc(size_t count, size_t size) { return is_refused() ? NULL : counted(__real_calloc(count, size)); }

void *__wrap_realloc(void *memory, size_t size)
{
    if (is_refused()) return NULL;
    return memory ? __real_realloc(memory, size) : counted(__real_realloc(NULL, size));
}

void __wrap_free(void *memory)
{
    if (memory) __atomic_sub_fetch(&held, 1, __ATOMIC_SEQ_CST);
    __real_free(memory);
}

void *__wrap_mmap(void *place, size_t size, int protection, int flags, int file, off_t offset)
{
    void *memory = is_refused() ? MAP_FAILED : __real_mmap(place, size, protection, flags, file, offset);
    if (memory != MAP_FAILED) counted(memory);
    return memory;
}

void *__wrap_mremap(void *memory, size_t before, size_t after, int flags)
{
    return is_refused() ? MAP_FAILED : __real_mremap(memory, before, after, flags);
}

int __wrap_munmap(void *memory, size_t size)
{
    __atomic_sub_fetch(&held, 1, __ATOMIC_SEQ_CST);
    return __real_munmap(memory, size);
}

static void fail(const char *what, size_t index)
{
    fprintf(stderr, "library_calls: case %zu: %s\n", index, what);
    exit(1);
}

static uint8_t *block(size_t length)
{
    uint8_t *memory = __real_malloc(length ? length : 1);
    if (!memory) fail("no memory for the cases", case_count);
    return memory;
}

static uint8_t *bytes_of(FILE *file, uint64_t length)
{
    if (length == NULL_LENGTH) return NULL;
    uint8_t *memory = block(length);
    if (length && fread(memory, 1, length, file) != length) fail("the file ends early", case_count);
    return memory;
}

static void read_cases(const char *name)
{
    FILE *file = fopen(name, "rb");
    uint64_t numbers[3];
    if (!file) fail("no file", 0);
    while (fread(numbers, sizeof numbers, 1, file) == 1) {
        cases = __real_realloc(cases, (case_count + 1) * sizeof *cases);
        if (!cases) fail("no memory for the cases", case_count);
        struct case_ *c = &cases[case_count];
        c->words_length = numbers[0], c->document_length = numbers[1], c->room = numbers[2];
        c->words = bytes_of(file, c->words_length);
        c->document = bytes_of(file, c->document_length);
        case_count++;
    }
    fclose(file);
}

static size_t length_of(uint64_t length) { return length == NULL_LENGTH ? 0 : length; }

/* One call. Behind the room stands a guard, which has to stay as it is. */
static struct answer call(size_t index, uint64_t room)
{
    const struct case_ *c = &cases[index];
    struct answer answer = {99, 99, NULL};
    size_t length = length_of(room);
    if (room != NULL_LENGTH) {
        answer.line = block(length + GUARD);
        memset(answer.line, UNTOUCHED, length + GUARD);
    }
    answer.status = coop_run(c->words, length_of(c->words_length), c->document, length_of(c->document_length),
                             answer.line, length, &answer.count);
    if (answer.count > length) fail("the count is above the room", index);
    for (size_t i = answer.count; room != NULL_LENGTH && i < length + GUARD; i++)
        if (answer.line[i] != UNTOUCHED) fail("a byte behind the count was written", index);
    if (answer.status == 6 && answer.count != length) fail("status 6 and a room that isn't full", index);
    if (answer.status == 7 && answer.count != 0) fail("status 7 and a line", index);
    return answer;
}

static int is_same(struct answer a, struct answer b)
{
    return a.status == b.status && a.count == b.count && (a.count == 0 || memcmp(a.line, b.line, a.count) == 0);
}

static void write_answers(void)
{
    /* No pointer at all, the count's neither. */
    if (coop_run(NULL, 0, NULL, 0, NULL, 0, NULL) != 6) fail("null pointers alone have room", 0);
    for (size_t i = 0; i < case_count; i++) {
        struct answer answer = call(i, cases[i].room);
        uint64_t numbers[2] = {answer.status, answer.count};
        fwrite(numbers, sizeof numbers, 1, stdout);
        fwrite(answer.line, 1, answer.count, stdout);
        __real_free(answer.line);
    }
}

static void try_rooms(void)
{
    unsigned long calls = 0;
    for (size_t i = 0; i < case_count; i++) {
        struct answer whole = call(i, cases[i].room);
        if (whole.status == 6) fail("no room for the whole line", i);
        for (size_t room = 0; room < whole.count + 3; room++, calls++) {
            struct answer found = call(i, room);
            size_t count = room < whole.count ? room : whole.count;
            if (found.status != (room < whole.count ? 6 : whole.status)) fail("another status than its room asks for", i);
            if (found.count != count || (count && memcmp(found.line, whole.line, count))) fail("another line", i);
            __real_free(found.line);
        }
        __real_free(whole.line);
    }
    printf("%lu calls with each room for %zu lines\n", calls, case_count);
}

static struct answer *wanted;

static void *run_all(void *first)
{
    for (size_t i = 0; i < case_count; i++) {
        size_t index = (i + (size_t)first) % case_count;
        struct answer found = call(index, cases[index].room);
        if (!is_same(found, wanted[index])) fail("another answer in a thread", index);
        __real_free(found.line);
    }
    return NULL;
}

static void try_threads(int count, size_t kilobytes)
{
    pthread_t *threads = __real_malloc(count * sizeof *threads);
    pthread_attr_t attributes;
    wanted = __real_malloc(case_count * sizeof *wanted);
    if (!threads || !wanted) fail("no memory", 0);
    for (size_t i = 0; i < case_count; i++) wanted[i] = call(i, cases[i].room);
    if (pthread_attr_init(&attributes) || pthread_attr_setstacksize(&attributes, kilobytes << 10)) fail("no such stack", 0);
    for (int i = 0; i < count; i++)
        if (pthread_create(&threads[i], &attributes, run_all, (void *)(case_count * i / count))) fail("no thread", i);
    for (int i = 0; i < count; i++) pthread_join(threads[i], NULL);
    if (held != 0) fail("a block isn't given back", 0);
    printf("%zu calls in each of %d threads of %zu KB of stack\n", case_count, count, kilobytes);
}

static void try_again(unsigned long times)
{
    for (unsigned long i = 0; i < times; i++) {
        __real_free(call(i % case_count, cases[i % case_count].room).line);
        if (held != 0) fail("a block isn't given back", i % case_count);
    }
    printf("%lu calls, each of which gave back all that it took\n", times);
}

static void try_refusing(void)
{
    unsigned long calls = 0, wanting = 0;
    for (size_t i = 0; i < case_count; i++) {
        struct answer whole = call(i, cases[i].room);
        for (unsigned long number = 1;; number++, calls++) {
            requests = 0, refused = number;
            struct answer found = call(i, cases[i].room);
            int reached = requests >= number;
            refused = 0;
            if (held != 0) fail("a block isn't given back where memory was refused", i);
            if (found.status == 7) wanting++;
            else if (!is_same(found, whole)) fail("another answer where memory was refused", i);
            __real_free(found.line);
            if (!reached) break;
        }
        __real_free(whole.line);
    }
    if (wanting == 0) fail("no call wanted memory", 0);
    printf("%lu requests refused, of which %lu ended with 7 and no line\n", calls, wanting);
}

int main(int count, char **words)
{
    if (count < 3) return 2;
    read_cases(words[2]);
    if (case_count == 0) fail("there is none", 0);
    if (!strcmp(words[1], "answers")) write_answers();
    else if (!strcmp(words[1], "rooms")) try_rooms();
    else if (!strcmp(words[1], "threads") && count == 5) try_threads(atoi(words[3]), strtoul(words[4], NULL, 10));
    else if (!strcmp(words[1], "again") && count == 4) try_again(strtoul(words[3], NULL, 10));
    else if (!strcmp(words[1], "refuse")) try_refusing();
    else return 2;
    return 0;
}
