// Refuses one request for memory of the program that it is preloaded to, for test_refusals.py, which compiles it.
//
// Requests are counted from 1, and the one that REFUSE_NTH names is answered with no memory; those after it are granted again. Only
// those count that the program's own code makes: what the C library asks for itself is always granted, as no contract speaks of it.
// When the request is refused, one byte goes to the descriptor that REFUSE_TELLS names.
#define _GNU_SOURCE
#include <errno.h>
#include <link.h>
#include <stdatomic.h>
#include <stddef.h>
#include <stdint.h>
#include <stdlib.h>
#include <unistd.h>

void *__libc_malloc(size_t size);
void *__libc_calloc(size_t count, size_t size);
void *__libc_realloc(void *memory, size_t size);
void *__libc_memalign(size_t alignment, size_t size);

static uintptr_t first, last;
static long nth, tells;
static atomic_long requests;

// The program itself is the first object that is told of: this notes where it lies, and ends the search.
static int note(struct dl_phdr_info *object, size_t size, void *unused) {
    (void)size, (void)unused;
    first = UINTPTR_MAX;
    for (int at = 0; at < object->dlpi_phnum; at++) {
        const ElfW(Phdr) *part = &object->dlpi_phdr[at];
        uintptr_t from = object->dlpi_addr + part->p_vaddr;
        if (part->p_type != PT_LOAD)
            continue;
        if (from < first)
            first = from;
        if (from + part->p_memsz > last)
            last = from + part->p_memsz;
    }
    return 1;
}

static long number_in(const char *name) {
    const char *text = getenv(name);
    return text ? atol(text) : 0;
}

__attribute__((constructor)) static void start(void) {
    dl_iterate_phdr(note, NULL);
    tells = number_in("REFUSE_TELLS");
    nth = number_in("REFUSE_NTH");
}

static int is_refused(const void *caller) {
    uintptr_t from = (uintptr_t)caller;
    if (nth == 0 || from < first || from >= last || atomic_fetch_add(&requests, 1) + 1 != nth)
        return 0;
    if (tells && write((int)tells, "r", 1) != 1)
        abort();
    errno = ENOMEM;
    return 1;
}

#define REFUSED is_refused(__builtin_return_address(0))

void *malloc(size_t size) { return REFUSED ? NULL : __libc_malloc(size); }

void *calloc(size_t count, size_t size) { return REFUSED ? NULL : __libc_calloc(count, size); }

void *realloc(void *memory, size_t size) { return size && REFUSED ? NULL : __libc_realloc(memory, size); }

void *memalign(size_t alignment, size_t size) { return REFUSED ? NULL : __libc_memalign(alignment, size); }

void *aligned_alloc(size_t alignment, size_t size) { return REFUSED ? NULL : __libc_memalign(alignment, size); }

int posix_memalign(void **memory, size_t alignment, size_t size) {
    if (REFUSED || !(*memory = __libc_memalign(alignment, size)))
        return ENOMEM;
    return 0;
}
