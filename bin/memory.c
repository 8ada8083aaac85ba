// Refuses a program one of its requests for memory. bin/memory has it loaded before the C library, with the number of that request,
// counted from 1, in REFUSED_REQUEST, and in REFUSAL_TOLD_TO the descriptor to which a byte is written once it is refused.
#include <errno.h>
#include <stdatomic.h>
#include <stdlib.h>
#include <unistd.h>

// What the C library itself calls these.
void *__libc_malloc(size_t size);
void *__libc_calloc(size_t count, size_t size);
void *__libc_realloc(void *block, size_t size);
void *__libc_memalign(size_t alignment, size_t size);

static atomic_long left;
static int told;

// Runs before the program starts. What was asked for before isn't counted, since 0 are left then.
__attribute__((constructor)) static void begin(void) {
    told = atoi(getenv("REFUSAL_TOLD_TO"));
    left = atol(getenv("REFUSED_REQUEST"));
}

static int is_refused(void) {
    if (left <= 0 || atomic_fetch_sub(&left, 1) != 1)
        return 0;
    if (write(told, "!", 1) != 1)
        abort();
    errno = ENOMEM;
    return 1;
}

void *malloc(size_t size) { return is_refused() ? NULL : __libc_malloc(size); }

void *calloc(size_t count, size_t size) { return is_refused() ? NULL : __libc_calloc(count, size); }

void *realloc(void *block, size_t size) { return is_refused() ? NULL : __libc_realloc(block, size); }

void *aligned_alloc(size_t alignment, size_t size) { return is_refused() ? NULL : __libc_memalign(alignment, size); }

int posix_memalign(void **block, size_t alignment, size_t size) {
    void *made = is_refused() ? NULL : __libc_memalign(alignment, size);
    if (made == NULL)
        return ENOMEM;
    *block = made;
    return 0;
}
