/* An allocator that refuses growths, the C library's otherwise; it is loaded before the C library.
   The file that the variable GROWTHS names is shared with the test: how many growths there were, the first that is refused, if
   that is not 0, and the last. */

#include <errno.h>
#include <fcntl.h>
#include <malloc.h>
#include <stdatomic.h>
#include <stdint.h>
#include <stdlib.h>
#include <sys/mman.h>
#include <unistd.h>

extern void *__libc_malloc(size_t);
extern void *__libc_calloc(size_t, size_t);
extern void *__libc_realloc(void *, size_t);
extern void *__libc_memalign(size_t, size_t);

struct growths {
    _Atomic uint64_t count;
    _Atomic uint64_t first;
    _Atomic uint64_t last;
};

static struct growths *growths;

__attribute__((constructor)) static void open_growths(void)
{
    const char *path = getenv("GROWTHS");
    int file = path ? open(path, O_RDWR | O_CLOEXEC) : -1;
    if (file < 0)
        return;
    void *at = mmap(NULL, sizeof *growths, PROT_READ | PROT_WRITE, MAP_SHARED, file, 0);
    close(file);
    if (at != MAP_FAILED)
        growths = at;
}

static int refused(void)
{
    if (!growths)
        return 0;
    uint64_t number = atomic_fetch_add(&growths->count, 1) + 1;
    uint64_t first = atomic_load(&growths->first);
    if (first == 0 || number < first || number > atomic_load(&growths->last))
        return 0;
    errno = ENOMEM;
    return 1;
}

void *malloc(size_t size)
{
    return refused() ? NULL : __libc_malloc(size);
}

void *calloc(size_t count, size_t size)
{
    return refused() ? NULL : __libc_calloc(count, size);
}

/* What was taken may always shrink. */
void *realloc(void *taken, size_t size)
{
    if (size > (taken ? malloc_usable_size(taken) : 0) && refused())
        return NULL;
    return __libc_realloc(taken, size);
}

void *memalign(size_t alignment, size_t size)
{
    return refused() ? NULL : __libc_memalign(alignment, size);
}

void *aligned_alloc(size_t alignment, size_t size)
{
    return memalign(alignment, size);
}

int posix_memalign(void **taken, size_t alignment, size_t size)
{
    void *at = memalign(alignment, size);
    if (!at)
        return ENOMEM;
    *taken = at;
    return 0;
}
