/* The C library's malloc and its kin, of which some calls are refused. bench/refused.py preloads it.

   What is refused stands in a file that the script shares with the program (REFUSE_PAGE). A program marks what is to be
   counted by asking for two sizes that nobody else asks for; the script may also arm the counting itself. */
#define _GNU_SOURCE
#include <errno.h>
#include <fcntl.h>
#include <malloc.h>
#include <stdatomic.h>
#include <stdlib.h>
#include <sys/mman.h>
#include <unistd.h>

#define BEGIN_SIZE 7340033
#define END_SIZE 7340035

struct page {
    _Atomic unsigned long from;    /* the first growth that is refused, counted from 1 */
    _Atomic unsigned long upto;    /* the last one */
    _Atomic unsigned long one_in;  /* one of so many is refused at random; 0: none */
    _Atomic unsigned long armed;   /* whether growths count */
    _Atomic unsigned long counted; /* growths so far */
    _Atomic unsigned long refused; /* of these refused */
    _Atomic unsigned long marks;   /* marks met */
    _Atomic unsigned long state;   /* of the random numbers */
    _Atomic unsigned long calls[5]; /* by function: malloc, calloc, realloc, the two aligned ones, all while armed */
};

extern void *__libc_malloc(size_t);
extern void *__libc_calloc(size_t, size_t);
extern void *__libc_realloc(void *, size_t);
extern void *__libc_memalign(size_t, size_t);

static struct page *page;

__attribute__((constructor)) static void find_page(void)
{
    const char *path = getenv("REFUSE_PAGE");
    if (!path)
        return;
    int file = open(path, O_RDWR | O_CLOEXEC);
    if (file < 0)
        return;
    void *found = mmap(NULL, sizeof(struct page), PROT_READ | PROT_WRITE, MAP_SHARED, file, 0);
    close(file);
    if (found != MAP_FAILED)
        page = found;
}

/* splitmix64, over a counter that threads share */
static unsigned long drawn(void)
{
    unsigned long z = atomic_fetch_add(&page->state, 0x9E3779B97F4A7C15ul);
    z = (z ^ (z >> 30)) * 0xBF58476D1CE4E5B9ul;
    z = (z ^ (z >> 27)) * 0x94D049BB133111EBul;
    return z ^ (z >> 31);
}

static int marks(size_t size)
{
    if (!page || (size != BEGIN_SIZE && size != END_SIZE))
        return 0;
    atomic_store(&page->armed, size == BEGIN_SIZE);
    atomic_fetch_add(&page->marks, 1);
    return 1;
}

static int refuses(int function)
{
    if (!page || !atomic_load(&page->armed))
        return 0;
    atomic_fetch_add(&page->calls[function], 1);
    unsigned long n = atomic_fetch_add(&page->counted, 1) + 1;
    unsigned long one_in = atomic_load(&page->one_in);
    int refused = n >= atomic_load(&page->from) && n <= atomic_load(&page->upto);
    if (one_in && drawn() % one_in == 0)
        refused = 1;
    if (refused)
        atomic_fetch_add(&page->refused, 1);
    return refused;
}

void *malloc(size_t size)
{
    if (!marks(size) && refuses(0)) {
        errno = ENOMEM;
        return NULL;
    }
    return __libc_malloc(size);
}

void *calloc(size_t count, size_t size)
{
    if (refuses(1)) {
        errno = ENOMEM;
        return NULL;
    }
    return __libc_calloc(count, size);
}

void *realloc(void *old, size_t size)
{
    /* one that fits where it lies is no growth: a list that shrinks may be refused that, and nothing is lost */
    if (size > malloc_usable_size(old) && refuses(2)) {
        errno = ENOMEM;
        return NULL;
    }
    return __libc_realloc(old, size);
}

void *aligned_alloc(size_t align, size_t size)
{
    if (!marks(size) && refuses(3)) {
        errno = ENOMEM;
        return NULL;
    }
    return __libc_memalign(align, size);
}

void *memalign(size_t align, size_t size)
{
    return aligned_alloc(align, size);
}

int posix_memalign(void **out, size_t align, size_t size)
{
    if (!marks(size) && refuses(4))
        return ENOMEM;
    void *made = __libc_memalign(align, size);
    if (!made)
        return ENOMEM;
    *out = made;
    return 0;
}
