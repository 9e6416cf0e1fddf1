/* Stands between a program and the allocator, as LD_PRELOAD, and refuses one allocation: of all requests of new memory and
 * of more memory, from the start of the program on, the one whose number is in the environment as REFUSE, counted from 1.
 * It then makes the file whose name is there as REFUSED. A request of 2^62 bytes and k more is a word from the program
 * itself: it is refused, and so is the k-th request after it; with k = 0 none is.
 */
#define _GNU_SOURCE
#include <errno.h>
#include <fcntl.h>
#include <stdatomic.h>
#include <stddef.h>
#include <stdlib.h>
#include <unistd.h>

extern void *__libc_malloc(size_t size);
extern void *__libc_realloc(void *old, size_t size);

/* How many requests it is until the one that is refused; 0 or less: none is, or none any more. */
static atomic_long left = 0;

__attribute__((constructor)) static void begin(void)
{
    const char *word = getenv("REFUSE");
    atomic_store(&left, word ? atol(word) : 0);
}

static const size_t WORD = (size_t)1 << 62;

static int is_refused(size_t size)
{
    if (size >= WORD && size - WORD < WORD) {
        atomic_store(&left, (long)(size - WORD));
        errno = ENOMEM;
        return 1;
    }
    if (atomic_fetch_sub(&left, 1) != 1)
        return 0;
    const char *name = getenv("REFUSED");
    int mark = name ? open(name, O_CREAT | O_WRONLY, 0600) : -1;
    if (mark >= 0)
        close(mark);
    errno = ENOMEM;
    return 1;
}

void *malloc(size_t size)
{
    return is_refused(size) ? NULL : __libc_malloc(size);
}

void *realloc(void *old, size_t size)
{
    return is_refused(size) ? NULL : __libc_realloc(old, size);
}
