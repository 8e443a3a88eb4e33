/* Refuses a program one of its requests for memory, for dev/fail-alloc. It is loaded before the C library by LD_PRELOAD.
 *
 *   FAIL_AT  which request is refused; they are counted from 1, from where the program's own code begins
 *   FAIL_FD  where an octet is written when that is done */
#include <errno.h>
#include <stdlib.h>
#include <unistd.h>

extern void *__libc_malloc(size_t size);
extern void *__libc_realloc(void *block, size_t size);

static long at, count;
static int told;

static long setting(const char *name)
{
    const char *text = getenv(name);
    return text ? atol(text) : 0;
}

__attribute__((constructor)) static void begin(void)
{
    told = setting("FAIL_FD");
    at = setting("FAIL_AT");
}

static int is_refused(void)
{
    if (!at || ++count != at)
        return 0;
    if (write(told, "!", 1) != 1)
        abort();
    errno = ENOMEM;
    return 1;
}

void *malloc(size_t size)
{
    return is_refused() ? NULL : __libc_malloc(size);
}

void *realloc(void *block, size_t size)
{
    return is_refused() ? NULL : __libc_realloc(block, size);
}
