/* Refuses one allocation of a process, the number REFUSE counted from 1, and says so on standard error.
   It is preloaded by refuse-memory, beside fail.c, and stands on nothing but the C library's own allocator. */
typedef unsigned long size_t;
extern char *getenv(const char *);
extern long __write(int, const void *, size_t);
extern int *__errno_location(void);
extern void *__libc_malloc(size_t), *__libc_calloc(size_t, size_t), *__libc_realloc(void *, size_t);
extern void *__libc_memalign(size_t, size_t);

enum { OUT_OF_MEMORY = 12 };
static const char message[] = "an allocation was refused\n";
static unsigned long wanted, made;

static unsigned long number(const char *word)
{
    unsigned long value = 0;
    while (word && *word >= '0' && *word <= '9')
        value = 10 * value + (unsigned long)(*word++ - '0');
    return value;
}

static int is_refused(void)
{
    if (made == 0)
        wanted = number(getenv("REFUSE"));
    /* threads may allocate at the same time */
    if (__atomic_add_fetch(&made, 1, __ATOMIC_SEQ_CST) != wanted)
        return 0;
    __write(2, message, sizeof message - 1);
    /* as malloc says why; the C library looks where it starts a thread */
    *__errno_location() = OUT_OF_MEMORY;
    return 1;
}

void *malloc(size_t size) { return is_refused() ? 0 : __libc_malloc(size); }
void *calloc(size_t count, size_t size) { return is_refused() ? 0 : __libc_calloc(count, size); }
void *realloc(void *block, size_t size) { return is_refused() ? 0 : __libc_realloc(block, size); }
void *aligned_alloc(size_t alignment, size_t size) { return is_refused() ? 0 : __libc_memalign(alignment, size); }

int posix_memalign(void **block, size_t alignment, size_t size)
{
    void *made_block = aligned_alloc(alignment, size);
    if (!made_block)
        return OUT_OF_MEMORY;
    *block = made_block;
    return 0;
}
