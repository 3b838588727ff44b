/* The calls by which a program of `rt try` takes memory: they refuse the one of which FRAMES_REFUSED has the number, from 1, over all
   threads. Where FRAMES_TOLD has the number of an open file, a byte is written to it then. */
struct taken {
    unsigned long given;
    void *at;
};

char *getenv(const char *name);
unsigned long strtoul(const char *text, char **end, int base);
long write(int file, const void *bytes, unsigned long count);
struct taken rattle_alloc(unsigned long size, unsigned long align);
struct taken rattle_realloc(void *at, unsigned long before, unsigned long size, unsigned long align);

static unsigned long calls;
static unsigned long refused;
static int is_read;

static void tell(void)
{
    const char *file = getenv("FRAMES_TOLD");
    if (file && write(strtoul(file, 0, 10), "!", 1) != 1)
        __builtin_trap();
}

static int is_refused(void)
{
    const char *number;
    /* (the first call comes before any thread) */
    if (!is_read) {
        is_read = 1;
        number = getenv("FRAMES_REFUSED");
        refused = number ? strtoul(number, 0, 10) : 0;
    }
    if (!refused || __atomic_add_fetch(&calls, 1, __ATOMIC_RELAXED) != refused)
        return 0;
    tell();
    return 1;
}

struct taken try_rattle_alloc(unsigned long size, unsigned long align)
{
    struct taken none = {0, 0};
    return is_refused() ? none : rattle_alloc(size, align);
}

struct taken try_rattle_realloc(void *at, unsigned long before, unsigned long size, unsigned long align)
{
    struct taken none = {0, 0};
    return is_refused() ? none : rattle_realloc(at, before, size, align);
}
