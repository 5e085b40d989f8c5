/* Has one call of a program fail. Loaded before the C library (LD_PRELOAD), it counts the program's requests for
   memory, its reads or its writes, and refuses one. refused_calls.py beside it builds it, and sets in the environment:

   REFUSED_KIND    what is counted: memory, read or write
   REFUSED_NUMBER  the number of the call that is refused, from 1 on; 0 refuses none
   REFUSED_ERROR   the error that a refused read or write ends with; with 0 it ends well and moves no byte
   REFUSED_PIECE   how many bytes a read or a write moves at most; 0 sets no limit
   REFUSED_TOLD    a file descriptor, to which a byte is written when a call is refused

   It takes no header, so that nothing but a compiler is wanted. */

typedef unsigned long size;

extern char *getenv(const char *name);
extern long syscall(long number, ...);
extern int *__errno_location(void);
extern void *__libc_malloc(size bytes);
extern void *__libc_realloc(void *block, size bytes);

enum { SYSTEM_READ = 0, SYSTEM_WRITE = 1, OUT_OF_MEMORY = 12 };

static char counted;
static size number, error, piece, told, calls;

static size number_of(const char *name)
{
    size value = 0;
    for (const char *text = getenv(name); text && *text; text++)
        value = 10 * value + (size)(*text - '0');
    return value;
}

__attribute__((constructor)) static void begin(void)
{
    const char *kind = getenv("REFUSED_KIND");
    counted = kind ? *kind : 0;
    number = number_of("REFUSED_NUMBER");
    error = number_of("REFUSED_ERROR");
    piece = number_of("REFUSED_PIECE");
    told = number_of("REFUSED_TOLD");
}

/* Counts a call of a kind, and tells whether it is refused. */
static int is_refused(char kind)
{
    if (kind != counted || ++calls != number)
        return 0;
    syscall(SYSTEM_WRITE, told, "!", 1L);
    return 1;
}

static void *no_memory(void)
{
    *__errno_location() = OUT_OF_MEMORY;
    return 0;
}

void *malloc(size bytes)
{
    return is_refused('m') ? no_memory() : __libc_malloc(bytes);
}

void *realloc(void *block, size bytes)
{
    return bytes && is_refused('m') ? no_memory() : __libc_realloc(block, bytes);
}

/* What a read or a write ends with. */
static long moved(char kind, long call, int file, const void *bytes, size count)
{
    if (!is_refused(kind))
        return syscall(call, file, bytes, piece && piece < count ? piece : count);
    if (!error)
        return 0;
    *__errno_location() = (int)error;
    return -1;
}

long read(int file, void *bytes, size count)
{
    return moved('r', SYSTEM_READ, file, bytes, count);
}

long write(int file, const void *bytes, size count)
{
    return moved('w', SYSTEM_WRITE, file, bytes, count);
}
