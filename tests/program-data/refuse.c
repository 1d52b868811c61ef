/* Loaded before the program's libraries: writes the size of each allocation, a line each, to the descriptor
   SIZES, and refuses the one whose number, from 1, is REFUSED, all from the one on whose number is FROM, and the thread
   whose number is THREAD. If WITHIN is given, these are the ones alone that come after the program wrote that line, and
   before it writes again. Of the calls that
   open, read and write, the one whose number is FAILED fails with the error ERROR, and none moves more than MOST bytes,
   if that is given. Each of these calls is told to the descriptor CALLS, if that is given: a letter, and the bytes moved;
   and each thread, where its start begins and ends: t and T, and how many allocations there were.
   LENGTH is what every file's length is said to be, if that is given; where it is "none", the length can't be asked. INODE
   is what every file's number is said to be, if that is given: of two file systems it may well be the same. */
typedef __SIZE_TYPE__ size_t;

/* (no headers, which the toolchain's own compiler lacks) */
int *__errno_location(void);
char *getenv(const char *name);
int atoi(const char *text);
size_t strlen(const char *text);
int memcmp(const void *one, const void *other, size_t size);
unsigned long long strtoull(const char *text, char **end, int base);
int snprintf(char *to, size_t room, const char *form, ...);
long __write(int to, const void *from, size_t size);
long __read(int from, void *to, size_t size);
int __open(const char *name, int flags, ...);
void abort(void);
void *__libc_malloc(size_t size);
void *__libc_calloc(size_t count, size_t size);
void *__libc_realloc(void *old, size_t size);
void *__libc_memalign(size_t alignment, size_t size);
void *dlsym(void *library, const char *name);

/* EAGAIN, ENOMEM, ENOSYS */
enum { NO_THREAD = 11, NO_MEMORY = 12, NO_CALL = 38 };

static int number_in(const char *name)
{
    const char *value = getenv(name);
    return value ? atoi(value) : 0;
}

/* whether the line WITHIN is still to come, was written last, or was written before another one */
static enum { TO_COME, IS_LAST, IS_OVER } line_is;

static int allocations;

static void look_for_line(const char *text, size_t size)
{
    const char *line = getenv("WITHIN");
    if (line_is == IS_LAST)
        line_is = IS_OVER;
    else if (line && line_is == TO_COME && size == strlen(line) + 1 && text[size - 1] == '\n' && !memcmp(text, line, size - 1))
        line_is = IS_LAST;
}

static int is_passed_over(void)
{
    return line_is != IS_LAST && getenv("WITHIN");
}

static int is_refused(size_t size)
{
    char line[32];
    if (is_passed_over())
        return 0;
    int length = snprintf(line, sizeof line, "%zu\n", size);
    if (__write(number_in("SIZES"), line, length) != length)
        abort();
    *__errno_location() = NO_MEMORY;
    int number = __sync_add_and_fetch(&allocations, 1), from = number_in("FROM");
    return number == number_in("REFUSED") || (from && number >= from);
}

void *malloc(size_t size)
{
    return is_refused(size) ? (void *)0 : __libc_malloc(size);
}

void *calloc(size_t count, size_t size)
{
    return is_refused(count * size) ? (void *)0 : __libc_calloc(count, size);
}

void *realloc(void *old, size_t size)
{
    return is_refused(size) ? (void *)0 : __libc_realloc(old, size);
}

void *aligned_alloc(size_t alignment, size_t size)
{
    return is_refused(size) ? (void *)0 : __libc_memalign(alignment, size);
}

int posix_memalign(void **made, size_t alignment, size_t size)
{
    if (is_refused(size))
        return NO_MEMORY;
    *made = __libc_memalign(alignment, size);
    return *made ? 0 : NO_MEMORY;
}

static int fails(void)
{
    static int calls;
    if (++calls != number_in("FAILED"))
        return 0;
    *__errno_location() = number_in("ERROR");
    return 1;
}

static long told(char call, long answer)
{
    char line[32];
    if (getenv("CALLS")) {
        int length = snprintf(line, sizeof line, "%c %ld\n", call, answer);
        if (__write(number_in("CALLS"), line, length) != length)
            abort();
    }
    return answer;
}

typedef int create_thread(unsigned long *, const void *, void *(*)(void *), void *);

int pthread_create(unsigned long *made, const void *with, void *(*run)(void *), void *argument)
{
    static int threads;
    /* (RTLD_NEXT) */
    create_thread *create = (create_thread *)dlsym((void *)-1, "pthread_create");
    if (!create)
        return NO_THREAD;
    if (is_passed_over())
        return create(made, with, run, argument);
    if (__sync_add_and_fetch(&threads, 1) == number_in("THREAD"))
        return NO_THREAD;
    told('t', allocations);
    int answer = create(made, with, run, argument);
    told('T', allocations);
    return answer;
}

static size_t moved(size_t size)
{
    size_t most = number_in("MOST");
    return most && most < size ? most : size;
}

int open(const char *name, int flags, ...)
{
    return fails() ? -1 : told('o', __open(name, flags, 0));
}

long read(int from, void *to, size_t size)
{
    return fails() ? -1 : told('r', __read(from, to, moved(size)));
}

long write(int to, const void *from, size_t size)
{
    look_for_line(from, size);
    return fails() ? -1 : told('w', __write(to, from, moved(size)));
}

typedef int ask_status(int, const char *, int, unsigned, void *);

int statx(int from, const char *name, int flags, unsigned wanted, void *told)
{
    const char *length = getenv("LENGTH");
    /* (RTLD_NEXT) */
    ask_status *ask = (ask_status *)dlsym((void *)-1, "statx");
    if (!ask || (length && *length == 'n')) {
        *__errno_location() = NO_CALL;
        return -1;
    }
    int status = ask(from, name, flags, wanted, told);
    /* (stx_size) */
    if (!status && length)
        *(unsigned long long *)((char *)told + 40) = strtoull(length, 0, 10);
    const char *number = getenv("INODE");
    /* (stx_ino) */
    if (!status && number)
        *(unsigned long long *)((char *)told + 32) = strtoull(number, 0, 10);
    return status;
}
