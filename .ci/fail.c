/* Fails reads, writes and other calls of a process, as FAIL says: the call, the file, how many bytes it takes at most, how
   many times it goes well, and the error.

     read NAME SIZE COUNT ERROR     the read of the file behind so many fails, once
     end NAME SIZE 0 ERROR          each read at the end of the file fails
     write NAME SIZE COUNT ERROR    each write to the file behind so many fails, or takes no bytes where the error is 0
     open NAME 0 0 ERROR            the file can't be opened
     rename NAME 0 0 ERROR          it can't take another name

   An error is its number. A file is that which was opened by this name; a digit is the open file of this number, and a
   star each file that is opened.
   It is preloaded by rows, and stands on nothing but the C library. */
typedef unsigned long size_t;
extern char *getenv(const char *);
extern int *__errno_location(void);
extern long __read(int, void *, size_t), __write(int, const void *, size_t);
extern int __open(const char *, int, ...), renameat(int, const char *, int, const char *);

enum { HERE = -100, LONGEST = 64, LAST_STANDARD = 2 };
static struct {
    char call[LONGEST], name[LONGEST];
    unsigned long size, count;
    int error, file;
} wanted;
static enum { UNREAD, READ } state;

static int is_same(const char *one, const char *other)
{
    while (*one && *one == *other)
        ++one, ++other;
    return *one == *other;
}

static const char *next_word(const char *text, char *word)
{
    size_t length = 0;
    while (*text && *text != ' ' && length < LONGEST - 1)
        word[length++] = *text++;
    word[length] = 0;
    return *text == ' ' ? text + 1 : text;
}

static const char *next_number(const char *text, unsigned long *number)
{
    *number = 0;
    while (*text >= '0' && *text <= '9')
        *number = 10 * *number + (unsigned long)(*text++ - '0');
    return *text == ' ' ? text + 1 : text;
}

static void read_wanted(void)
{
    const char *text = getenv("FAIL");
    unsigned long error;
    state = READ;
    wanted.file = -1;
    if (!text)
        return;
    text = next_word(next_word(text, wanted.call), wanted.name);
    next_number(next_number(next_number(text, &wanted.size), &wanted.count), &error);
    wanted.error = (int)error;
    if (wanted.name[0] >= '0' && wanted.name[0] <= '9')
        wanted.file = wanted.name[0] - '0';
}

static int is_wanted(const char *call)
{
    if (state == UNREAD)
        read_wanted();
    return is_same(wanted.call, call);
}

static int is_of(int file)
{
    return file == wanted.file || (wanted.name[0] == '*' && file > LAST_STANDARD);
}

static int fail(void)
{
    *__errno_location() = wanted.error;
    return wanted.error ? -1 : 0;
}

static size_t most(size_t size)
{
    return size < wanted.size ? size : wanted.size;
}

long read(int file, void *bytes, size_t size)
{
    int is_counted = is_wanted("read"), is_ended = is_wanted("end");
    if (!(is_counted || is_ended) || !is_of(file))
        return __read(file, bytes, size);
    if (is_counted && wanted.count-- == 0)
        return fail();
    long taken = __read(file, bytes, most(size));
    return is_ended && taken == 0 ? fail() : taken;
}

long write(int file, const void *bytes, size_t size)
{
    if (!is_wanted("write") || !is_of(file))
        return __write(file, bytes, size);
    if (wanted.count == 0)
        return fail();
    --wanted.count;
    return __write(file, bytes, most(size));
}

int open(const char *name, int flags, int mode)
{
    int is_named = (is_wanted("open") || wanted.call[0]) && is_same(name, wanted.name);
    if (is_named && is_wanted("open"))
        return fail();
    int file = __open(name, flags, mode);
    if (is_named)
        wanted.file = file;
    else if (file == wanted.file)
        wanted.file = -1;
    return file;
}

int rename(const char *from, const char *to)
{
    if (is_wanted("rename") && is_same(from, wanted.name))
        return fail();
    return renameat(HERE, from, HERE, to);
}
