/* Counts the calls of the programs that it is loaded into (LD_PRELOAD) that change files or sync them, and ends everything
   at one of them. KILLS names a file that all of them share: the number of the call, counted from 1, before which all of
   them end (0: none); how many there were; whether half of what that call would write is written before; whether the end
   has come; and a letter for each call. What is written to the files 1 and 2, to pipes and to terminals does not count. It
   needs no headers, so that any C compiler makes it. */
typedef unsigned long size_t;
typedef long ssize_t;
typedef unsigned mode_t;

char *getenv(const char *);
void *dlsym(void *, const char *);
void *mmap(void *, size_t, int, int, int, long);
long lseek(int, long, int);
int kill(int, int);
int pause(void);

#define NEXT ((void *)-1)
#define SIZE 65536
#define O_CREAT 0100
#define O_TRUNC 01000
#define O_TMPFILE 020200000

struct shared {
    long at, count, half, ended;
    char letters[SIZE - 4 * sizeof(long)];
};

static struct shared *shared;

static void end(void) {
    shared->ended = 1;
    kill(0, 9);
    for (;;)
        pause();
}

/* Begins a call. Returns whether it is the one at which all end, if that is to write half of it. */
static int begins(char letter, int may_be_halved) {
    static int (*real)(const char *, int, ...);
    if (!shared && !real) {
        const char *path = getenv("KILLS");
        real = (int (*)(const char *, int, ...))dlsym(NEXT, "open");
        int number = path ? real(path, 02) : -1;
        void *at = number >= 0 ? mmap(0, SIZE, 3, 1, number, 0) : NEXT;
        if (at != NEXT)
            shared = at;
    }
    if (!shared || shared->at < 0)
        return 0;
    if (shared->ended)
        end();
    long number = __sync_add_and_fetch(&shared->count, 1);
    if (number <= (long)sizeof shared->letters)
        shared->letters[number - 1] = letter;
    if (number != shared->at)
        return 0;
    if (may_be_halved && shared->half)
        return 1;
    end();
    return 0;
}

#define REAL(type, name, words)                                                                                        \
    static type(*real) words;                                                                                          \
    if (!real)                                                                                                         \
        real = (type(*) words)dlsym(NEXT, name)

#define CALL(letter, type, name, words, given)                                                                         \
    type name words {                                                                                                  \
        REAL(type, #name, words);                                                                                      \
        begins(letter, 0);                                                                                             \
        return real given;                                                                                             \
    }

#define OPEN(name, words, given)                                                                                       \
    int name words {                                                                                                   \
        REAL(int, #name, words);                                                                                       \
        __builtin_va_list more;                                                                                        \
        __builtin_va_start(more, flags);                                                                               \
        mode_t mode = flags & O_CREAT || (flags & O_TMPFILE) == O_TMPFILE ? __builtin_va_arg(more, mode_t) : 0;        \
        __builtin_va_end(more);                                                                                        \
        if (flags & (O_CREAT | O_TRUNC))                                                                               \
            begins('o', 0);                                                                                            \
        return real given;                                                                                             \
    }

#define WRITE(name, more, given)                                                                                       \
    ssize_t name(int number, const void *bytes, size_t size more) {                                                    \
        REAL(ssize_t, #name, (int, const void *, size_t more));                                                        \
        if (number > 2 && size && lseek(number, 0, 1) >= 0 && begins('w', 1)) {                                        \
            size /= 2;                                                                                                 \
            if (size)                                                                                                  \
                real(number, bytes, size given);                                                                       \
            end();                                                                                                     \
        }                                                                                                              \
        return real(number, bytes, size given);                                                                        \
    }

#define COMMA ,

OPEN(open, (const char *path, int flags, ...), (path, flags, mode))
OPEN(open64, (const char *path, int flags, ...), (path, flags, mode))
OPEN(openat, (int folder, const char *path, int flags, ...), (folder, path, flags, mode))
OPEN(openat64, (int folder, const char *path, int flags, ...), (folder, path, flags, mode))
WRITE(write, , )
WRITE(pwrite, COMMA long at, COMMA at)
WRITE(pwrite64, COMMA long at, COMMA at)
CALL('r', int, rename, (const char *old, const char *new), (old, new))
CALL('r', int, renameat, (int from, const char *old, int to, const char *new), (from, old, to, new))
CALL('r', int, renameat2, (int from, const char *old, int to, const char *new, unsigned how), (from, old, to, new, how))
CALL('l', int, link, (const char *old, const char *new), (old, new))
CALL('l', int, linkat, (int from, const char *old, int to, const char *new, int how), (from, old, to, new, how))
CALL('u', int, unlink, (const char *path), (path))
CALL('u', int, unlinkat, (int folder, const char *path, int how), (folder, path, how))
CALL('u', int, rmdir, (const char *path), (path))
CALL('m', int, mkdir, (const char *path, mode_t mode), (path, mode))
CALL('m', int, mkdirat, (int folder, const char *path, mode_t mode), (folder, path, mode))
CALL('t', int, ftruncate, (int number, long size), (number, size))
CALL('t', int, ftruncate64, (int number, long size), (number, size))
CALL('d', int, utimensat, (int folder, const char *path, const void *times, int how), (folder, path, times, how))
CALL('d', int, futimens, (int number, const void *times), (number, times))
CALL('c', int, chmod, (const char *path, mode_t mode), (path, mode))
CALL('c', int, fchmod, (int number, mode_t mode), (number, mode))
CALL('s', int, fsync, (int number), (number))
CALL('s', int, fdatasync, (int number), (number))
CALL('s', int, syncfs, (int number), (number))
