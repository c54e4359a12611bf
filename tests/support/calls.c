/* Stands before the calls of the system that the program makes which it is loaded into (LD_PRELOAD). It tells each on the
   file 3, a line each, by the path that was opened or by the name of the stream, and lets go wrong what the environment
   says. FAIL has the numbers of the calls that fail, with a comma between two, counted from 1, with ERROR as their error's
   number, or for a write that takes no byte 0; a `close` or a `sleep` has no number. CLOCK is what the clocks show, in
   milliseconds since 1970, and each sleep moves it on at once. FOLDER is the path of a folder with a slash after it: its
   first CHANGES readings see it change, and each takes READING milliseconds; before its own names its list has NAMES
   numbers. OUTPUT is how many bytes standard output takes. Where SHORT is set, a read and a write move one byte at most,
   and where it is 1 every other write is interrupted. GONE is put in place of what is to be moved, PLANTED where a file is
   to be made, and REPLACED in place of what is opened to be written and is there: by the first letter a link or a hard
   link to the path after it, a pipe, a socket, a directory, a file, one of a single byte, one of the mode after it, one
   that others may read, one of the user whose number is after it, another owner's, or, as 1, nothing. REPLACED may be a
   change of the file instead: for others to read, an owner, a second name, no name at all once it was opened, or a
   difference of what is shown through the handle, at the byte after it of what statx(2) tells. The time of modification is
   shown as the time of change, which no test can set. Each other time is shown as MODIFIED, in milliseconds since 1970, or
   as 1970. It needs no headers, so that any C compiler makes it. */
typedef unsigned long size_t;
typedef long ssize_t;

struct moment {
    long seconds, nanos;
};

/* As getdents64(2) lists a name. */
struct entry {
    unsigned long inode, next;
    unsigned short size;
    unsigned char kind;
    char name[13];
};

char *getenv(const char *);
void *dlsym(void *, const char *);
int *__errno_location(void);
int strcmp(const char *, const char *);
int snprintf(char *, size_t, const char *, ...);
int utimensat(int, const char *, const struct moment *, int);
int symlink(const char *, const char *);
int link(const char *, const char *);
int mkfifo(const char *, unsigned);
int mknod(const char *, unsigned, unsigned long);
int chmod(const char *, unsigned);
int lchown(const char *, unsigned, unsigned);
int remove(const char *);
int mkdir(const char *, unsigned);
int close(int);
int openat(int, const char *, int, ...);

enum { OUTPUT = 1, ERRORS = 2, CALLS = 3, OPEN = 64 };
enum { INTERRUPTED = 4, NO_SPACE = 28, HERE = -100, WRITING = 03, CREATE = 0100, SOCKET = 0140000, NOBODY = 65534 };
enum { REGULAR = 8 };

/* The function that stands behind this one. */
#define REAL(name) ((__typeof__(&name))dlsym((void *)-1, #name))

static const char planted[] = "planted long before";
static char names[OPEN][512] = {"standard input", "standard output", "standard error"};
static long made;

/* How far the clocks have moved on, in milliseconds. */
static long passed;

/* Reads a number, and moves on to what stands behind it. */
static long read_number(const char **at) {
    long found = 0;
    while (**at >= '0' && **at <= '9')
        found = 10 * found + (*(*at)++ - '0');
    return found;
}

static long number(const char *name, long otherwise) {
    const char *at = getenv(name);
    return at ? read_number(&at) : otherwise;
}

static int is_one_of(long wanted, const char *name) {
    const char *at = getenv(name);
    while (at && *at) {
        if (read_number(&at) == wanted)
            return 1;
        at += *at == ',';
    }
    return 0;
}

static int failed(int error) {
    *__errno_location() = error;
    return -1;
}

static const char *name_of(int file) {
    return file >= 0 && file < OPEN ? names[file] : "a file of a great number";
}

ssize_t write(int file, const void *bytes, size_t size);

static void tell(const char *what, const char *name) {
    char line[1024];
    int length = snprintf(line, sizeof line, "%s%s%s\n", what, *name ? " " : "", name);
    REAL(write)(CALLS, line, (size_t)length);
}

/* Tells a call, and answers whether it is to fail. */
static int is_to_fail(const char *what, const char *name) {
    tell(what, name);
    made++;
    return is_one_of(made, "FAIL") && failed((int)number("ERROR", 0));
}

static struct moment moment_of(long millis) {
    return (struct moment){millis / 1000, millis % 1000 * 1000000};
}

static struct moment now(void) {
    return moment_of(number("CLOCK", 0) + passed);
}

static int opened(int file, const char *path) {
    static long readings;
    const char *folder = getenv("FOLDER");
    if (file >= 0 && file < OPEN)
        snprintf(names[file], sizeof names[file], "%s", path);
    if (file >= 0 && folder && strcmp(path, folder) == 0) {
        if (readings++ < number("CHANGES", 0)) {
            struct moment stamp = now();
            utimensat(HERE, path, (struct moment[]){stamp, stamp}, 0);
        }
        passed += number("READING", 0);
    }
    return file;
}

/* Makes a file with the beginning of a text, which is longer than the messages of the tests. */
static void make_part(const char *path, unsigned mode, size_t size) {
    int file = REAL(openat)(HERE, path, CREATE | 1, mode);
    REAL(write)(file, planted, size);
    REAL(close)(file);
}

static void make(const char *path, unsigned mode) {
    make_part(path, mode, sizeof planted - 1);
}

static unsigned octal(const char *digits) {
    unsigned found = 0;
    while (*digits)
        found = 8 * found + (unsigned)(*digits++ - '0');
    return found;
}

static unsigned decimal(const char *digits) {
    return (unsigned)read_number(&digits);
}

static void plant(const char *what, const char *path) {
    switch (what ? *what : 0) {
    case 'l':
        symlink(what + 1, path);
        break;
    case 'h':
        link(what + 1, path);
        break;
    case 'p':
        mkfifo(path, 0600);
        break;
    case 's':
        mknod(path, SOCKET | 0600, 0);
        break;
    case 'd':
        REAL(mkdir)(path, 0700);
        break;
    case 'b':
        make_part(path, 0600, 1);
        break;
    case 'f':
        make(path, 0600);
        break;
    case 'r':
        make(path, 0644);
        break;
    case 'm':
        make(path, 0600);
        chmod(path, octal(what + 1));
        break;
    case 'u':
        make(path, 0600);
        lchown(path, decimal(what + 1), NOBODY);
        break;
    case 'o':
        make(path, 0600);
        lchown(path, NOBODY, NOBODY);
        break;
    }
}

/* Whether a file that is looked at through its handle has lost its name, and at which byte it is shown as another one. */
static int is_gone;
static unsigned differs;

static void replace(const char *what, const char *path) {
    switch (*what) {
    case 'R':
        chmod(path, 0644);
        break;
    case 'O':
        lchown(path, NOBODY, NOBODY);
        break;
    case 'N':
        link(path, what + 1);
        break;
    case 'G':
        is_gone = 1;
        break;
    case 'D':
        differs = decimal(what + 1);
        break;
    default:
        remove(path);
        plant(what, path);
    }
}

int openat(int folder, const char *path, int flags, ...) {
    __builtin_va_list rest;
    __builtin_va_start(rest, flags);
    unsigned mode = flags & CREATE ? __builtin_va_arg(rest, unsigned) : 0;
    __builtin_va_end(rest);
    const char *replaced = getenv("REPLACED");
    if (flags & CREATE)
        plant(getenv("PLANTED"), path);
    else if (flags & WRITING && replaced && *replaced)
        replace(replaced, path);
    return is_to_fail("open", path) ? -1 : opened(REAL(openat)(folder, path, flags, mode), path);
}

int open(const char *path, int flags, ...) {
    __builtin_va_list rest;
    __builtin_va_start(rest, flags);
    unsigned mode = flags & CREATE ? __builtin_va_arg(rest, unsigned) : 0;
    __builtin_va_end(rest);
    return openat(HERE, path, flags, mode);
}

int close(int file) {
    tell("close", name_of(file));
    return REAL(close)(file);
}

ssize_t read(int file, void *bytes, size_t size) {
    if (is_to_fail("read", name_of(file)))
        return -1;
    return REAL(read)(file, bytes, getenv("SHORT") && size > 1 ? 1 : size);
}

ssize_t write(int file, const void *bytes, size_t size) {
    static int was_interrupted;
    static size_t taken;
    if (file == ERRORS)
        return REAL(write)(file, bytes, size);
    if (is_to_fail("write", name_of(file)))
        return number("ERROR", 0) ? -1 : 0;
    if (getenv("SHORT")) {
        was_interrupted = !was_interrupted && number("SHORT", 0) == 1;
        if (was_interrupted)
            return failed(INTERRUPTED);
        size = size > 1 ? 1 : size;
    }
    if (file == OUTPUT && getenv("OUTPUT")) {
        size_t room = (size_t)number("OUTPUT", 0) - taken;
        size = size > room ? room : size;
        taken += size;
        if (size == 0)
            return failed(NO_SPACE);
    }
    return REAL(write)(file, bytes, size);
}

/* Lists the next of the numbers that stand before a folder's own names, and returns how many bytes they take. */
static size_t list_numbers(struct entry *entries, size_t most) {
    static long listed;
    long wanted = number("NAMES", 0);
    size_t count = 0;
    for (; listed < wanted && count < most; count++) {
        entries[count] = (struct entry){.inode = 1, .size = sizeof *entries, .kind = REGULAR};
        snprintf(entries[count].name, sizeof entries->name, "%ld", ++listed);
    }
    return count * sizeof *entries;
}

ssize_t getdents64(int file, void *entries, size_t size) {
    const char *folder = getenv("FOLDER");
    if (is_to_fail("list", name_of(file)))
        return -1;
    size_t taken = folder && strcmp(name_of(file), folder) == 0 ? list_numbers(entries, size / sizeof(struct entry)) : 0;
    return taken ? (ssize_t)taken : REAL(getdents64)(file, entries, size);
}

int ftruncate(int file, long size) {
    return is_to_fail("empty", name_of(file)) ? -1 : REAL(ftruncate)(file, size);
}

int fsync(int file) {
    return is_to_fail("sync", name_of(file)) ? -1 : REAL(fsync)(file);
}

int flock(int file, int how) {
    return is_to_fail("lock", name_of(file)) ? -1 : REAL(flock)(file, how);
}

int mkdir(const char *path, unsigned mode) {
    return is_to_fail("make", path) ? -1 : REAL(mkdir)(path, mode);
}

int statx(int folder, const char *path, int flags, unsigned mask, void *found) {
    const char *name = *path ? path : name_of(folder);
    if (!*path && is_gone)
        remove(name);
    int status = is_to_fail(*path ? "look at" : "look through", name) ? -1 : REAL(statx)(folder, path, flags, mask, found);
    if (status == 0 && !*path && differs)
        ((char *)found)[differs] ^= 1;
    /* the times of access, making, change and modification */
    struct moment *moments = (struct moment *)((char *)found + 64);
    if (status == 0) {
        moments[2] = moments[3];
        moments[0] = moments[1] = moments[3] = moment_of(number("MODIFIED", 0));
    }
    return status;
}

int unlink(const char *path) {
    return is_to_fail("remove", path) ? -1 : REAL(unlink)(path);
}

int rmdir(const char *path) {
    return is_to_fail("remove", path) ? -1 : REAL(rmdir)(path);
}

int rename(const char *from, const char *to) {
    if (getenv("GONE")) {
        REAL(unlink)(from);
        plant(getenv("GONE"), from);
    }
    return is_to_fail("move", from) ? -1 : REAL(rename)(from, to);
}

int clock_gettime(int clock, struct moment *shown) {
    (void)clock;
    *shown = now();
    return is_to_fail("clock", "") ? -1 : 0;
}

int nanosleep(const struct moment *asked, struct moment *left) {
    long millis = asked->seconds * 1000 + asked->nanos / 1000000;
    char shown[32];
    (void)left;
    snprintf(shown, sizeof shown, "%ld", millis);
    tell("sleep", shown);
    passed += millis;
    return 0;
}
