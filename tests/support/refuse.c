/* Refuses allocations of the program that it is loaded into (LD_PRELOAD). REFUSE is the number of one, counted from 1 over
   the calls of malloc and realloc; with `..` after it, all that follow are refused too. For each that is refused a
   byte goes to the file 3, so a test can tell whether the program came so far. It needs no headers, so that any C
   compiler makes it. */
typedef unsigned long size_t;

char *getenv(const char *);
void *dlsym(void *, const char *);
long write(int, const void *, size_t);

#define NEXT ((void *)-1)

static unsigned long refused, seen;
static int and_all_after;

static void read_number(void) {
    const char *at = getenv("REFUSE");
    if (!at)
        return;
    while (*at >= '0' && *at <= '9')
        refused = 10 * refused + (unsigned long)(*at++ - '0');
    and_all_after = *at == '.';
}

static int is_refused(void) {
    if (seen == 0)
        read_number();
    seen++;
    if (refused == 0 || (and_all_after ? seen < refused : seen != refused))
        return 0;
    write(3, "x", 1);
    return 1;
}

void *malloc(size_t size) {
    static void *(*real)(size_t);
    if (!real)
        real = (void *(*)(size_t))dlsym(NEXT, "malloc");
    return is_refused() ? 0 : real(size);
}

void *realloc(void *block, size_t size) {
    static void *(*real)(void *, size_t);
    if (!real)
        real = (void *(*)(void *, size_t))dlsym(NEXT, "realloc");
    return is_refused() ? 0 : real(block, size);
}
