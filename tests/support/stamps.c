/* Stands before the C library's `statx` in the program that it is loaded into (LD_PRELOAD), and rounds times of
   change down to what the environment's ROUND says, in seconds: so does a file system that keeps no parts of a
   second, or counts by two. It needs no headers, so that any C compiler makes it. */
struct moment {
    long seconds;
    unsigned nanos;
    int reserved;
};

/* What the system tells of a file: statx(2). */
struct found {
    unsigned char other[96];
    struct moment changed;
    unsigned char rest[144];
};

char *getenv(const char *);
void *dlsym(void *, const char *);

int statx(int folder, const char *path, int flags, unsigned mask, struct found *found) {
    int (*real)(int, const char *, int, unsigned, struct found *) = dlsym((void *)-1, "statx");
    int status = real(folder, path, flags, mask, found);
    if (status == 0) {
        found->changed.seconds -= found->changed.seconds % (*getenv("ROUND") - '0');
        found->changed.nanos = 0;
    }
    return status;
}
