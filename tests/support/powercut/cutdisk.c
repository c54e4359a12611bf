/* A disk that keeps a log: a FUSE file system of two files. `disk` is the backing file of a loop device; each write,
   each discard and each flush of it is appended to the log as it arrives. What is written to `mark` is put between
   them.

   cutdisk IMAGE LOG MOUNTPOINT: IMAGE has the disk's bytes and its size. LOG gets records of a head (a letter, seven
   bytes of nothing, offset and length in 64 bits each, as the machine has them) and the bytes of a write or a mark.
   It ends when it is unmounted. One thread does all, so that the log has one order. */
#define FUSE_USE_VERSION 31
#define _GNU_SOURCE
#include <errno.h>
#include <fcntl.h>
#include <fuse3/fuse.h>
#include <stdint.h>
#include <stdio.h>
#include <stdlib.h>
#include <string.h>
#include <sys/stat.h>
#include <sys/uio.h>
#include <unistd.h>

enum letter { WRITE = 'W', ZEROS = 'Z', FLUSH = 'F', MARK = 'M' };

struct head {
    char letter, nothing[7];
    uint64_t offset, length;
};

static int image, log_file;

static int is_disk(const char *path) { return strcmp(path, "/disk") == 0; }

static int is_mark(const char *path) { return strcmp(path, "/mark") == 0; }

static void record(enum letter letter, uint64_t offset, uint64_t length, const void *bytes) {
    struct head head = {letter, {0}, offset, length};
    struct iovec parts[2] = {{&head, sizeof head}, {(void *)bytes, bytes ? length : 0}};
    if (writev(log_file, parts, 2) != (ssize_t)(sizeof head + parts[1].iov_len)) {
        perror("cutdisk: the log");
        abort();
    }
}

static int get_attributes(const char *path, struct stat *state, struct fuse_file_info *info) {
    (void)info;
    memset(state, 0, sizeof *state);
    state->st_nlink = 1;
    state->st_mode = strcmp(path, "/") == 0 ? S_IFDIR | 0700 : S_IFREG | 0600;
    if (is_disk(path)) {
        struct stat of_image;
        fstat(image, &of_image);
        state->st_size = of_image.st_size;
    } else if (!is_mark(path) && strcmp(path, "/") != 0)
        return -ENOENT;
    return 0;
}

static int list(const char *path, void *names, fuse_fill_dir_t fill, off_t offset, struct fuse_file_info *info,
                enum fuse_readdir_flags flags) {
    (void)path, (void)offset, (void)info, (void)flags;
    fill(names, "disk", NULL, 0, 0);
    fill(names, "mark", NULL, 0, 0);
    return 0;
}

/* Nothing is kept in a cache: each write comes at once. */
static int open_one(const char *path, struct fuse_file_info *info) {
    (void)path;
    info->direct_io = 1;
    return 0;
}

static int cut(const char *path, off_t size, struct fuse_file_info *info) {
    (void)size, (void)info;
    return is_mark(path) ? 0 : -EPERM;
}

static int read_one(const char *path, char *bytes, size_t length, off_t offset, struct fuse_file_info *info) {
    (void)info;
    ssize_t got = is_disk(path) ? pread(image, bytes, length, offset) : 0;
    return got < 0 ? -errno : (int)got;
}

static int write_one(const char *path, const char *bytes, size_t length, off_t offset, struct fuse_file_info *info) {
    (void)info;
    if (is_mark(path)) {
        record(MARK, 0, length, bytes);
        return (int)length;
    }
    record(WRITE, (uint64_t)offset, length, bytes);
    ssize_t done = pwrite(image, bytes, length, offset);
    return done < 0 ? -errno : (int)done;
}

static int sync_one(const char *path, int only_data, struct fuse_file_info *info) {
    (void)only_data, (void)info;
    if (is_disk(path))
        record(FLUSH, 0, 0, NULL);
    return 0;
}

/* A discard, or zeros that are written: either way the bytes are zeros then. */
static int allocate(const char *path, int mode, off_t offset, off_t length, struct fuse_file_info *info) {
    (void)info;
    if (!is_disk(path) || !(mode & (FALLOC_FL_PUNCH_HOLE | FALLOC_FL_ZERO_RANGE)))
        return -EOPNOTSUPP;
    record(ZEROS, (uint64_t)offset, (uint64_t)length, NULL);
    return fallocate(image, FALLOC_FL_PUNCH_HOLE | FALLOC_FL_KEEP_SIZE, offset, length) ? -errno : 0;
}

static const struct fuse_operations operations = {
    .getattr = get_attributes, .readdir = list, .open = open_one, .truncate = cut,
    .read = read_one, .write = write_one, .fsync = sync_one, .fallocate = allocate,
};

int main(int count, char **words) {
    if (count != 4)
        return fprintf(stderr, "cutdisk IMAGE LOG MOUNTPOINT\n"), 2;
    image = open(words[1], O_RDWR | O_CLOEXEC);
    log_file = open(words[2], O_WRONLY | O_CREAT | O_TRUNC | O_APPEND | O_CLOEXEC, 0600);
    if (image < 0 || log_file < 0)
        return perror("cutdisk"), 1;
    char *of_fuse[] = {words[0], "-f", "-s", words[3]};
    return fuse_main(4, of_fuse, &operations, NULL);
}
