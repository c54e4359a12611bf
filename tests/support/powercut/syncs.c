/* Stands before the syncs of a program that it is loaded into (LD_PRELOAD). SYNCS_LEFT_OUT has the kinds of those that
   answer 0 and do nothing, with a space between two: `file` is a plain file, `ledger` and `record` are those of the
   companion, `listed_new` and `listed_cur` a folder of that name that was listed, `new` and `cur` the same once all was
   placed, `folder` another folder, and `disk` all of a disk. Where READER_AFTER is one of these kinds of `new`, a mail
   reader takes a message from there to `cur` after its sync. */
#define _GNU_SOURCE
#include <dirent.h>
#include <dlfcn.h>
#include <stdio.h>
#include <stdlib.h>
#include <string.h>
#include <sys/stat.h>
#include <unistd.h>

enum { PATH = 4096, DIGEST = 64 };

/* The function that stands behind this one. */
#define REAL(name) ((__typeof__(&name))dlsym(RTLD_NEXT, #name))

/* The kind of an open file, and the path of a folder. A run syncs `new` and `cur` first once each was listed, then once
   all was placed. */
static const char *kind_of(int file, char path[PATH]) {
    static int synced_new, synced_cur;
    char link[64];
    struct stat state;
    path[0] = 0;
    snprintf(link, sizeof link, "/proc/self/fd/%d", file);
    ssize_t length = readlink(link, path, PATH - 1);
    path[length > 0 ? length : 0] = 0;
    const char *last = strrchr(path, '/');
    if (last && strcmp(last, "/mbox2maildir-messages") == 0)
        return "ledger";
    if (last && strcmp(last, "/mbox2maildir-record") == 0)
        return "record";
    if (fstat(file, &state) || !S_ISDIR(state.st_mode))
        return "file";
    if (last && strcmp(last, "/new") == 0)
        return synced_new++ % 2 ? "new" : "listed_new";
    if (last && strcmp(last, "/cur") == 0)
        return synced_cur++ % 2 ? "cur" : "listed_cur";
    return "folder";
}

/* Whether a variable of the environment names a kind. */
static int names(const char *variable, const char *kind) {
    size_t length = strlen(kind);
    for (const char *at = getenv(variable); at; at = strchr(at, ' ')) {
        at += *at == ' ';
        if (strncmp(at, kind, length) == 0 && (at[length] == 0 || at[length] == ' '))
            return 1;
    }
    return 0;
}

/* Whether a name is a converter's without flags: a digest, a dot, digits. */
static int is_unflagged(const char *name) {
    const char *number = name + DIGEST + 1;
    return strlen(name) > DIGEST + 1 && name[DIGEST] == '.' && number[strspn(number, "0123456789")] == 0;
}

/* Takes the first message of a folder `new` to `cur` beside it. */
static void read_one(const char *path) {
    char old[2 * PATH], moved[2 * PATH];
    struct dirent *entry;
    DIR *listed = opendir(path);
    while (listed && (entry = readdir(listed)))
        if (is_unflagged(entry->d_name)) {
            int maildir = (int)(strlen(path) - strlen("/new"));
            snprintf(old, sizeof old, "%s/%s", path, entry->d_name);
            snprintf(moved, sizeof moved, "%.*s/cur/%s:2,S", maildir, path, entry->d_name);
            rename(old, moved);
            break;
        }
    if (listed)
        closedir(listed);
}

int fsync(int file) {
    char path[PATH];
    const char *kind = kind_of(file, path);
    int answer = names("SYNCS_LEFT_OUT", kind) ? 0 : REAL(fsync)(file);
    if (names("READER_AFTER", kind))
        read_one(path);
    return answer;
}

int syncfs(int file) { return names("SYNCS_LEFT_OUT", "disk") ? 0 : REAL(syncfs)(file); }
