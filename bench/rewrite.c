/* Writes an mbox text in its regular spelling, as `mbox2maildir rewrite` does: the plain C program to be timed beside it.
 *
 * A line that is read loses a `>` and gets it back when it is written, so the lines of a body stay as they are. What is
 * left to do is at the ends of messages: a body's missing line end, and the blank line. */
#include <stdio.h>
#include <stdlib.h>
#include <string.h>
#include <unistd.h>

enum { PIECE = 65536 };

static char in[PIECE], out[PIECE];
static size_t filled;

static void fail(const char *text) {
    fprintf(stderr, "rewrite: %s\n", text);
    exit(1);
}

static void flush(void) {
    for (size_t at = 0; at < filled;) {
        ssize_t n = write(1, out + at, filled - at);
        if (n <= 0)
            fail("the output could not be written");
        at += n;
    }
    filled = 0;
}

static void put(const char *bytes, size_t len) {
    if (len > PIECE - filled)
        flush();
    memcpy(out + filled, bytes, len);
    filled += len;
}

/* What has come of the line that is being read: its first bytes, and how many there are. */
static char head[5];
static size_t length;

/* Whether a message was begun, and whether its last whole line is a blank one after its From_ line. */
static int in_message, blank;

static void end_message(void) {
    if (in_message && !blank)
        put("\n", 1);
}

/* Takes a part of a line, with no line end. Nothing is written of a line before its head is known. */
static void take_part(const char *bytes, size_t len) {
    size_t had = length;
    length += len;
    if (had >= sizeof head) {
        put(bytes, len);
        return;
    }
    memcpy(head + had, bytes, length < sizeof head ? len : sizeof head - had);
    if (length < sizeof head)
        return;
    if (memcmp(head, "From ", sizeof head) == 0) {
        end_message();
        in_message = 1;
    } else if (!in_message) {
        fail("no From line at the start");
    }
    put(head, had);
    put(bytes, len);
}

static void end_line(void) {
    if (!in_message)
        fail("no From line at the start");
    if (length < sizeof head)
        put(head, length);
    put("\n", 1);
    blank = length == 0;
    length = 0;
}

int main(void) {
    ssize_t n;
    while ((n = read(0, in, PIECE)) > 0) {
        const char *at = in, *end = in + n, *stop;
        while ((stop = memchr(at, '\n', end - at)) != NULL) {
            take_part(at, stop - at);
            end_line();
            at = stop + 1;
        }
        if (at < end)
            take_part(at, end - at);
    }
    if (n < 0)
        fail("the source could not be read");
    if (length > 0)
        end_line();
    end_message();
    flush();
    return 0;
}
