/*
 * Calls that do not go smoothly: put ahead of the C library (LD_PRELOAD), it
 * lets read, write and close move few bytes, be interrupted, or fail.
 *
 * Only in the program that FAULTS_IN names, so that a shell that starts it is
 * left alone. The other variables are numbers; one that is not set does
 * nothing:
 *
 *   FAULTS_READ_MOST        bytes that a read gives at most
 *   FAULTS_WRITE_MOST       bytes that a write takes at most
 *   FAULTS_INTERRUPT        calls in a row that are interrupted (EINTR) ahead of
 *                           each read, and of each write, that is not
 *   FAULTS_READ_FAILS_AT    bytes after which reads fail (EIO)
 *   FAULTS_WRITE_FAILS_AT   bytes after which writes fail (ENOSPC)
 *   FAULTS_WRITE_STOPS_AT   bytes after which writes take nothing and answer 0
 *   FAULTS_CLOSE_ERROR      the error (errno) of closing standard output, which
 *                           is closed all the same
 *
 * Writes to standard error are left alone.
 */
#define _GNU_SOURCE

#include <errno.h>
#include <limits.h>
#include <stdlib.h>
#include <string.h>
#include <sys/syscall.h>
#include <unistd.h>

/* Calls of one sort, and the bytes that they have moved. */
struct calls {
    const char *most, *fails_at;
    int error;
    size_t count, moved;
};

static struct calls reads = {"FAULTS_READ_MOST", "FAULTS_READ_FAILS_AT", EIO, 0, 0};
static struct calls writes = {"FAULTS_WRITE_MOST", "FAULTS_WRITE_FAILS_AT", ENOSPC, 0, 0};

static int acts(void) {
    const char *name = getenv("FAULTS_IN");
    return name != NULL && strcmp(name, program_invocation_short_name) == 0;
}

/* The number that a variable holds, or another if it is not set. */
static size_t number(const char *variable, size_t other) {
    const char *text = getenv(variable);
    return text == NULL ? other : strtoull(text, NULL, 10);
}

/* How many of so many bytes a call may move, or -1 with errno. */
static ssize_t allowed(struct calls *calls, size_t size) {
    size_t most = number(calls->most, SSIZE_MAX);
    size_t left = number(calls->fails_at, SSIZE_MAX) - calls->moved;
    size_t interrupted = number("FAULTS_INTERRUPT", 0);
    if (calls->count++ % (interrupted + 1) < interrupted) {
        errno = EINTR;
        return -1;
    }
    if (size > 0 && left == 0) {
        errno = calls->error;
        return -1;
    }
    size = size < most ? size : most;
    return (ssize_t)(size < left ? size : left);
}

static ssize_t moved(struct calls *calls, ssize_t bytes) {
    calls->moved += bytes > 0 ? (size_t)bytes : 0;
    return bytes;
}

ssize_t read(int descriptor, void *block, size_t size) {
    if (!acts())
        return syscall(SYS_read, descriptor, block, size);
    ssize_t most = allowed(&reads, size);
    return most < 0 ? -1 : moved(&reads, syscall(SYS_read, descriptor, block, most));
}

ssize_t write(int descriptor, const void *bytes, size_t size) {
    if (!acts() || descriptor == STDERR_FILENO)
        return syscall(SYS_write, descriptor, bytes, size);
    size_t room = number("FAULTS_WRITE_STOPS_AT", SSIZE_MAX) - writes.moved;
    ssize_t most = allowed(&writes, size < room ? size : room);
    return most < 0 ? -1 : moved(&writes, syscall(SYS_write, descriptor, bytes, most));
}

int close(int descriptor) {
    int answer = (int)syscall(SYS_close, descriptor);
    int error = (int)number("FAULTS_CLOSE_ERROR", 0);
    if (answer != 0 || error == 0 || descriptor != STDOUT_FILENO || !acts())
        return answer;
    errno = error;
    return -1;
}
