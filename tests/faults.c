/* Stands between a program and the C library: read, write and nanosleep with faults. Preloaded (LD_PRELOAD) by tests/streams.rs.

   READ_FAULTS is for reads of standard input, WRITE_FAULTS for writes to standard output: words, one for each call.
       eN      the call fails with errno N          NxeN    the same N times          e*N    from here on every call fails with errno N
       N       the call moves at most N bytes
   Past the last word calls go through. A program that is still at it after 100,000 calls is ended, with status 3.
   nanosleep doesn't wait; PAUSES names a file that gets the number of its calls at the end. */
#define _GNU_SOURCE
#include <errno.h>
#include <stdio.h>
#include <stdlib.h>
#include <string.h>
#include <sys/syscall.h>
#include <time.h>
#include <unistd.h>

struct faults {
    const char *variable;
    const char *at;  /* the word that the next call takes */
    long left;       /* how often the word before it is still to be taken */
    int error;       /* the error of that word */
    int started, always;
};

static struct faults reads = {"READ_FAULTS", 0, 0, 0, 0, 0}, writes = {"WRITE_FAULTS", 0, 0, 0, 0, 0};
static long calls, pauses;

/* The error with which the next call fails, or 0; then *most is how many bytes it moves at most. */
static int next(struct faults *f, size_t *most) {
    char *end;
    long n;
    if (++calls > 100000) _exit(3);
    if (!f->started) {
        f->started = 1;
        f->at = getenv(f->variable);
    }
    if (f->always) return f->error;
    if (f->left > 0) {
        f->left--;
        return f->error;
    }
    while (f->at && *f->at == ' ') f->at++;
    if (!f->at || !*f->at) return 0;
    if (strncmp(f->at, "e*", 2) == 0) {
        f->error = (int)strtol(f->at + 2, &end, 10);
        f->always = 1;
    } else if (*f->at == 'e') {
        f->error = (int)strtol(f->at + 1, &end, 10);
    } else {
        n = strtol(f->at, &end, 10);
        if (strncmp(end, "xe", 2) == 0) {
            f->error = (int)strtol(end + 2, &end, 10);
            f->left = n - 1;
        } else {
            if ((size_t)n < *most) *most = (size_t)n;
            f->at = end;
            return 0;
        }
    }
    f->at = end;
    return f->error;
}

ssize_t read(int fd, void *buffer, size_t size) {
    int error = fd == STDIN_FILENO ? next(&reads, &size) : 0;
    if (error) {
        errno = error;
        return -1;
    }
    return syscall(SYS_read, fd, buffer, size);
}

ssize_t write(int fd, const void *buffer, size_t size) {
    int error = fd == STDOUT_FILENO ? next(&writes, &size) : 0;
    if (error) {
        errno = error;
        return -1;
    }
    return size == 0 ? 0 : syscall(SYS_write, fd, buffer, size);
}

int nanosleep(const struct timespec *asked, struct timespec *left) {
    (void)asked;
    (void)left;
    pauses++;
    return 0;
}

__attribute__((destructor)) static void report(void) {
    const char *name = getenv("PAUSES");
    FILE *file = name ? fopen(name, "w") : 0;
    if (file) {
        fprintf(file, "%ld", pauses);
        fclose(file);
    }
}
