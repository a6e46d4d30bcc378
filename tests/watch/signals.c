/* Loaded before a program (LD_PRELOAD). SIGNALS: one comes every millisecond, and ends each call of the system that waits.
 * READ_FAILS_AFTER: each read takes 5 bytes at most, and after so many reads every one fails. WRITE_TAKES_NOTHING: to standard
 * output. CLOSE_FAILS: what was written to a file cannot be kept; CLOSE_FAILS=unasked: its file system cannot be asked. */
#define _GNU_SOURCE
#include <errno.h>
#include <signal.h>
#include <stdlib.h>
#include <string.h>
#include <sys/syscall.h>
#include <sys/time.h>
#include <unistd.h>

static int reads_left = -1;

static void ignore(int number) { (void)number; }

__attribute__((constructor)) static void start(void)
{
    const char *after = getenv("READ_FAILS_AFTER");
    if (after)
        reads_left = atoi(after);
    if (!getenv("SIGNALS"))
        return;
    struct sigaction on_alarm = {.sa_handler = ignore}; /* without SA_RESTART */
    struct itimerval each = {{0, 1000}, {0, 1000}};
    sigaction(SIGALRM, &on_alarm, 0);
    setitimer(ITIMER_REAL, &each, 0);
}

ssize_t read(int file, void *to, size_t size)
{
    if (reads_left == 0) {
        errno = EIO;
        return -1;
    }
    if (reads_left > 0) {
        reads_left--;
        if (size > 5)
            size = 5;
    }
    return syscall(SYS_read, file, to, size);
}

ssize_t write(int file, const void *from, size_t size)
{
    if (file == 1 && getenv("WRITE_TAKES_NOTHING"))
        return 0;
    return syscall(SYS_write, file, from, size);
}

int fdatasync(int file)
{
    const char *fails = getenv("CLOSE_FAILS");
    if (fails) {
        errno = strcmp(fails, "unasked") == 0 ? EINVAL : EIO;
        return -1;
    }
    return (int)syscall(SYS_fdatasync, file);
}
