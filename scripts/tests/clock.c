/* Loaded before a program under test: its clock is ahead of the system's by as many seconds as the
 * file says that the environment variable CLOCK_FILE names, or behind it where they are negative.
 * What tells how much time has passed isn't changed. */
#define _GNU_SOURCE
#include <fcntl.h>
#include <stdlib.h>
#include <sys/syscall.h>
#include <time.h>
#include <unistd.h>

static long read_seconds(void) {
    char text[32] = {0};
    long file = syscall(SYS_openat, AT_FDCWD, getenv("CLOCK_FILE"), O_RDONLY, 0);
    if (file < 0) {
        return 0;
    }
    (void)!syscall(SYS_read, file, text, sizeof text - 1);
    syscall(SYS_close, file);
    return atol(text);
}

int clock_gettime(clockid_t clock, struct timespec *time) {
    int answer = syscall(SYS_clock_gettime, clock, time);
    if (clock == CLOCK_REALTIME && answer == 0) {
        time->tv_sec += read_seconds();
    }
    return answer;
}
