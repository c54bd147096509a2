/* A slow disk for scripts/bench/station --slow-disk. It is no device: loaded before a program (the
 * station and Redis alike), it makes each of its fdatasync and fsync sleep 10 ms and then flush. */
#define _GNU_SOURCE
#include <sys/syscall.h>
#include <unistd.h>

enum { MICROSECONDS = 10000 };

int fdatasync(int file)
{
    usleep(MICROSECONDS);
    return syscall(SYS_fdatasync, file);
}

int fsync(int file)
{
    usleep(MICROSECONDS);
    return syscall(SYS_fsync, file);
}
