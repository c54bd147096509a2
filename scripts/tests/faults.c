/* Loaded before a program under test, so that what the system gives it fails where the test says:
 *
 *   FAIL_ALLOCATION=N  the Nth allocation of the process fails, once
 *   FAIL_READ=K        the Kth read of standard input fails
 *   FAIL_FILE_READ=K   the Kth read of another file fails
 *   FAIL_WRITE=K       the Kth write to standard output fails
 *   SHORT_WRITE=M      a write to standard output takes at most M octets
 *   TAKE_ALL=M         standard output takes M octets in all, and then none
 *   FAIL_JOURNAL_WRITE=K   the Kth write to a file other than standard output fails
 *   SHORT_JOURNAL_WRITE=M  such a write takes at most M octets
 *   FAIL_SYNC=K        the Kth fdatasync or fsync fails, and what came to its file behind the last
 *                      one is lost, as where the power fails
 *   SLOW_SYNC=M        each fdatasync and fsync takes M milliseconds more
 *   STOP_AT_SYNC=K     at the Kth fdatasync the file system stops: what came to the file behind the
 *                      one before is lost, though the call says that all is well, and from then on
 *                      no file is given another length
 *   MOVE_AT_SYNC=K     at the Kth fdatasync or fsync, somebody moves the first chapter of `history`
 *                      to `moved`, and puts another file in its place
 *   SWAP_AT_SYNC=K     at the Kth, somebody puts another file in the place of that chapter's copy
 *   FAIL_OPEN=K        the Kth file that is opened in the folder `history`, or that folder, isn't
 *   FAIL_LOCK=K        the Kth file that is to be locked isn't
 *   FAIL_RENAME=K      the Kth file that is to be named anew isn't
 *   FAIL_RECEIVE=K     the Kth read of a socket fails
 *   FAIL_SEND=K        the Kth write to a socket fails
 *   BLOCK_SEND=K       the Kth write to a socket would block, and so would each later one while
 *                      the file of MET is there
 *   SHORT_SEND=M       a write to a socket takes at most M octets
 *   FAIL_SOCKET=K      the Kth socket isn't made
 *   FAIL_BIND=K        the Kth socket gets no address
 *   FAIL_LISTEN=K      the Kth socket that is to listen doesn't
 *   FAIL_NAME=K        the Kth question for a socket's address fails
 *   FAIL_CONNECT=K     the Kth connection isn't made
 *   FAIL_ACCEPT=K      the Kth connection isn't accepted
 *   FAIL_THREAD=K      the Kth thread isn't started
 *   FAIL_THREADS=K     no thread is started from the Kth on
 *   START_TOGETHER=N   the first N threads that are started, 16 at most, run once all of them are
 *   INTERRUPT=1        every second read, of any file or socket, every second write, to standard
 *                      output, a file or a socket, and every second fdatasync is interrupted
 *   MET=FILE           is made when a call met its fault
 */
#define _GNU_SOURCE
#include <dlfcn.h>
#include <errno.h>
#include <fcntl.h>
#include <pthread.h>
#include <stdarg.h>
#include <stdlib.h>
#include <string.h>
#include <sys/socket.h>
#include <sys/stat.h>
#include <sys/syscall.h>
#include <unistd.h>

#define HISTORY "history"
#define CHAPTER HISTORY "/000001.journal"
#define SYNCED_FILES 64

extern void *__libc_malloc(size_t size);
extern void *__libc_realloc(void *old, size_t size);
extern void *__libc_calloc(size_t count, size_t size);
extern void *__libc_memalign(size_t alignment, size_t size);

static long number(const char *name)
{
    const char *text = getenv(name);
    return text ? atol(text) : 0;
}

/* Opens a file, whatever is to fail. */
static int open_file(const char *path, int flags, int mode)
{
    return syscall(SYS_openat, AT_FDCWD, path, flags, mode);
}

static void note_met(void)
{
    const char *path = getenv("MET");
    if (path)
        close(open_file(path, O_CREAT | O_WRONLY, 0600));
}

/* Is this the call that fails? */
static int fails(const char *name, long *calls)
{
    long wanted = number(name);
    if (wanted == 0 || ++*calls != wanted)
        return 0;
    note_met();
    return 1;
}

static long allocations, reads, file_reads, writes, taken, received, sent, blocked;
static long file_writes, syncs, stops, moves, swaps, locks, renames, opens;
static int has_stopped;
static int read_before, file_read_before, written_before, received_before, sent_before;
static int file_written_before, synced_before;

/* Is this the allocation that fails? The system says so, too. */
static int fails_to_allocate(void)
{
    if (!fails("FAIL_ALLOCATION", &allocations))
        return 0;
    errno = ENOMEM;
    return 1;
}

void *malloc(size_t size)
{
    return fails_to_allocate() ? NULL : __libc_malloc(size);
}

void *calloc(size_t count, size_t size)
{
    return fails_to_allocate() ? NULL : __libc_calloc(count, size);
}

void *realloc(void *old, size_t size)
{
    return fails_to_allocate() ? NULL : __libc_realloc(old, size);
}

void *aligned_alloc(size_t alignment, size_t size)
{
    return fails_to_allocate() ? NULL : __libc_memalign(alignment, size);
}

int posix_memalign(void **result, size_t alignment, size_t size)
{
    void *memory = aligned_alloc(alignment, size);
    if (!memory)
        return ENOMEM;
    *result = memory;
    return 0;
}

/* Is this call interrupted, since the one before it wasn't? */
static int interrupts(int *before)
{
    if (!number("INTERRUPT"))
        return 0;
    *before = !*before;
    if (*before) {
        errno = EINTR;
        note_met();
    }
    return *before;
}

ssize_t read(int file, void *to, size_t size)
{
    if (file == 0) {
        if (interrupts(&read_before))
            return -1;
        if (fails("FAIL_READ", &reads)) {
            errno = EIO;
            return -1;
        }
    } else {
        if (interrupts(&file_read_before))
            return -1;
        if (fails("FAIL_FILE_READ", &file_reads)) {
            errno = EIO;
            return -1;
        }
    }
    return syscall(SYS_read, file, to, size);
}

/* So many octets a file has; -1 of what is none on a disk. */
static long size_of(int file)
{
    struct stat status;
    return fstat(file, &status) == 0 && S_ISREG(status.st_mode) ? (long)status.st_size : -1;
}

/* Does this write to a file fail? If not, so many octets it takes at most. */
static int fails_to_store(size_t *size)
{
    if (interrupts(&file_written_before))
        return 1;
    if (fails("FAIL_JOURNAL_WRITE", &file_writes)) {
        errno = ENOSPC;
        return 1;
    }
    if (number("SHORT_JOURNAL_WRITE") && *size > (size_t)number("SHORT_JOURNAL_WRITE")) {
        *size = number("SHORT_JOURNAL_WRITE");
        note_met();
    }
    return 0;
}

ssize_t write(int file, const void *text, size_t size)
{
    if (file != 1 && file != 2 && size_of(file) >= 0 && fails_to_store(&size))
        return -1;
    if (file == 1) {
        if (interrupts(&written_before))
            return -1;
        if (fails("FAIL_WRITE", &writes)) {
            errno = EIO;
            return -1;
        }
        if (number("SHORT_WRITE") && size > (size_t)number("SHORT_WRITE")) {
            size = number("SHORT_WRITE");
            note_met();
        }
        if (getenv("TAKE_ALL")) {
            size_t left = number("TAKE_ALL") - taken;
            if (size > left) {
                note_met();
                size = left;
            }
            if (size == 0)
                return 0;
            taken += size;
        }
    }
    return syscall(SYS_write, file, text, size);
}

/* Of each file that was flushed how many octets it had then, by its number on the disk. */
static struct {
    ino_t file;
    long size;
} synced_files[SYNCED_FILES];

/* Where it is noted of this file how many of its octets were flushed last. */
static long *find_synced(int file)
{
    struct stat status;
    int place = 0;
    fstat(file, &status);
    while (place < SYNCED_FILES - 1 && synced_files[place].file != 0
           && synced_files[place].file != status.st_ino)
        place++;
    if (synced_files[place].file != status.st_ino)
        synced_files[place].size = 0;
    synced_files[place].file = status.st_ino;
    return &synced_files[place].size;
}

/* What came to the file after its last flush is lost, as where the power fails. */
static void lose_unsynced(int file)
{
    if (size_of(file) > *find_synced(file))
        (void)!syscall(SYS_ftruncate, file, *find_synced(file));
}

/* Somebody moves a file, if there is one, or removes it, and puts another one in its place. */
static void replace_file(const char *path, const char *to)
{
    if (to)
        (void)!syscall(SYS_rename, path, to);
    else
        (void)!syscall(SYS_unlink, path);
    close(open_file(path, O_CREAT | O_WRONLY | O_EXCL, 0600));
}

/* Does this fdatasync or fsync fail? The system may have kept nothing behind the one before it. */
static int fails_to_sync(int file)
{
    if (interrupts(&synced_before))
        return 1;
    if (fails("MOVE_AT_SYNC", &moves))
        replace_file(CHAPTER, "moved");
    if (fails("SWAP_AT_SYNC", &swaps))
        replace_file(CHAPTER ".starting", NULL);
    if (fails("FAIL_SYNC", &syncs)) {
        lose_unsynced(file);
        errno = EIO;
        return 1;
    }
    return 0;
}

static int sync_by(long call, int file)
{
    usleep(1000 * number("SLOW_SYNC"));
    if (fails_to_sync(file))
        return -1;
    int done = syscall(call, file);
    if (done == 0 && size_of(file) >= 0)
        *find_synced(file) = size_of(file);
    return done;
}

int fdatasync(int file)
{
    if (fails("STOP_AT_SYNC", &stops)) {
        has_stopped = 1;
        lose_unsynced(file);
        return 0;
    }
    return sync_by(SYS_fdatasync, file);
}

int ftruncate(int file, off_t size)
{
    if (has_stopped) {
        errno = EROFS;
        return -1;
    }
    return syscall(SYS_ftruncate, file, size);
}

int ftruncate64(int file, off64_t size)
{
    return ftruncate(file, size);
}

int fsync(int file)
{
    return sync_by(SYS_fsync, file);
}

/* Does opening this file fail? */
static int fails_to_open(const char *path)
{
    size_t length = sizeof HISTORY - 1;
    if (strncmp(path, HISTORY, length) || (path[length] != 0 && path[length] != '/'))
        return 0;
    if (!fails("FAIL_OPEN", &opens))
        return 0;
    errno = EIO;
    return 1;
}

int openat(int folder, const char *path, int flags, ...)
{
    va_list more;
    va_start(more, flags);
    int mode = flags & O_CREAT ? va_arg(more, int) : 0;
    va_end(more);
    return fails_to_open(path) ? -1 : syscall(SYS_openat, folder, path, flags, mode);
}

int open(const char *path, int flags, ...)
{
    va_list more;
    va_start(more, flags);
    int mode = flags & O_CREAT ? va_arg(more, int) : 0;
    va_end(more);
    return fails_to_open(path) ? -1 : open_file(path, flags, mode);
}

int flock(int file, int how)
{
    if (fails("FAIL_LOCK", &locks)) {
        errno = ENOLCK;
        return -1;
    }
    return syscall(SYS_flock, file, how);
}

int rename(const char *old, const char *new)
{
    if (fails("FAIL_RENAME", &renames)) {
        errno = EIO;
        return -1;
    }
    return syscall(SYS_rename, old, new);
}

ssize_t recv(int socket, void *to, size_t size, int flags)
{
    if (interrupts(&received_before))
        return -1;
    if (fails("FAIL_RECEIVE", &received)) {
        errno = EIO;
        return -1;
    }
    return syscall(SYS_recvfrom, socket, to, size, flags, NULL, NULL);
}

/* Would this write to a socket block? */
static int would_block(void)
{
    long wanted = number("BLOCK_SEND");
    const char *path = getenv("MET");
    if (fails("BLOCK_SEND", &blocked))
        return 1;
    return wanted && blocked > wanted && path && access(path, F_OK) == 0;
}

ssize_t send(int socket, const void *text, size_t size, int flags)
{
    if (interrupts(&sent_before))
        return -1;
    if (fails("FAIL_SEND", &sent)) {
        errno = EIO;
        return -1;
    }
    if (would_block()) {
        errno = EAGAIN;
        return -1;
    }
    if (number("SHORT_SEND") && size > (size_t)number("SHORT_SEND")) {
        size = number("SHORT_SEND");
        note_met();
    }
    return syscall(SYS_sendto, socket, text, size, flags, NULL, 0);
}

static long sockets, bound, listening, named, connected, accepted, threads;

/* Does this call fail, with this error? */
static int fails_with(const char *name, long *calls, int error)
{
    if (!fails(name, calls))
        return 0;
    errno = error;
    return 1;
}

int socket(int domain, int type, int protocol)
{
    if (fails_with("FAIL_SOCKET", &sockets, EMFILE))
        return -1;
    return syscall(SYS_socket, domain, type, protocol);
}

int bind(int socket, const struct sockaddr *address, socklen_t size)
{
    if (fails_with("FAIL_BIND", &bound, EADDRINUSE))
        return -1;
    return syscall(SYS_bind, socket, address, size);
}

int listen(int socket, int backlog)
{
    if (fails_with("FAIL_LISTEN", &listening, EADDRINUSE))
        return -1;
    return syscall(SYS_listen, socket, backlog);
}

int getsockname(int socket, struct sockaddr *address, socklen_t *size)
{
    if (fails_with("FAIL_NAME", &named, ENOBUFS))
        return -1;
    return syscall(SYS_getsockname, socket, address, size);
}

int connect(int socket, const struct sockaddr *address, socklen_t size)
{
    if (fails_with("FAIL_CONNECT", &connected, ECONNREFUSED))
        return -1;
    return syscall(SYS_connect, socket, address, size);
}

int accept4(int socket, struct sockaddr *address, socklen_t *size, int flags)
{
    if (fails_with("FAIL_ACCEPT", &accepted, EMFILE))
        return -1;
    return syscall(SYS_accept4, socket, address, size, flags);
}

int accept(int socket, struct sockaddr *address, socklen_t *size)
{
    return accept4(socket, address, size, 0);
}

/* A thread that waits until the others are started. */
struct start {
    void *(*run)(void *);
    void *given;
};

enum { MOST_THREADS = 16 };

static struct start starts[MOST_THREADS];
static pthread_barrier_t all_started;
static long started;

static void *run_together(void *start)
{
    pthread_barrier_wait(&all_started);
    return ((struct start *)start)->run(((struct start *)start)->given);
}

/* Threads are started by the main thread alone, so that they are counted in their order. */
int pthread_create(pthread_t *thread, const pthread_attr_t *how, void *(*run)(void *), void *given)
{
    int (*real)(pthread_t *, const pthread_attr_t *, void *(*)(void *), void *) =
        dlsym(RTLD_NEXT, "pthread_create");
    long first = number("FAIL_THREADS"), together = number("START_TOGETHER");
    if (fails("FAIL_THREAD", &threads))
        return EAGAIN;
    if (first != 0 && ++threads >= first) {
        note_met();
        return EAGAIN;
    }
    if (started >= together || together > MOST_THREADS)
        return real(thread, how, run, given);
    if (started == 0)
        pthread_barrier_init(&all_started, NULL, together);
    starts[started] = (struct start){run, given};
    note_met();
    return real(thread, how, run_together, &starts[started++]);
}
