// What picolibc asks of a system, over five calls of docs/CALLS.md: read, write, exit, brk and clock_gettime64. All else is
// answered here without a call. The names of POSIX are weak, so that a program may have functions of these names.
#define _POSIX_TIMERS 1
#define _POSIX_MONOTONIC_CLOCK 1

#include <errno.h>
#include <stdint.h>
#include <stdio-bufio.h>
#include <stdio.h>
#include <stdlib.h>
#include <sys/stat.h>
#include <sys/time.h>
#include <sys/times.h>
#include <time.h>
#include <unistd.h>
#include <utime.h>

#define WEAK __attribute__((weak))

// the numbers of the calls
enum { READ = 63, WRITE = 64, EXIT = 93, BRK = 214, CLOCK_GETTIME64 = 403 };

// Makes the call with this number.
static long call(long number, long first, long second, long third) {
    register long a0 __asm__("a0") = first;
    register long a1 __asm__("a1") = second;
    register long a2 __asm__("a2") = third;
    register long a7 __asm__("a7") = number;
    __asm__ volatile("ecall" : "+r"(a0) : "r"(a1), "r"(a2), "r"(a7) : "memory");
    return a0;
}

// Gives what a call gave; where that is an error, a number from -4095 to -1, sets errno and gives -1.
static long checked(long result) {
    if (result < -4095 || result >= 0) return result;
    errno = (int)-result;
    return -1;
}

// Gives -1 with this error.
static int refuse(int error) {
    errno = error;
    return -1;
}

// Files: the standard input, output and error are open, and no other can be opened.

static ssize_t read_some(int file, void *bytes, size_t size) {
    return checked(call(READ, file, (long)bytes, (long)size));
}

static ssize_t write_some(int file, const void *bytes, size_t size) {
    return checked(call(WRITE, file, (long)bytes, (long)size));
}

// No file has a place that can be set.
static off_t stay(int file, off_t to, int from) {
    (void)file, (void)to, (void)from;
    return refuse(ESPIPE);
}

// Nothing is to be done where a file is closed.
static int leave(int file) {
    (void)file;
    return 0;
}

WEAK ssize_t read(int file, void *bytes, size_t size) { return read_some(file, bytes, size); }
WEAK ssize_t write(int file, const void *bytes, size_t size) { return write_some(file, bytes, size); }
WEAK off_t lseek(int file, off_t to, int from) { return stay(file, to, from); }
WEAK int close(int file) { return leave(file); }
WEAK int isatty(int file) { (void)file; return refuse(ENOTTY), 0; }
WEAK int fstat(int file, struct stat *about) { (void)file, (void)about; return refuse(EBADF); }
WEAK int fchmod(int file, mode_t mode) { (void)file, (void)mode; return refuse(EBADF); }
WEAK int fchown(int file, uid_t owner, gid_t group) { (void)file, (void)owner, (void)group; return refuse(EBADF); }
WEAK int ftruncate(int file, off_t size) { (void)file, (void)size; return refuse(EBADF); }

WEAK int open(const char *name, int flags, ...) { (void)name, (void)flags; return refuse(ENOENT); }
WEAK int access(const char *name, int wanted) { (void)name, (void)wanted; return refuse(ENOENT); }
WEAK int stat(const char *restrict name, struct stat *restrict about) { (void)name, (void)about; return refuse(ENOENT); }
WEAK int lstat(const char *restrict name, struct stat *restrict about) { (void)name, (void)about; return refuse(ENOENT); }
WEAK int chmod(const char *name, mode_t mode) { (void)name, (void)mode; return refuse(ENOENT); }
WEAK int chown(const char *name, uid_t owner, gid_t group) { (void)name, (void)owner, (void)group; return refuse(ENOENT); }
WEAK int utime(const char *name, const struct utimbuf *times) { (void)name, (void)times; return refuse(ENOENT); }
WEAK int unlink(const char *name) { (void)name; return refuse(ENOENT); }
int rename(const char *old, const char *new) { (void)old, (void)new; return refuse(ENOENT); }

// The process. A signal that it sends itself, as abort does, ends it with the status that a shell shows for that signal.

void _exit(int status) {
    for (;;) call(EXIT, status, 0, 0);
}

WEAK pid_t getpid(void) { return 1000; }
WEAK int kill(pid_t process, int signal) { (void)process; _exit(128 + signal); }

// The heap grows by brk alone, since only 64 areas can be mapped. It never shrinks, as under superpin the break does not.
void *sbrk(ptrdiff_t by) {
    static uintptr_t end;
    if (end == 0) end = (uintptr_t)call(BRK, 0, 0, 0);
    uintptr_t old = end, wanted = old + (uintptr_t)by;
    if (by < 0 || wanted < old || (by > 0 && (uintptr_t)call(BRK, (long)wanted, 0, 0) != wanted)) {
        errno = ENOMEM;
        return (void *)-1;
    }
    end = wanted;
    return (void *)old;
}

// Time.

// a moment as the call stores it
struct moment {
    long long seconds;
    long long nanoseconds;
};

int clock_gettime(clockid_t clock, struct timespec *time) {
    struct moment now;
    // 0 is the time of day, 1 the time since some start; picolibc's numbers are others.
    if (clock != CLOCK_REALTIME && clock != CLOCK_MONOTONIC) return refuse(EINVAL);
    if (checked(call(CLOCK_GETTIME64, clock == CLOCK_REALTIME ? 0 : 1, (long)&now, 0)) < 0) return -1;
    time->tv_sec = now.seconds;
    time->tv_nsec = (long)now.nanoseconds;
    return 0;
}

int gettimeofday(struct timeval *time, void *zone) {
    struct timespec now;
    (void)zone;
    if (clock_gettime(CLOCK_REALTIME, &now) < 0) return -1;
    time->tv_sec = now.tv_sec;
    time->tv_usec = now.tv_nsec / 1000;
    return 0;
}

// The time that passed stands for the time that was worked: nothing else tells it.
clock_t times(struct tms *times) {
    struct timespec now;
    if (clock_gettime(CLOCK_MONOTONIC, &now) < 0) return (clock_t)-1;
    clock_t ticks = (clock_t)now.tv_sec * CLOCKS_PER_SEC + (clock_t)(now.tv_nsec / (1000000000 / CLOCKS_PER_SEC));
    if (times != NULL) *times = (struct tms){.tms_utime = ticks};
    return ticks;
}

// The streams. The output is written where its buffer is full, at fflush and at exit, the error stream also at a line end.

// Writes what is in the buffer. picolibc's own way of closing also frees the stream, but these were never allocated.
static int close_stream(FILE *stream) {
    return stream->flags & __SWR ? __bufio_flush(stream) : 0;
}

#define STREAM(file, buffer, way, kind)                                                                           \
    {                                                                                                             \
        .xfile = FDEV_SETUP_EXT(__bufio_put, __bufio_get, __bufio_flush, close_stream, __bufio_seek, __bufio_setvbuf, \
                                (way) | __SBUF),                                                                  \
        .fd = file, .buf = buffer, .size = sizeof buffer, .bflags = kind,                                         \
        .read = read_some, .write = write_some, .lseek = stay, .close = leave,                                    \
    }

static char input_buffer[4096], output_buffer[4096], error_buffer[256];
static struct __file_bufio input = STREAM(STDIN_FILENO, input_buffer, __SRD, 0);
static struct __file_bufio output = STREAM(STDOUT_FILENO, output_buffer, __SWR, 0);
static struct __file_bufio error = STREAM(STDERR_FILENO, error_buffer, __SWR, __BLBF);

FILE *const stdin = &input.xfile.cfile.file;
FILE *const stdout = &output.xfile.cfile.file;
FILE *const stderr = &error.xfile.cfile.file;

// In place of picolibc's, which in 1.8 takes a null pointer for a stream and not for all streams.
int fflush(FILE *stream) {
    if (stream == NULL) return fflush(stdout) | fflush(stderr);
    return stream->flush == NULL ? 0 : stream->flush(stream);
}

// Runs behind all that the program has for its exit, since 101 is the first number that a program may use.
__attribute__((destructor(101))) static void flush_streams(void) {
    fflush(NULL);
}

// In place of picolibc's, which in 1.8 loses a last line that has no line end.
char *fgets(char *restrict line, int size, FILE *restrict stream) {
    int length = 0, character = 0;
    if (size <= 0) return NULL;
    while (length < size - 1 && character != '\n' && (character = getc(stream)) != EOF) line[length++] = (char)character;
    if (ferror(stream) || (length == 0 && character == EOF)) return NULL;
    line[length] = 0;
    return line;
}

// The start.

char **environ;

int main(int argc, char **argv, char **environment);
void __libc_init_array(void);

// Calls main with what lies on the first stack: argc, the arguments, a null pointer, the environment.
void start_c(long *stack) {
    int argc = (int)stack[0];
    char **argv = (char **)(stack + 1);
    environ = argv + argc + 1;
    __libc_init_array();
    exit(main(argc, argv, environ));
}
