/* What picolibc asks of the machine that it runs on: characters in and out, memory, locks, and an end; and what a program is answered
   that asks for what is not there. */
#include <errno.h>
#include <signal.h>
#include <stddef.h>
#include <stdint.h>
#include <stdio.h>
#include <sys/lock.h>
#include <sys/stat.h>
#include <sys/time.h>
#include <sys/times.h>
#include <unistd.h>
#include "paged.h"

/* ---- characters: each hart keeps a line of its own back, until it ends, is full, or is to be written out */

static _Thread_local char line[256];
static _Thread_local size_t kept;

static int flush(FILE *file)
{
    (void)file;
    write_all(line, kept);
    kept = 0;
    return 0;
}

static int put(char character, FILE *file)
{
    line[kept++] = character;
    return character == '\n' || kept == sizeof line ? flush(file) : 0;
}

static int get(FILE *file)
{
    char character;
    (void)file;
    return paged_read(&character, 1) == 1 ? (unsigned char)character : _FDEV_EOF;
}

static FILE console = FDEV_SETUP_STREAM(put, get, flush, _FDEV_SETUP_RW);
FILE *const stdin = &console;
FILE *const stdout = &console;
FILE *const stderr = &console;

/* What a hart keeps back is written when it ends (hart.S). */
void hart_ends(void)
{
    flush(stdout);
}

ssize_t read(int file, void *bytes, size_t length)
{
    (void)file;
    return paged_read(bytes, length);
}

ssize_t write(int file, const void *bytes, size_t length)
{
    (void)file;
    flush(stdout);
    write_all(bytes, length);
    return (ssize_t)length;
}

/* No file is a terminal. */
int isatty(int file)
{
    (void)file;
    errno = ENOTTY;
    return 0;
}

/* ---- memory */

/* More memory, or -1 where there is none. The library asks for it under its lock. */
void *sbrk(ptrdiff_t more)
{
    unsigned long end = paged_break(0);
    if (more != 0 && paged_break(end + more) != end + more) {
        errno = ENOMEM;
        return (void *)-1;
    }
    return (void *)end;
}

/* ---- locks: the hart that has one may take it again. A hart is told from others by where its variables lie. */

struct __lock {
    volatile uintptr_t holder;
    unsigned times;
};

struct __lock __lock___libc_recursive_mutex;

static uintptr_t this_hart(void)
{
    return (uintptr_t)&kept;
}

/* Takes the lock if nobody has it, in one step. */
static int take(struct __lock *lock)
{
    uintptr_t found, failed;
    __asm__ volatile(".option push\n\t.option arch, +a\n"
                     "1:\tlr.w.aq %0, (%2)\n\tbnez %0, 2f\n\tsc.w.rl %1, %3, (%2)\n\tbnez %1, 1b\n2:\n\t.option pop"
                     : "=&r"(found), "=&r"(failed) : "r"(&lock->holder), "r"(this_hart()) : "memory");
    return found == 0;
}

int __retarget_lock_try_acquire_recursive(struct __lock *lock)
{
    if (lock->holder != this_hart() && !take(lock))
        return 0;
    lock->times++;
    return 1;
}

void __retarget_lock_acquire_recursive(struct __lock *lock)
{
    while (!__retarget_lock_try_acquire_recursive(lock))
        paged_yield();
}

void __retarget_lock_release_recursive(struct __lock *lock)
{
    if (--lock->times == 0) {
        __asm__ volatile("fence rw, w" : : : "memory");
        lock->holder = 0;
    }
}

void __retarget_lock_acquire(struct __lock *lock) { __retarget_lock_acquire_recursive(lock); }
void __retarget_lock_release(struct __lock *lock) { __retarget_lock_release_recursive(lock); }
int __retarget_lock_try_acquire(struct __lock *lock) { return __retarget_lock_try_acquire_recursive(lock); }

/* The library makes further locks for files alone, and there are none. */
void __retarget_lock_init(_LOCK_T *lock) { *lock = &__lock___libc_recursive_mutex; }
void __retarget_lock_init_recursive(_LOCK_T *lock) { *lock = &__lock___libc_recursive_mutex; }
void __retarget_lock_close(_LOCK_T lock) { (void)lock; }
void __retarget_lock_close_recursive(_LOCK_T lock) { (void)lock; }

/* ---- the end */

_Noreturn void _exit(int status)
{
    flush(stdout);
    register long answer __asm__("a0") = status;
    register long number __asm__("a7") = 94;
    for (;;)
        __asm__ volatile("ecall" : : "r"(answer), "r"(number));
}

pid_t getpid(void)
{
    return 1;
}

/* There is one process: a signal that it sends itself ends it, with the status that a shell tells of such an end; `abort` is 134. */
int kill(pid_t process, int signal)
{
    if (process == getpid() && signal != 0)
        _exit(128 + signal);
    errno = process == getpid() ? 0 : ESRCH;
    return process == getpid() ? 0 : -1;
}

/* ---- what is not there: a clock, and files */

static int not_there(void)
{
    errno = ENOSYS;
    return -1;
}

int gettimeofday(struct timeval *restrict now, void *restrict zone)
{
    (void)now, (void)zone;
    return not_there();
}

clock_t times(struct tms *times)
{
    (void)times;
    return (clock_t)not_there();
}

int open(const char *name, int flags, ...)
{
    (void)name, (void)flags;
    return not_there();
}

int close(int file) { (void)file; return not_there(); }
int unlink(const char *name) { (void)name; return not_there(); }
off_t lseek(int file, off_t offset, int from) { (void)file, (void)offset, (void)from; return not_there(); }
int fstat(int file, struct stat *is) { (void)file, (void)is; return not_there(); }
int stat(const char *restrict name, struct stat *restrict is) { (void)name, (void)is; return not_there(); }
int getentropy(void *bytes, size_t length) { (void)bytes, (void)length; return not_there(); }
int sigprocmask(int how, const sigset_t *set, sigset_t *old) { (void)how, (void)set, (void)old; return not_there(); }
