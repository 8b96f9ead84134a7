/* Loaded before a program (scripts/waits.py and soak.py do so), it adds a byte to the file that TIMED_OUT names for
   each of the program's sleeps that ends by its time-out, a call of futex that fails so: `a` where the thread looks and
   sleeps again at once, so that there was nothing to do, and `b` where it goes on with something, so that nobody had
   woken it for that.

   A thread at a ring's sending end wakes another one, at the ring's home, before it sleeps again. Such a call isn't
   something that it goes on with: the two places where a ring's threads sleep (wakers.rt) lie 120 bytes apart, the
   sending end's at a multiple of 16, and to send a message would wake the thread at the other one. */

#define _GNU_SOURCE
#include <dlfcn.h>
#include <errno.h>
#include <fcntl.h>
#include <linux/futex.h>
#include <stdarg.h>
#include <stdlib.h>
#include <sys/syscall.h>
#include <time.h>
#include <unistd.h>

/* A look takes less processor time, in nanoseconds. */
enum { LOOK = 50000 };

/* how far behind the place of the sending end's thread that of the receiving end's is */
enum { BESIDE = 120 };

static long (*call)(long, ...);
static int told = -1;

/* where this thread's last sleep was, if it timed out, and the thread's processor time then */
static __thread long place;
static __thread long since;

__attribute__((constructor)) static void begin(void) {
    const char *path = getenv("TIMED_OUT");
    *(void **)&call = dlsym(RTLD_NEXT, "syscall");
    if (path) told = open(path, O_WRONLY | O_APPEND | O_CLOEXEC);
    if (!call || told < 0) _exit(125);
}

static long processor_time(void) {
    struct timespec now;
    clock_gettime(CLOCK_THREAD_CPUTIME_ID, &now);
    return now.tv_sec * 1000000000L + now.tv_nsec;
}

static void tell(char kind) {
    if (write(told, &kind, 1) != 1) _exit(125);
}

long syscall(long number, ...) {
    va_list list;
    va_start(list, number);
    long words[6];
    for (int index = 0; index < 6; index++) words[index] = va_arg(list, long);
    va_end(list);
    int sleeps = number == SYS_futex && (words[1] & FUTEX_CMD_MASK) != FUTEX_WAKE;
    int wakes_home = number == SYS_futex && !sleeps && place % 16 == 0 && words[0] != place + BESIDE;
    if (place && !wakes_home) {
        tell(sleeps && words[0] == place && processor_time() - since < LOOK ? 'a' : 'b');
        place = 0;
    }
    long answer = call(number, words[0], words[1], words[2], words[3], words[4], words[5]);
    if (sleeps && answer == -1 && errno == ETIMEDOUT) {
        place = words[0];
        since = processor_time();
        errno = ETIMEDOUT;
    }
    return answer;
}
