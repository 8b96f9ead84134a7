/* Loaded before a program (scripts/refused.py does so), it refuses one of the program's own calls for memory, or one of
   its starts of a thread. These variables say which:

   REFUSED_GROWTH   the number of the call of malloc or realloc, from 1
   REFUSED_START    the number of the call of pthread_create, from 1
   REFUSED_FOR_GOOD where it is set, all calls of that kind after it are refused too
   REFUSED_REPORT   the number of the file that is told of each refusal, with the number of the call; and at the end of
                    how many threads are left, and of how many starts came if REFUSED_START is set

   What the C library asks for on its own, for a thread's stack say, isn't the program's and is never refused. */

#define _GNU_SOURCE
#include <dlfcn.h>
#include <errno.h>
#include <link.h>
#include <pthread.h>
#include <stdatomic.h>
#include <stdint.h>
#include <stdio.h>
#include <stdlib.h>
#include <sys/syscall.h>
#include <time.h>
#include <unistd.h>

extern void *__libc_malloc(size_t);
extern void *__libc_realloc(void *, size_t);

/* One kind of call: which is refused, if not 0, and how many came. */
struct calls {
    unsigned long refused;
    atomic_ulong count;
};

static struct calls growth, start;
static int is_for_good, report;
static uintptr_t code_start, code_end;
static atomic_long threads;

static unsigned long number_of(const char *name) {
    const char *text = getenv(name);
    return text ? strtoul(text, NULL, 10) : 0;
}

/* The program's own code; the first object is the program. */
static int note_code(struct dl_phdr_info *object, size_t size, void *unused) {
    (void)size, (void)unused;
    for (int index = 0; index < object->dlpi_phnum; index++) {
        const ElfW(Phdr) *part = &object->dlpi_phdr[index];
        if (part->p_type == PT_LOAD && (part->p_flags & PF_X)) {
            code_start = object->dlpi_addr + part->p_vaddr;
            code_end = code_start + part->p_memsz;
        }
    }
    return 1;
}

static void tell(const char *line, int length) {
    while (report && length > 0) {
        ssize_t told = write(report, line, (size_t)length);
        if (told <= 0) return;
        line += told;
        length -= (int)told;
    }
}

__attribute__((constructor)) static void begin(void) {
    dl_iterate_phdr(note_code, NULL);
    growth.refused = number_of("REFUSED_GROWTH");
    start.refused = number_of("REFUSED_START");
    is_for_good = getenv("REFUSED_FOR_GOOD") != NULL;
    report = (int)number_of("REFUSED_REPORT");
}

/* A thread that has done its work may still be on its way out: it has a second. */
__attribute__((destructor)) static void end(void) {
    const struct timespec moment = {0, 1000000};
    for (int turn = 0; turn < 1000 && atomic_load(&threads); turn++) nanosleep(&moment, NULL);
    char line[100];
    tell(line, snprintf(line, sizeof line, "left %ld\nstarts %lu\n", atomic_load(&threads), atomic_load(&start.count)));
}

/* A program that starts threads ends by this one. */
void _exit(int status) {
    end();
    for (;;) syscall(SYS_exit_group, status);
}

static int is_refused(struct calls *calls, const void *caller) {
    uintptr_t place = (uintptr_t)caller;
    if (!calls->refused || place < code_start || place >= code_end) return 0;
    unsigned long number = atomic_fetch_add(&calls->count, 1) + 1;
    if (number != calls->refused && !(is_for_good && number > calls->refused)) return 0;
    char line[100];
    tell(line, snprintf(line, sizeof line, "refused %lu\n", number));
    return 1;
}

void *malloc(size_t size) {
    if (is_refused(&growth, __builtin_return_address(0))) {
        errno = ENOMEM;
        return NULL;
    }
    return __libc_malloc(size);
}

void *realloc(void *old, size_t size) {
    if (is_refused(&growth, __builtin_return_address(0))) {
        errno = ENOMEM;
        return NULL;
    }
    return __libc_realloc(old, size);
}

/* What a thread is to do. */
struct work {
    void *(*run)(void *);
    void *given;
};

static void *run_counted(void *box) {
    struct work work = *(struct work *)box;
    free(box);
    void *result = work.run(work.given);
    atomic_fetch_sub(&threads, 1);
    return result;
}

int pthread_create(pthread_t *thread, const pthread_attr_t *attributes, void *(*run)(void *), void *given) {
    int (*create)(pthread_t *, const pthread_attr_t *, void *(*)(void *), void *) = dlsym(RTLD_NEXT, "pthread_create");
    if (is_refused(&start, __builtin_return_address(0))) return EAGAIN;
    struct work *work = __libc_malloc(sizeof *work);
    if (!create || !work) return EAGAIN;
    *work = (struct work){run, given};
    atomic_fetch_add(&threads, 1);
    int status = create(thread, attributes, run_counted, work);
    if (status) {
        atomic_fetch_sub(&threads, 1);
        free(work);
    }
    return status;
}
