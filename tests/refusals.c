/* Counts and refuses what a program asks the C library for: memory, and starts of threads. tests/try-refusals builds it and
   preloads it (LD_PRELOAD), so that functions here come before those of the C library. It counts from the call of `main` to
   its return, or to the call of exit or _exit, over all threads: what the dynamic linker and the C library ask for before and
   after that is neither counted nor refused. For glibc, whose own functions have the names that begin with __libc.

   REFUSED_REQUESTS=FIRST-LAST   which requests for memory are refused, by their numbers from 1; none where it isn't set
   REFUSED_THREADS=FIRST-LAST    the same of starts of threads
   REFUSED_ALONE=1               a request that repeats a refused one is another request (see is_refused)
   FIGURES=FILE                  the file that gets one line at the end, as `write_figures` says */
#define _GNU_SOURCE
#include <dlfcn.h>
#include <errno.h>
#include <fcntl.h>
#include <pthread.h>
#include <stdatomic.h>
#include <stddef.h>
#include <stdio.h>
#include <stdlib.h>
#include <sys/syscall.h>
#include <time.h>
#include <unistd.h>

#define OF_EACH_THREAD static __thread __attribute__((tls_model("initial-exec")))

void *__libc_malloc(size_t);
void *__libc_calloc(size_t, size_t);
void *__libc_realloc(void *, size_t);
void *__libc_memalign(size_t, size_t);

struct range { long first, last; };
static struct range refused_requests, refused_threads;
static const char *figures;
static int are_refused_alone;
static atomic_bool counting;
static atomic_long requests, requests_refused, refused_in_a_start;
static atomic_long starts, starts_refused, started, joined, detached;

static struct range range_of(const char *name) {
    struct range range = {0, 0};
    const char *text = getenv(name);
    if (text && sscanf(text, "%ld-%ld", &range.first, &range.last) != 2) abort();
    return range;
}

static int has(struct range range, long number) {
    return range.first <= number && number <= range.last;
}

/* ---- memory */

/* This thread's last request: the place in the code that made it, the memory that it was to replace, if any, its bytes, and
   the memory that it got. */
OF_EACH_THREAD struct { const void *place, *replaced, *got; size_t size; int was_refused; } last;
/* Whether this thread is within pthread_create. */
OF_EACH_THREAD int is_starting;
/* The place of a request that was refused. */
static const void *_Atomic refused_place;

/* Whether a request is refused. A collection that was refused room for as many elements as may come asks again at once, for no
   more bytes, and that is the same request: it is refused too, and has no number. Not so with REFUSED_ALONE, for programs that
   call a function again after a refusal. */
static int is_refused(const void *place, const void *replaced, size_t size) {
    int repeats = !are_refused_alone && last.was_refused && replaced == last.replaced && size <= last.size;
    last.was_refused = 0;
    last.place = place;
    last.replaced = replaced;
    last.size = size;
    if (!counting || !(repeats || has(refused_requests, ++requests))) return 0;
    requests_refused++;
    refused_in_a_start += is_starting;
    refused_place = place;
    last.was_refused = !is_starting;
    last.got = NULL;
    errno = ENOMEM;
    return 1;
}

static void *got(void *memory) {
    last.got = memory;
    return memory;
}

void *malloc(size_t size) {
    return is_refused(__builtin_return_address(0), NULL, size) ? NULL : got(__libc_malloc(size));
}

void *calloc(size_t count, size_t size) {
    return is_refused(__builtin_return_address(0), NULL, count * size) ? NULL : got(__libc_calloc(count, size));
}

void *realloc(void *memory, size_t size) {
    return is_refused(__builtin_return_address(0), memory, size) ? NULL : got(__libc_realloc(memory, size));
}

void *aligned_alloc(size_t alignment, size_t size) {
    return is_refused(__builtin_return_address(0), NULL, size) ? NULL : got(__libc_memalign(alignment, size));
}

void *memalign(size_t alignment, size_t size) {
    return is_refused(__builtin_return_address(0), NULL, size) ? NULL : got(__libc_memalign(alignment, size));
}

int posix_memalign(void **memory, size_t alignment, size_t size) {
    if (is_refused(__builtin_return_address(0), NULL, size)) return ENOMEM;
    *memory = got(__libc_memalign(alignment, size));
    return *memory ? 0 : ENOMEM;
}

/* ---- threads */

/* The places whose memory went to pthread_create as what the new thread is called with: a request there is a part of the start
   of a thread. */
enum { MOST_PLACES = 32 };
static const void *start_places[MOST_PLACES];
static int places;
static pthread_mutex_t of_places = PTHREAD_MUTEX_INITIALIZER;

static void note_start_place(const void *argument) {
    int number = 0;
    if (!argument || argument != last.got) return;
    pthread_mutex_lock(&of_places);
    while (number < places && start_places[number] != last.place) number++;
    if (number == places && places < MOST_PLACES) start_places[places++] = last.place;
    pthread_mutex_unlock(&of_places);
}

int pthread_create(pthread_t *thread, const pthread_attr_t *attributes, void *(*body)(void *), void *argument) {
    int (*next)(pthread_t *, const pthread_attr_t *, void *(*)(void *), void *);
    int failure;
    note_start_place(argument);
    if (has(refused_threads, ++starts)) {
        starts_refused++;
        return EAGAIN;
    }
    *(void **)&next = dlsym(RTLD_NEXT, "pthread_create");
    is_starting = 1;
    failure = next(thread, attributes, body, argument);
    is_starting = 0;
    started += !failure;
    return failure;
}

int pthread_join(pthread_t thread, void **value) {
    int (*next)(pthread_t, void **);
    int failure;
    *(void **)&next = dlsym(RTLD_NEXT, "pthread_join");
    failure = next(thread, value);
    joined += !failure;
    return failure;
}

int pthread_detach(pthread_t thread) {
    int (*next)(pthread_t);
    int failure;
    *(void **)&next = dlsym(RTLD_NEXT, "pthread_detach");
    failure = next(thread);
    detached += !failure;
    return failure;
}

/* The entries of /proc/self/task, or -1. */
static long threads_now(void) {
    struct entry { ino64_t number; off64_t next; unsigned short length; unsigned char kind; char name[]; };
    char bytes[4096] __attribute__((aligned(8)));
    long found = 0, length, place;
    int folder = open("/proc/self/task", O_RDONLY | O_DIRECTORY);
    if (folder < 0) return -1;
    while ((length = syscall(SYS_getdents64, folder, bytes, sizeof bytes)) > 0) {
        for (place = 0; place < length; place += ((struct entry *)(bytes + place))->length) {
            found += ((struct entry *)(bytes + place))->name[0] != '.';
        }
    }
    close(folder);
    return length < 0 ? -1 : found;
}

/* How many threads the process has. One that has ended may stand there for a moment more, so it looks again, for two seconds
   at most. */
static long threads_at_end(void) {
    struct timespec millisecond = {0, 1000000};
    long found = threads_now();
    for (int looks = 0; found > 1 && looks < 2000; looks++) {
        nanosleep(&millisecond, NULL);
        found = threads_now();
    }
    return found;
}

/* ---- beginning and end of what is counted */

/* A place in the code, by its distance from the start of the file that was loaded there; 0 for no place. */
static long distance(const void *place) {
    Dl_info file;
    return place && dladdr(place, &file) ? (const char *)place - (const char *)file.dli_fbase : 0;
}

/* Requests, those refused, those of them within pthread_create; starts of threads, those refused, those that came about;
   joins and detachments; threads at the end; the place of a refused request; and the places of starts. */
static void write_figures(void) {
    char line[1024];
    int length, file;
    if (!atomic_exchange(&counting, 0) || !figures) return;
    length = snprintf(line, sizeof line, "%ld %ld %ld %ld %ld %ld %ld %ld %ld %ld", requests, requests_refused, refused_in_a_start,
                      starts, starts_refused, started, joined, detached, threads_at_end(), distance(refused_place));
    for (int number = 0; number < places; number++) {
        length += snprintf(line + length, sizeof line - length, " %ld", distance(start_places[number]));
    }
    file = open(figures, O_WRONLY | O_CREAT | O_TRUNC, 0600);
    if (file < 0 || write(file, line, length) != length) abort();
    close(file);
}

static int (*program_main)(int, char **, char **);

static int counted_main(int count, char **arguments, char **environment) {
    int status;
    refused_requests = range_of("REFUSED_REQUESTS");
    refused_threads = range_of("REFUSED_THREADS");
    are_refused_alone = getenv("REFUSED_ALONE") != NULL;
    figures = getenv("FIGURES");
    counting = 1;
    status = program_main(count, arguments, environment);
    write_figures();
    return status;
}

int __libc_start_main(int (*main)(int, char **, char **), int count, char **arguments, void (*init)(void), void (*fini)(void),
                      void (*rtld_fini)(void), void *stack_end) {
    int (*next)(int (*)(int, char **, char **), int, char **, void (*)(void), void (*)(void), void (*)(void), void *);
    *(void **)&next = dlsym(RTLD_NEXT, "__libc_start_main");
    program_main = main;
    return next(counted_main, count, arguments, init, fini, rtld_fini, stack_end);
}

void exit(int status) {
    void (*next)(int) __attribute__((noreturn));
    write_figures();
    *(void **)&next = dlsym(RTLD_NEXT, "exit");
    next(status);
}

void _exit(int status) {
    void (*next)(int) __attribute__((noreturn));
    write_figures();
    *(void **)&next = dlsym(RTLD_NEXT, "_exit");
    next(status);
}
