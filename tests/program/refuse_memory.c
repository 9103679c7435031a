/* Refuses calls for memory of the program that it is preloaded into; refused_memory.py builds it and says what for.

   REFUSE_TALLY   a file of four numbers of 64 bits: the calls, those of them that were refused, the threads that were to be
                  started, and those of them that were not. It is written as the calls come, so it also tells of a killed run.
   REFUSE_CALL    the number of the call that is refused, from 1; 0 or none refuses no call
   REFUSE_THREAD  likewise for the starts of threads
   REFUSE_LATER   where it is set, all later ones are refused too
   REFUSE_FORKS   a file: at each call the run goes on twice, here as if nothing were refused, and in a process of its own to which
                  this call is refused. Of each the file gets the call's number, how the process ended (as waitpid tells), the
                  length of what it said, each as a number of 64 bits, and what it said. A process has one thread when it is parted,
                  so here a thread that is started runs to its end at once, which a run whose threads wait for each other can't bear.
                  Such a call gets its number, 2^64 - 1 and 0, where there are others all the same. SECONDS after its call a process
                  is ended.
   REFUSE_EACH    where it is set, no process is parted but at each call whose number is a multiple of this one

   Counted is each call for a block of the heap, also of the C library on the program's behalf, from the library's own start on:
   what the loader takes before that isn't seen. */
#define _GNU_SOURCE
#include <dlfcn.h>
#include <errno.h>
#include <fcntl.h>
#include <pthread.h>
#include <stdatomic.h>
#include <stdlib.h>
#include <string.h>
#include <sys/mman.h>
#include <sys/wait.h>
#include <unistd.h>

#define SECONDS 120
#define MOST_THREADS 4096

struct count {
    _Atomic unsigned long made, refused;
};

static struct count *tally; /* of calls, and of threads */
static unsigned long refused_from[2];
static int later;
static int forks = -1;
static unsigned long each = 1;
static void *ended[MOST_THREADS]; /* what threads answered that ran to their end at once */
static unsigned long at_once;
static struct count own[2]; /* of a process that was parted */

void *__libc_malloc(size_t size);
void *__libc_calloc(size_t count, size_t size);
void *__libc_realloc(void *block, size_t size);
void *__libc_memalign(size_t alignment, size_t size);

static int (*start_thread)(pthread_t *, const pthread_attr_t *, void *(*)(void *), void *);
static int (*join_thread)(pthread_t, void **);
static int (*detach_thread)(pthread_t);

static unsigned long number_of(const char *name) {
    const char *text = getenv(name);
    return text ? strtoul(text, NULL, 10) : 0;
}

__attribute__((constructor)) static void begin(void) {
    const char *name = getenv("REFUSE_TALLY");
    int file = name ? open(name, O_RDWR | O_CLOEXEC) : -1;
    void *shared;
    start_thread = (int (*)(pthread_t *, const pthread_attr_t *, void *(*)(void *), void *))dlsym(RTLD_NEXT, "pthread_create");
    join_thread = (int (*)(pthread_t, void **))dlsym(RTLD_NEXT, "pthread_join");
    detach_thread = (int (*)(pthread_t))dlsym(RTLD_NEXT, "pthread_detach");
    if (file < 0)
        return;
    shared = mmap(NULL, 2 * sizeof(struct count), PROT_READ | PROT_WRITE, MAP_SHARED, file, 0);
    close(file);
    refused_from[0] = number_of("REFUSE_CALL");
    refused_from[1] = number_of("REFUSE_THREAD");
    later = getenv("REFUSE_LATER") != NULL;
    name = getenv("REFUSE_FORKS");
    if (getenv("REFUSE_EACH"))
        each = number_of("REFUSE_EACH");
    if (name)
        forks = open(name, O_WRONLY | O_CREAT | O_TRUNC | O_CLOEXEC, 0600);
    if (shared != MAP_FAILED)
        tally = shared;
}

/* how many threads the process has, which the system tells behind seventeen other words; 0 where it tells nothing */
static int threads(void) {
    char text[1024], *at;
    int word, file = open("/proc/self/stat", O_RDONLY | O_CLOEXEC);
    ssize_t length = file < 0 ? 0 : read(file, text, sizeof text - 1);
    close(file);
    text[length > 0 ? length : 0] = 0;
    at = strrchr(text, ')');
    for (word = 0; at && word < 18; word++)
        at = strchr(at + 1, ' ');
    return at ? atoi(at + 1) : 0;
}

/* notes how a process ended */
static void note(unsigned long number, unsigned long status, const char *said, size_t length) {
    unsigned long head[3] = {number, status, length};
    if (write(forks, head, sizeof head) != sizeof head || write(forks, said, length) != (ssize_t)length)
        abort();
}

/* parts a process from this one: 1 there, and 0 here once it has ended */
static int part(unsigned long number) {
    static char said[65536];
    size_t length = 0;
    ssize_t more;
    int ends[2], status = 0, before = errno;
    pid_t child;
    if (threads() != 1) {
        note(number, ~0UL, said, 0);
        errno = before;
        return 0;
    }
    if (pipe(ends) != 0 || (child = fork()) < 0)
        abort();
    if (child == 0) {
        close(forks);
        forks = -1;
        dup2(ends[1], 1);
        dup2(ends[1], 2);
        close(ends[0]);
        close(ends[1]);
        alarm(SECONDS);
        tally = own;
        refused_from[0] = later;
        return 1;
    }
    close(ends[1]);
    while (length < sizeof said && (more = read(ends[0], said + length, sizeof said - length)) > 0)
        length += (size_t)more;
    close(ends[0]);
    if (waitpid(child, &status, 0) != child)
        abort();
    note(number, (unsigned long)status, said, length);
    errno = before;
    return 0;
}

/* whether the next one of a kind is to be refused */
static int is_refused(int kind) {
    unsigned long number, from = refused_from[kind];
    if (!tally)
        return 0;
    number = atomic_fetch_add(&tally[kind].made, 1) + 1;
    if (kind == 0 && forks >= 0)
        return number % each == 0 && part(number);
    if (from == 0 || number < from || (number > from && !later))
        return 0;
    atomic_fetch_add(&tally[kind].refused, 1);
    return 1;
}

static void *nothing(void) {
    errno = ENOMEM;
    return NULL;
}

void *malloc(size_t size) { return is_refused(0) ? nothing() : __libc_malloc(size); }

void *calloc(size_t count, size_t size) { return is_refused(0) ? nothing() : __libc_calloc(count, size); }

/* a size of 0 frees the block, and takes nothing */
void *realloc(void *block, size_t size) {
    return (!block || size) && is_refused(0) ? nothing() : __libc_realloc(block, size);
}

void *memalign(size_t alignment, size_t size) { return is_refused(0) ? nothing() : __libc_memalign(alignment, size); }

void *aligned_alloc(size_t alignment, size_t size) { return memalign(alignment, size); }

void *valloc(size_t size) { return memalign((size_t)sysconf(_SC_PAGESIZE), size); }

int posix_memalign(void **block, size_t alignment, size_t size) {
    void *made = memalign(alignment, size);
    if (!made)
        return ENOMEM;
    *block = made;
    return 0;
}

/* A thread has a stack, which the C library takes from the system. */
int pthread_create(pthread_t *thread, const pthread_attr_t *attributes, void *(*run)(void *), void *with) {
    if (is_refused(1))
        return EAGAIN;
    if (forks < 0 || at_once == MOST_THREADS)
        return start_thread(thread, attributes, run, with);
    /* no thread of the C library has so small a name */
    *thread = (pthread_t)(at_once + 1);
    ended[at_once++] = NULL;
    ended[(unsigned long)*thread - 1] = run(with);
    return 0;
}

/* the threads that ran at once are known in each process that was parted, too */
static int ran_at_once(pthread_t thread) { return (unsigned long)thread - 1 < at_once; }

int pthread_join(pthread_t thread, void **answer) {
    if (!ran_at_once(thread))
        return join_thread(thread, answer);
    if (answer)
        *answer = ended[(unsigned long)thread - 1];
    return 0;
}

int pthread_detach(pthread_t thread) { return ran_at_once(thread) ? 0 : detach_thread(thread); }
