/* Preloaded before a program, refuses each of its allocations in turn. At an allocation that is to be refused the process forks:
   the child's allocation gives no memory, and the child then runs to its end, which the parent looks at before it goes on with
   the same allocation granted. So a run of the program tries every refusal, and each costs only what comes after it.

   WHOLE names a file with the text that the program prints, OUT the file that its standard output goes to, ROOM a folder, and
   REPORT a file for the counts. Allocations FIRST, FIRST + STEP, .. are refused; where FROM_THERE is set, with all that follow.

   A program with threads can't be looked at so, since a fork has one thread. Where ALONE is set nothing forks: the process's own
   allocation of that number is refused, counted over all its threads, and REPORT gets their count alone. */
#define _GNU_SOURCE
#include <errno.h>
#include <fcntl.h>
#include <stdio.h>
#include <stdlib.h>
#include <string.h>
#include <sys/mman.h>
#include <sys/stat.h>
#include <sys/syscall.h>
#include <sys/wait.h>
#include <unistd.h>

extern void *__libc_malloc(size_t);
extern void *__libc_calloc(size_t, size_t);
extern void *__libc_realloc(void *, size_t);
extern void *__libc_memalign(size_t, size_t);

static const char MEMORY[] = "spire: memory\n";
enum { SEVEN_NOTHING, SEVEN_PART, SEVEN_WHOLE, ZERO_WHOLE, OTHER, ENDS };
static unsigned long ends[ENDS], reached, others[8];
static unsigned long first, step, alone;
static int is_ready, is_child, from_there;
static char *whole;
static size_t whole_size;
static char told_name[512], text_name[512];

__attribute__((constructor)) static void begin(void) {
    const char *words = getenv("STEP"), *number = getenv("ALONE");
    from_there = getenv("FROM_THERE") != NULL;
    if (number)
        alone = strtoul(number, NULL, 10);
    if (!words)
        return;
    first = strtoul(getenv("FIRST"), NULL, 10);
    step = strtoul(words, NULL, 10);
    int file = open(getenv("WHOLE"), O_RDONLY);
    struct stat found;
    fstat(file, &found);
    whole_size = (size_t)found.st_size;
    whole = mmap(NULL, whole_size + 1, PROT_READ, MAP_PRIVATE, file, 0);
    close(file);
    snprintf(told_name, sizeof told_name, "%s/told", getenv("ROOM"));
    snprintf(text_name, sizeof text_name, "%s/text", getenv("ROOM"));
    is_ready = 1;
}

/* The child's outputs are files of its own; its text begins with what the parent has put so far. */
static void put_apart(void) {
    static char block[65536];
    int text = open(text_name, O_RDWR | O_CREAT | O_TRUNC, 0600);
    int so_far = open(getenv("OUT"), O_RDONLY);
    for (ssize_t size; (size = read(so_far, block, sizeof block)) > 0;)
        if (write(text, block, (size_t)size) != size)
            _exit(99);
    close(so_far);
    dup2(text, 1);
    dup2(open(told_name, O_RDWR | O_CREAT | O_TRUNC, 0600), 2);
}

/* The bytes of a file, at most a given number of them, and how many it has in all. */
static size_t load(const char *name, char *bytes, size_t most) {
    struct stat found;
    int file = open(name, O_RDONLY);
    fstat(file, &found);
    if (read(file, bytes, most) < 0)
        _exit(99);
    close(file);
    return (size_t)found.st_size;
}

/* Whether a file's bytes are a beginning of the whole text. */
static int begins(size_t *size) {
    struct stat found;
    int file = open(text_name, O_RDONLY), same = 0;
    fstat(file, &found);
    *size = (size_t)found.st_size;
    if (*size <= whole_size) {
        char *text = mmap(NULL, *size + 1, PROT_READ, MAP_PRIVATE, file, 0);
        same = *size == 0 || memcmp(text, whole, *size) == 0;
        munmap(text, *size + 1);
    }
    close(file);
    return same;
}

static int end_of(int status) {
    char told[64];
    size_t text_size, told_size = load(told_name, told, sizeof told);
    int same = begins(&text_size);
    if (!same || !WIFEXITED(status))
        return OTHER;
    if (WEXITSTATUS(status) == 0)
        return text_size == whole_size && told_size == 0 ? ZERO_WHOLE : OTHER;
    if (WEXITSTATUS(status) != 7 || told_size > sizeof MEMORY - 1 || memcmp(told, MEMORY, told_size) != 0)
        return OTHER;
    return text_size == 0 ? SEVEN_NOTHING : text_size < whole_size ? SEVEN_PART : SEVEN_WHOLE;
}

static int is_refused(void) {
    if (alone) {
        unsigned long number = __atomic_add_fetch(&reached, 1, __ATOMIC_SEQ_CST);
        return number == alone || (from_there && number > alone);
    }
    if (!is_ready)
        return 0;
    if (is_child)
        return from_there;
    reached++;
    if (reached < first || (reached - first) % step != 0)
        return 0;
    pid_t child = fork();
    if (child == 0) {
        is_child = 1;
        put_apart();
        return 1;
    }
    int status = -1, end;
    waitpid(child, &status, 0);
    end = end_of(status);
    if (end == OTHER && ends[OTHER] < 8)
        others[ends[OTHER]] = reached;
    ends[end]++;
    return 0;
}

__attribute__((destructor)) static void report(void) {
    if ((!is_ready && !alone) || is_child)
        return;
    char line[512];
    int size = snprintf(line, sizeof line, "%lu %lu %lu %lu %lu %lu", reached, ends[SEVEN_NOTHING], ends[SEVEN_PART],
                        ends[SEVEN_WHOLE], ends[ZERO_WHOLE], ends[OTHER]);
    for (unsigned long at = 0; at < ends[OTHER] && at < 8; at++)
        size += snprintf(line + size, sizeof line - (size_t)size, " %lu", others[at]);
    int file = open(getenv("REPORT"), O_WRONLY | O_CREAT | O_TRUNC, 0600);
    if (write(file, line, (size_t)size) != size)
        _exit(99);
    close(file);
}

/* A program that may start threads ends without its destructors. */
void _exit(int status) {
    report();
    syscall(SYS_exit_group, status);
    __builtin_unreachable();
}

/* What a refusal says, as malloc does: the C library's pthread_create looks for it. */
static void *nothing(void) {
    errno = ENOMEM;
    return NULL;
}

void *malloc(size_t size) {
    return is_refused() ? nothing() : __libc_malloc(size);
}

void *calloc(size_t count, size_t size) {
    return is_refused() ? nothing() : __libc_calloc(count, size);
}

void *realloc(void *old, size_t size) {
    return is_refused() ? nothing() : __libc_realloc(old, size);
}

void *aligned_alloc(size_t alignment, size_t size) {
    return is_refused() ? nothing() : __libc_memalign(alignment, size);
}

int posix_memalign(void **made, size_t alignment, size_t size) {
    if (is_refused())
        return 12;
    *made = __libc_memalign(alignment, size);
    return *made ? 0 : 12;
}
