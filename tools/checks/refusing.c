// Preloaded into a program by check-memory, refuses one of its calls for memory, or of its starts of a thread.
// The call is named by REFUSE_CALLS ("memory" or "threads") and REFUSE_NUMBER, counted from 1, from the end of libc's own start.
// A refusal writes a byte to the descriptor REFUSE_REPORT. What is needed of libc is declared here, since the headers may not be there.

typedef unsigned long size;

extern char *getenv(const char *name);
extern int atoi(const char *text);
extern long write(int to, const void *bytes, size count);
extern int *__errno_location(void);
extern void *dlsym(void *library, const char *name);
extern void *__libc_malloc(size), *__libc_calloc(size, size), *__libc_realloc(void *, size), *__libc_memalign(size, size);

enum { TRY_AGAIN = 11, NO_MEMORY = 12 };
static void *const NEXT_LIBRARY = (void *)-1;

static int of_threads, number, report, calls;

__attribute__((constructor)) static void begin(void) {
    of_threads = *getenv("REFUSE_CALLS") == 't';
    report = atoi(getenv("REFUSE_REPORT"));
    number = atoi(getenv("REFUSE_NUMBER"));
}

static int refuses(int thread) {
    if (!number || thread != of_threads || __atomic_add_fetch(&calls, 1, __ATOMIC_RELAXED) != number) return 0;
    if (write(report, "!", 1) != 1) __builtin_trap();
    *__errno_location() = NO_MEMORY;
    return 1;
}

void *malloc(size bytes) { return refuses(0) ? 0 : __libc_malloc(bytes); }
void *calloc(size count, size bytes) { return refuses(0) ? 0 : __libc_calloc(count, bytes); }
void *realloc(void *old, size bytes) { return refuses(0) ? 0 : __libc_realloc(old, bytes); }

int posix_memalign(void **made, size align, size bytes) {
    void *it = refuses(0) ? 0 : __libc_memalign(align, bytes);
    if (it) *made = it;
    return it ? 0 : NO_MEMORY;
}

int pthread_create(void *id, const void *attributes, void *(*body)(void *), void *given) {
    int (*real)(void *, const void *, void *(*)(void *), void *) = dlsym(NEXT_LIBRARY, "pthread_create");
    return refuses(1) ? TRY_AGAIN : real(id, attributes, body, given);
}
