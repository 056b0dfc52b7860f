// Refuses one growth of a program, for scripts/refused. It is loaded before the C library (LD_PRELOAD), and counts the calls of malloc and
// realloc. The call with the number REFUSE returns null. The count goes to the file COUNTED.
//
// The calls of the C library are declared here (x86-64, Linux). So the toolchain's own clang, which has no headers, can compile it.
typedef unsigned long size_t;
typedef struct file FILE;

#define NULL ((void *)0)

void *dlsym(void *handle, const char *name);
int fclose(FILE *file);
FILE *fopen(const char *path, const char *mode);
int fprintf(FILE *file, const char *form, ...);
char *getenv(const char *name);
unsigned long strtoul(const char *text, char **end, int base);
void *malloc(size_t size);
void *realloc(void *old, size_t size);

// The C library's call with this name.
#define NEXT(name) ((__typeof__(&name))dlsym((void *)-1L, #name))

static unsigned long count, refused;

__attribute__((constructor)) static void begin(void) {
    const char *number = getenv("REFUSE");
    refused = number ? strtoul(number, NULL, 10) : 0;
    count = 0;
}

static int is_refused(void) { return ++count == refused; }

void *malloc(size_t size) {
    static void *(*next)(size_t);
    if (!next) next = NEXT(malloc);
    return is_refused() ? NULL : next(size);
}

void *realloc(void *old, size_t size) {
    static void *(*next)(void *, size_t);
    if (!next) next = NEXT(realloc);
    return is_refused() ? NULL : next(old, size);
}

__attribute__((destructor)) static void end(void) {
    const char *path = getenv("COUNTED");
    unsigned long all = count;
    FILE *file = path ? fopen(path, "w") : NULL;
    if (file) {
        fprintf(file, "%lu\n", all);
        fclose(file);
    }
}
