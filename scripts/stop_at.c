// Makes calls of a file fail, or ends the program at one of them, for scripts/check_stops. It is loaded before the C library (LD_PRELOAD),
// and counts the calls that read, write, cut or sync the file that STOP_FILE names. STOP_HOW says what happens at call number STOP_AT:
// - `fail`: this call and all further ones return EIO and change nothing.
// - `end`: the program ends before the call.
// - `torn`: the call writes half of its bytes, and the program ends.
//
// If the program ends by itself, the count goes to the file COUNTED. At each sync of a file in the folder of STOP_FILE, its contents are
// copied to the folder SYNCED, under the file's name.
//
// The calls of the C library are declared here (x86-64, Linux). So the toolchain's own clang, which has no headers, can compile it.
typedef unsigned long size_t;
typedef long ssize_t, off_t;

enum { EIO = 5, SIGKILL = 9, WRITE_NEW = 01 | 0100 | 01000, PATH = 4096 };

void abort(void);
int close(int fd);
void *dlsym(void *handle, const char *name);
int *__errno_location(void);
char *getenv(const char *name);
int getpid(void);
int kill(int process, int number);
int open(const char *path, int flags, ...);
ssize_t readlink(const char *path, char *to, size_t size);
int snprintf(char *to, size_t size, const char *form, ...);
int strcmp(const char *one, const char *other);
size_t strlen(const char *text);
int strncmp(const char *one, const char *other, size_t size);
char *strrchr(const char *text, int byte);
unsigned long strtoul(const char *text, char **end, int base);
ssize_t write(int fd, const void *from, size_t size);

ssize_t pread(int fd, void *to, size_t size, off_t at);
ssize_t pwrite(int fd, const void *from, size_t size, off_t at);
int ftruncate(int fd, off_t size);
int fsync(int fd);
int fdatasync(int fd);

// The C library's call with this name.
#define NEXT(name) ((__typeof__(&name))dlsym((void *)-1L, #name))

static const char *file, *how, *synced, *counted;
static unsigned long count, stop;

__attribute__((constructor)) static void begin(void) {
    const char *number = getenv("STOP_AT");
    file = getenv("STOP_FILE");
    how = getenv("STOP_HOW");
    synced = getenv("SYNCED");
    counted = getenv("COUNTED");
    stop = number ? strtoul(number, 0, 10) : 0;
}

static void write_new(int fd, const char *bytes, size_t size) {
    if (write(fd, bytes, size) != (ssize_t)size) abort();
}

__attribute__((destructor)) static void end(void) {
    char told[24];
    int to = counted ? open(counted, WRITE_NEW, 0600) : -1;
    if (to < 0) return;
    snprintf(told, sizeof told, "%lu\n", count);
    write_new(to, told, strlen(told));
    close(to);
}

// The path of an open file, or "".
static const char *path_of(int fd) {
    static char path[PATH];
    char link[40];
    snprintf(link, sizeof link, "/proc/self/fd/%d", fd);
    ssize_t length = readlink(link, path, sizeof path - 1);
    path[length < 0 ? 0 : length] = 0;
    return path;
}

// Whether this call is to be stopped.
static int is_stopped(int fd) {
    if (!file || !stop || strcmp(path_of(fd), file)) return 0;
    return ++count >= stop;
}

// Ends the program, or reports that the call failed.
static int refuse(void) {
    if (strcmp(how, "fail")) kill(getpid(), SIGKILL);
    *__errno_location() = EIO;
    return -1;
}

ssize_t pread(int fd, void *to, size_t size, off_t at) {
    return is_stopped(fd) ? refuse() : NEXT(pread)(fd, to, size, at);
}

ssize_t pwrite(int fd, const void *from, size_t size, off_t at) {
    if (!is_stopped(fd)) return NEXT(pwrite)(fd, from, size, at);
    if (!strcmp(how, "torn")) NEXT(pwrite)(fd, from, size / 2, at);
    return refuse();
}

int ftruncate(int fd, off_t size) {
    return is_stopped(fd) ? refuse() : NEXT(ftruncate)(fd, size);
}

// Keeps a copy of the file as it is now, since a loss of power leaves that.
static void keep(int fd) {
    static char bytes[65536];
    char path[PATH], to[PATH];
    if (!file || !synced) return;
    snprintf(path, sizeof path, "%s", path_of(fd));
    const char *name = strrchr(path, '/'), *folder = strrchr(file, '/');
    if (!name || name - path != folder - file || strncmp(path, file, folder - file)) return;
    snprintf(to, sizeof to, "%s%s", synced, name);
    int copy = open(to, WRITE_NEW, 0600);
    if (copy < 0) abort();
    off_t at = 0;
    for (ssize_t size; (size = NEXT(pread)(fd, bytes, sizeof bytes, at)) > 0; at += size) write_new(copy, bytes, size);
    close(copy);
}

int fsync(int fd) {
    if (is_stopped(fd)) return refuse();
    int status = NEXT(fsync)(fd);
    if (!status) keep(fd);
    return status;
}

int fdatasync(int fd) {
    if (is_stopped(fd)) return refuse();
    int status = NEXT(fdatasync)(fd);
    if (!status) keep(fd);
    return status;
}
