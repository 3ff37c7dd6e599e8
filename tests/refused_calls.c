/* A tool for tests, preloaded before the C library: it counts the calls of one kind that a program
 * makes, and refuses one of them, or all from one on. REFUSED_CALL names the kind and the number,
 * as `growth:3` or `growth:3+`; the number 0 refuses none. At the end of the program the number of
 * calls is written into the file REFUSED_COUNT. REFUSED_ERROR may be the number of another error
 * of an opening. The kinds: growth (of memory), open (no file can be opened any more) and
 * closed-open (that file or folder may not be), seek, link (what a link says), tell (about a
 * file), mode (of a file), sync (of a file or a folder), unable-sync and unsupported-sync (the
 * file system can't), rename; input, output and errors (reads and writes of the standard streams),
 * load and store (those of other files); idle-store and idle-output, which take nothing where they
 * are refused; slow-input, slow-output, slow-load and slow-store, which move one byte; and
 * interrupted-open, interrupted-mode, interrupted-sync, interrupted-input, interrupted-output,
 * interrupted-load and interrupted-store, which a signal interrupts before anything is done. */
/* No header is included, so that the kit's own clang compiles it: the declarations and numbers are
 * those of Linux on x86-64. */
typedef __SIZE_TYPE__ size_t;
typedef long ssize_t, off_t;
enum {
    READ = 0,
    WRITE = 1,
    OPEN = 2,
    CLOSE = 3,
    LSEEK = 8,
    FSYNC = 74,
    RENAME = 82,
    READLINK = 89,
    FCHMOD = 91,
    STATX = 332
};
enum { MAKE_ANEW = 01 | 0100 | 01000 };
enum {
    INTERRUPTED = 4,
    NO_INPUT_OUTPUT = 5,
    NO_MEMORY = 12,
    NO_LEAVE = 13,
    NO_SENSE = 22,
    NO_NUMBER = 24,
    NO_SUPPORT = 95
};

extern long syscall(long number, ...);
extern int *__errno_location(void);
extern char *getenv(const char *name);
extern void *__libc_malloc(size_t size);
extern void *__libc_realloc(void *old, size_t size);

static char kind[32];
static long refused, from_here_on, calls;
static int error_of_open;

static long number_in(const char *text) {
    long number = 0;
    for (; *text >= '0' && *text <= '9'; text++) number = 10 * number + (*text - '0');
    return number;
}

__attribute__((constructor)) static void start(void) {
    const char *call = getenv("REFUSED_CALL"), *error = getenv("REFUSED_ERROR");
    if (error) error_of_open = (int)number_in(error);
    if (!call) return;
    for (size_t i = 0; *call != ':'; call++, i++) {
        if (!*call || i + 1 >= sizeof kind) return;
        kind[i] = *call;
    }
    refused = number_in(++call);
    while (*call >= '0' && *call <= '9') call++;
    from_here_on = *call == '+';
}

__attribute__((destructor)) static void finish(void) {
    const char *path = getenv("REFUSED_COUNT");
    char digits[24];
    int length = 0;
    for (long left = calls; left > 0 || length == 0; left /= 10)
        digits[sizeof digits - ++length] = '0' + left % 10;
    if (!path) return;
    int file = syscall(OPEN, path, MAKE_ANEW, 0600);
    if (file < 0) return;
    syscall(WRITE, (long)file, digits + sizeof digits - length, (long)length);
    syscall(CLOSE, (long)file);
}

/* counts a call of a kind, and tells whether it is refused */
static int is_refused(const char *name) {
    size_t i = 0;
    while (kind[i] && kind[i] == name[i]) i++;
    if (kind[i] != name[i]) return 0;
    calls++;
    return refused > 0 && (calls == refused || (from_here_on && calls > refused));
}

void *malloc(size_t size) {
    if (is_refused("growth")) return *__errno_location() = NO_MEMORY, (void *)0;
    return __libc_malloc(size);
}

void *realloc(void *old, size_t size) {
    if (is_refused("growth")) return *__errno_location() = NO_MEMORY, (void *)0;
    return __libc_realloc(old, size);
}

int open(const char *path, int flags, unsigned mode) {
    int number = error_of_open;
    if (is_refused("open")) return *__errno_location() = number ? number : NO_NUMBER, -1;
    if (is_refused("closed-open")) return *__errno_location() = number ? number : NO_LEAVE, -1;
    if (is_refused("interrupted-open")) return *__errno_location() = INTERRUPTED, -1;
    return syscall(OPEN, path, (long)flags, (long)mode);
}

off_t lseek(int file, off_t offset, int whence) {
    if (is_refused("seek")) return *__errno_location() = NO_INPUT_OUTPUT, -1;
    return syscall(LSEEK, (long)file, offset, (long)whence);
}

ssize_t readlink(const char *path, char *into, size_t count) {
    if (is_refused("link")) return *__errno_location() = NO_INPUT_OUTPUT, -1;
    return syscall(READLINK, path, into, count);
}

int statx(int folder, const char *path, int flags, unsigned mask, void *into) {
    if (is_refused("tell")) return *__errno_location() = NO_INPUT_OUTPUT, -1;
    return syscall(STATX, (long)folder, path, (long)flags, (long)mask, into);
}

int fchmod(int file, unsigned mode) {
    if (is_refused("mode")) return *__errno_location() = NO_LEAVE, -1;
    if (is_refused("interrupted-mode")) return *__errno_location() = INTERRUPTED, -1;
    return syscall(FCHMOD, (long)file, (long)mode);
}

int fsync(int file) {
    if (is_refused("sync")) return *__errno_location() = NO_INPUT_OUTPUT, -1;
    if (is_refused("unable-sync")) return *__errno_location() = NO_SENSE, -1;
    if (is_refused("unsupported-sync")) return *__errno_location() = NO_SUPPORT, -1;
    if (is_refused("interrupted-sync")) return *__errno_location() = INTERRUPTED, -1;
    return syscall(FSYNC, (long)file);
}

int rename(const char *from, const char *to) {
    if (is_refused("rename")) return *__errno_location() = NO_INPUT_OUTPUT, -1;
    return syscall(RENAME, from, to);
}

ssize_t read(int file, void *into, size_t count) {
    if (is_refused(file == 0 ? "input" : "load")) return *__errno_location() = NO_INPUT_OUTPUT, -1;
    if (is_refused(file == 0 ? "interrupted-input" : "interrupted-load"))
        return *__errno_location() = INTERRUPTED, -1;
    if (count > 1 && is_refused(file == 0 ? "slow-input" : "slow-load")) count = 1;
    return syscall(READ, (long)file, into, count);
}

static ssize_t put(int file, const void *from, size_t count) {
    const char *name = file == 1 ? "output" : file == 2 ? "errors" : "store";
    if (is_refused(name)) return *__errno_location() = NO_INPUT_OUTPUT, -1;
    if (file != 2 && is_refused(file == 1 ? "idle-output" : "idle-store")) return 0;
    if (file != 2 && is_refused(file == 1 ? "interrupted-output" : "interrupted-store"))
        return *__errno_location() = INTERRUPTED, -1;
    if (count > 1 && is_refused(file == 1 ? "slow-output" : "slow-store")) count = 1;
    return syscall(WRITE, (long)file, from, count);
}

ssize_t write(int file, const void *from, size_t count) { return put(file, from, count); }
ssize_t __write(int file, const void *from, size_t count) { return put(file, from, count); }
