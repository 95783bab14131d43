// Replaces read and write of the C library in a program that the tests run. The environment has the parameters. Each call for
// the file descriptor FILE moves at most STEP bytes. Call number FAILING moves none and returns ANSWER; -1, the default, means
// that it was interrupted. The file descriptor COUNT gets a byte for each call.
long syscall(long number, ...);
char *getenv(const char *name);
int atoi(const char *text);
int *__errno_location(void);

enum { READ = 0, WRITE = 1, INTERRUPTED = 4 };

static int calls;

static long moved(long number, int file, const void *bytes, unsigned long length) {
    if (file != atoi(getenv("FILE")))
        return syscall(number, file, bytes, length);
    syscall(WRITE, atoi(getenv("COUNT")), ".", 1);
    if (++calls == atoi(getenv("FAILING"))) {
        const char *answer = getenv("ANSWER");
        *__errno_location() = INTERRUPTED;
        return answer ? atoi(answer) : -1;
    }
    unsigned long step = atoi(getenv("STEP"));
    return syscall(number, file, bytes, length < step ? length : step);
}

long read(int file, void *bytes, unsigned long length) {
    return moved(READ, file, bytes, length);
}

long write(int file, const void *bytes, unsigned long length) {
    return moved(WRITE, file, bytes, length);
}
