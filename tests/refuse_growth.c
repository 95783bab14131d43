// Replaces malloc and realloc of the C library in a program that the tests run. The environment has the parameters. Growth number
// REFUSED is refused, and the file descriptor REPORT gets a line that says so. In the end the file descriptor COUNTED gets the
// number of growths, and of the bytes that they asked for.
void *__libc_malloc(unsigned long size);
void *__libc_realloc(void *block, unsigned long size);
char *getenv(const char *name);
int atoi(const char *text);
long write(int file, const void *bytes, unsigned long length);
int dprintf(int file, const char *format, ...);

static int growths;
static unsigned long asked;

static int is_refused(unsigned long size) {
    const char *refused = getenv("REFUSED");
    growths++;
    asked += size;
    if (!refused || growths != atoi(refused))
        return 0;
    write(atoi(getenv("REPORT")), "refused\n", 8);
    return 1;
}

void *malloc(unsigned long size) {
    return is_refused(size) ? 0 : __libc_malloc(size);
}

void *realloc(void *block, unsigned long size) {
    return is_refused(size) ? 0 : __libc_realloc(block, size);
}

__attribute__((destructor)) static void tell(void) {
    const char *counted = getenv("COUNTED");
    if (counted)
        dprintf(atoi(counted), "%d %lu\n", growths, asked);
}
