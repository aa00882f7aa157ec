/* Stands between a program and the C library, and has one of its calls fail: that with the number which the environment gives
   for calls of its sort, the first being 1. One byte to the file REFUSED tells that it came to that. Where ONE_BYTE is set, a
   read or a write moves one byte. */

typedef unsigned long size_t;
typedef long ssize_t;

extern void *dlsym(void *, const char *);
extern char *getenv(const char *);
extern int atoi(const char *);
extern int *__errno_location(void);

#define NEXT ((void *)-1)
#define INPUT_OUTPUT_ERROR 5

typedef ssize_t writes(int, const void *, size_t);
typedef ssize_t reads(int, void *, size_t);

static int fails(const char *sort, int *calls) {
    const char *number = getenv(sort);
    if (!number || ++*calls != atoi(number)) return 0;
    ((writes *)dlsym(NEXT, "write"))(atoi(getenv("REFUSED")), "x", 1);
    *__errno_location() = INPUT_OUTPUT_ERROR;
    return 1;
}

static size_t moved(size_t count) {
    return getenv("ONE_BYTE") && count > 1 ? 1 : count;
}

static int requests_made, reads_made, writes_made, empty_writes_made;

void *malloc(size_t size) {
    if (fails("REQUEST", &requests_made)) return 0;
    return ((void *(*)(size_t))dlsym(NEXT, "malloc"))(size);
}

void *realloc(void *block, size_t size) {
    if (fails("REQUEST", &requests_made)) return 0;
    return ((void *(*)(void *, size_t))dlsym(NEXT, "realloc"))(block, size);
}

ssize_t read(int file, void *bytes, size_t count) {
    if (fails("READ", &reads_made)) return -1;
    return ((reads *)dlsym(NEXT, "read"))(file, bytes, moved(count));
}

ssize_t write(int file, const void *bytes, size_t count) {
    if (fails("WRITE", &writes_made)) return -1;
    if (fails("EMPTY_WRITE", &empty_writes_made)) return 0;
    return ((writes *)dlsym(NEXT, "write"))(file, bytes, moved(count));
}
