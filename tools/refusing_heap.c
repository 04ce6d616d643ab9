/* The heap of a trial build that refuses one request for memory, which the program names: the kit's c/heap.c, with that besides.

   A request of ORDERS bytes or more is an order, and is refused itself. One of ORDERS + n bytes says that the nth request from then on
   is to be refused. One of ORDERS bytes ends that: the next request is then refused where the one that was named has come.

   What stands here needs no header, so that the kit's clang compiles it. */

typedef __SIZE_TYPE__ size;

#define ORDERS ((size)1 << 46)

/* Whether there is memory, and where. */
struct tried {
    size is_there;
    void *block;
};

void *malloc(size bytes);
void *realloc(void *block, size bytes);
void free(void *block);

#ifdef COUNTER
/* The runs of a program count themselves by a byte that each adds to a file. The file COUNTER.plan has two bytes for each run, the low one
   first: the number of the request that it is refused; 0 refuses none. A run whose request comes writes a byte to the file COUNTER.came, at
   its own place. */
int open(const char *path, int flags, ...);
long write(int file, const void *bytes, size count);
long pwrite(int file, const void *bytes, size count, long place);
long pread(int file, void *bytes, size count, long place);
long lseek(int file, long offset, int from);
int close(int file);

enum { RDONLY = 0, WRONLY = 01, CREAT = 0100, APPEND = 02000, OWNERS = 0600, CURRENT = 1 };

/* How many runs there were before this one. */
static long before;

static void count_run(void) {
    int file = open(COUNTER, WRONLY | CREAT | APPEND, OWNERS);
    long added = write(file, "", 1);
    before = lseek(file, 0, CURRENT) - added;
    close(file);
}

/* The number of the request that this run is refused. */
static size planned(void) {
    unsigned char bytes[2] = {0, 0};
    int file = open(COUNTER ".plan", RDONLY);
    pread(file, bytes, sizeof bytes, before * (long)sizeof bytes);
    close(file);
    return bytes[0] + ((size)bytes[1] << 8);
}

static void tell(void) {
    int file = open(COUNTER ".came", WRONLY | CREAT, OWNERS);
    pwrite(file, "1", 1, before);
    close(file);
}
#endif

/* How many requests it is to the one that is refused, that one counted; 0 where none is. */
static size left;
/* Whether the one that was named has come. */
static int has_come;
/* What a pointer to no memory points at. */
static char nothing;

static void obey(size order) {
    left = order ? order : has_come;
    has_come = 0;
}

static int is_refused(size bytes) {
    if (bytes >= ORDERS) {
        obey(bytes - ORDERS);
        return 1;
    }
    if (!left || --left)
        return 0;
    has_come = 1;
#ifdef COUNTER
    tell();
#endif
    return 1;
}

#ifdef COUNTER
__attribute__((constructor)) static void begin(void) {
    count_run();
    left = planned();
}
#endif

static struct tried tried_with(void *block) {
    struct tried answer = {block != 0, block ? block : &nothing};
    return answer;
}

/* A block of no bytes is as large as its alignment. */
struct tried rattle_alloc(size bytes, size alignment) {
    return tried_with(is_refused(bytes) ? 0 : malloc(bytes ? bytes : alignment));
}

struct tried rattle_realloc(void *block, size kept, size bytes, size alignment) {
    (void)kept;
    return tried_with(is_refused(bytes) ? 0 : realloc(block, bytes ? bytes : alignment));
}

void rattle_dealloc(void *block) {
    free(block);
}
