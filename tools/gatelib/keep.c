/* Linked into a trial build: when the program starts, it copies its executable to the file KEPT, unless that exists. It needs no header. */
int open(const char *path, int flags, ...);
long read(int file, void *bytes, unsigned long count);
long write(int file, const void *bytes, unsigned long count);
int close(int file);
int rename(const char *from, const char *to);

enum { READ = 0, WRITE = 01, CREATE = 0100, EMPTY = 01000, EXECUTABLE = 0755 };

__attribute__((constructor)) static void keep(int count, char **words)
{
    static char bytes[1 << 16];
    int from, to, kept = open(KEPT, READ);
    long size = -1;
    (void)count;
    /* the kept executable runs this too */
    if (kept >= 0) {
        close(kept);
        return;
    }
    from = open(words[0], READ);
    to = open(KEPT ".part", WRITE | CREATE | EMPTY, EXECUTABLE);
    while (from >= 0 && to >= 0 && (size = read(from, bytes, sizeof bytes)) > 0 && write(to, bytes, size) == size)
        ;
    close(from);
    close(to);
    /* the whole file, or none */
    if (size == 0)
        rename(KEPT ".part", KEPT);
}
