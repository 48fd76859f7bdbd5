/* Files that latchsym_read_file reads: of each length about the room that it takes first, of /proc, and
 * byte by byte with signals between; and each call of it refused in turn, after which no memory and no
 * file is left. */
#include <latchsym_read.h>
#include <stdio.h>
#include <string.h>
#include <sys/syscall.h>

extern void *__libc_malloc(size_t size);
extern void *__libc_realloc(void *block, size_t size);
extern void __libc_free(void *block);

#define CHECK(x) do { if (!(x)) { printf("read: line %d: %s\n", __LINE__, #x); exit(1); } } while (0)

enum { ROOM = 1 << 20 };

static long refused_call, calls, requests, blocks, files, reads;
static size_t most = SIZE_MAX; /* bytes a read */
static int interrupts, error;

static int is_refused(int reason) {
    if (!refused_call || ++calls != refused_call) return 0;
    errno = error = reason;
    return 1;
}

/* (valgrind puts its own in place of these three, which are then not to be inlined) */
__attribute__((noinline)) void *malloc(size_t size) {
    void *block = is_refused(ENOMEM) ? NULL : __libc_malloc(size);
    blocks += block != NULL, requests++;
    return block;
}
__attribute__((noinline)) void *realloc(void *old, size_t size) {
    void *block = is_refused(ENOMEM) ? NULL : __libc_realloc(old, size);
    blocks += block && !old, requests++;
    return block;
}
__attribute__((noinline)) void free(void *block) {
    blocks -= block != NULL;
    __libc_free(block);
    errno = EBADMSG;
}
int open(const char *path, int how, ...) {
    int file = is_refused(EACCES) ? -1 : (int)syscall(SYS_openat, AT_FDCWD, path, how, 0600);
    files += file >= 0;
    return file;
}
ssize_t read(int file, void *to, size_t len) {
    if (interrupts && reads++ % 2) return errno = EINTR, -1;
    return is_refused(EIO) ? -1 : syscall(SYS_read, file, to, len < most ? len : most);
}
int close(int file) {
    files--;
    syscall(SYS_close, file);
    errno = EBADMSG;
    return 0;
}

static uint8_t bytes[4 * ROOM + 9];

static void write_file(const char *path, size_t len) {
    FILE *file = fopen(path, "wb");
    CHECK(file && fwrite(bytes, 1, len, file) == len && !fclose(file));
}

static void is_read_whole(const char *path, size_t len) {
    struct latchsym_place place = LATCHSYM_PLACE_INIT;
    CHECK(!latchsym_read_file(path, &place) && place.at && place.len == len && !memcmp(place.at, bytes, len));
    free((void *)place.at);
}

static void each_length(const char *path) {
    static const size_t lengths[] = {0, 1, ROOM - 1, ROOM, ROOM + 1, 2 * ROOM - 1, 2 * ROOM, 4 * ROOM + 9};
    for (size_t i = 0; i < sizeof lengths / sizeof *lengths; i++) {
        write_file(path, lengths[i]);
        is_read_whole(path, lengths[i]);
    }
    interrupts = 1, most = 4095;
    is_read_whole(path, 4 * ROOM + 9);
    most = 1;
    write_file(path, 999);
    is_read_whole(path, 999);
    interrupts = 0, most = SIZE_MAX;
}

static void of_proc(void) {
    static const char head[] = "Name:\t";
    struct latchsym_place place = LATCHSYM_PLACE_INIT;
    CHECK(!latchsym_read_file("/proc/self/status", &place) && place.len > sizeof head);
    CHECK(!memcmp(place.at, head, sizeof head - 1) && place.at[place.len - 1] == '\n');
    free((void *)place.at);
}

static void each_refusal(const char *path) {
    long refused = 0;
    write_file(path, 4 * ROOM + 9);
    for (long call = 1;; call++) {
        struct latchsym_place place = {bytes, 7};
        long had = blocks;
        int answer;
        calls = requests = error = 0, refused_call = call;
        answer = latchsym_read_file(path, &place);
        refused_call = 0;
        CHECK(!answer || (errno == error && place.at == bytes && place.len == 7));
        if (answer) CHECK(answer == -1 && error && blocks == had && !files);
        if (answer) refused++;
        if (!answer) free((void *)place.at);
        if (!answer) break;
    }
    printf("read: %ld calls refused in turn\n", refused);
    CHECK(refused == requests + 6); /* to open and 5 to read */
}

int main(int count, char **words) {
    const char *path = count > 1 ? words[1] : "/tmp/latchsym_read";
    struct latchsym_place place = {bytes, 7};
    long had = blocks;
    for (size_t i = 0; i < sizeof bytes; i++) bytes[i] = (uint8_t)(i * 2654435761u >> 13);
    setvbuf(stdout, NULL, _IONBF, 0);
    each_length(path);
    of_proc();
    each_refusal(path);
    CHECK(!remove(path) && latchsym_read_file(path, &place) == -1 && errno == ENOENT);
    CHECK(latchsym_read_file("/", &place) == -1 && errno == EISDIR && place.at == bytes && place.len == 7);
    CHECK(blocks == had && !files);
    puts("read: ok");
}
