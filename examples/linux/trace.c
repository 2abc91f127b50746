/* Does mappings, loads, stores, a fork, reads and writes on the Linux that it runs on, and prints the trace of what it
 * saw, as `sunvm --check` reads it.
 *
 *     cc -O1 -o trace trace.c && ./trace > seen.trace && sunvm --check < seen.trace
 *
 * The processes take turns (a parent waits for its child), so the order of the entries is the order in which they were
 * done. Words are printed as the bytes lie in memory, which is the model's big-endian order. */
#define _GNU_SOURCE
#include <setjmp.h>
#include <signal.h>
#include <stdarg.h>
#include <stdint.h>
#include <stdio.h>
#include <stdlib.h>
#include <string.h>
#include <sys/mman.h>
#include <sys/wait.h>
#include <unistd.h>

enum { PAGE = 4096, MOST = 1 << 16 };

/* What was seen: in memory that parent and child share, and that is no part of what is traced. */
struct log { unsigned entries; unsigned used; char text[MOST]; };
static struct log *seen;
static int me = 1, born = 1, file;
static sigjmp_buf back;
static volatile int code, number;

static void die(const char *what) { perror(what); exit(2); }

static void tell(const char *form, ...) {
    va_list args;
    va_start(args, form);
    seen->used += snprintf(seen->text + seen->used, MOST - seen->used, "%d %016x ", me, 0);
    seen->used += vsnprintf(seen->text + seen->used, MOST - seen->used, form, args);
    seen->text[seen->used++] = '\n';
    seen->entries++;
    va_end(args);
}

static void caught(int signal, siginfo_t *info, void *context) {
    (void)context;
    number = signal;
    code = info->si_code;
    siglongjmp(back, 1);
}

static const char *signal_text(void) {
    if (number == SIGBUS) return "BUS past";
    return code == SEGV_MAPERR ? "SEGV nomap" : "SEGV prot";
}

static void hex(char *out, const void *bytes, unsigned count) {
    for (unsigned i = 0; i < count; i++) sprintf(out + 2 * i, "%02x", ((const unsigned char *)bytes)[i]);
}

/* An access of n bytes at a multiple of n: one instruction of the machine. */
static void copy(volatile void *to, const volatile void *from, int n) {
    if (n == 1) *(volatile uint8_t *)to = *(const volatile uint8_t *)from;
    else if (n == 2) *(volatile uint16_t *)to = *(const volatile uint16_t *)from;
    else *(volatile uint32_t *)to = *(const volatile uint32_t *)from;
}

static void load(uint32_t at, int n) {
    char text[9];
    uint32_t word;
    if (sigsetjmp(back, 1)) { tell("load 0x%08x %d = %s", at, n, signal_text()); return; }
    copy(&word, (void *)(uintptr_t)at, n);
    hex(text, &word, n);
    tell("load 0x%08x %d = 0x%s", at, n, text);
}

static void store(uint32_t at, int n, const char *bytes) {
    char text[9];
    uint32_t word;
    memcpy(&word, bytes, n);
    hex(text, bytes, n);
    if (sigsetjmp(back, 1)) { tell("store 0x%08x %d 0x%s = %s", at, n, text, signal_text()); return; }
    copy((void *)(uintptr_t)at, &word, n);
    tell("store 0x%08x %d 0x%s = ok", at, n, text);
}

static const char *rights(int prot) {
    return prot == PROT_NONE ? "none" : prot == PROT_READ ? "r" : prot == PROT_WRITE ? "w" : "rw";
}

static void map(uint32_t at, unsigned len, int prot, int shared, int of_file, unsigned offset) {
    int flags = MAP_FIXED | (shared ? MAP_SHARED : MAP_PRIVATE) | (of_file ? 0 : MAP_ANONYMOUS);
    void *got = mmap((void *)(uintptr_t)at, len, prot, flags, of_file ? file : -1, offset);
    if (got == MAP_FAILED) die("mmap");
    tell("map 0x%08x %u %s %s %s %u = 0x%08x", at, len, rights(prot), shared ? "shared" : "private",
         of_file ? "file 0" : "newzero", offset, (uint32_t)(uintptr_t)got);
}

static void unmap(uint32_t at, unsigned len) {
    if (munmap((void *)(uintptr_t)at, len)) die("munmap");
    tell("unmap 0x%08x %u = ok", at, len);
}

static void protect(uint32_t at, unsigned len, int prot) {
    if (mprotect((void *)(uintptr_t)at, len, prot)) die("mprotect");
    tell("protect 0x%08x %u %s = ok", at, len, rights(prot));
}

static void synchronize(uint32_t at, unsigned len) {
    unsigned from = seen->entries;
    if (msync((void *)(uintptr_t)at, len, MS_SYNC)) die("msync");
    tell("sync 0x%08x %u = ok %u", at, len, from);
}

/* One part: inside one line of 64 bytes, so that the call has one entry. */
static void read_part(unsigned offset, unsigned len) {
    char bytes[64], text[129] = "";
    ssize_t got = pread(file, bytes, len, offset);
    if (got < 0) die("pread");
    hex(text, bytes, got);
    tell("read 0 %u %u = bytes %zd%s%s", offset, len, got, got ? " " : "", text);
}

static void write_part(unsigned offset, const char *bytes, unsigned len) {
    char text[129];
    if (pwrite(file, bytes, len, offset) != (ssize_t)len) die("pwrite");
    hex(text, bytes, len);
    tell("write 0 %u %s 0 = ok", offset, text);
}

static pid_t divide(void) {
    int child = ++born;
    tell("fork %d = ok", child);
    pid_t pid = fork();
    if (pid < 0) die("fork");
    if (pid == 0) me = child;
    return pid;
}

static void leave(void) { tell("exit = ok"); }

static void opening(void) {
    char path[] = "/tmp/trace-XXXXXX";
    file = mkstemp(path);
    if (file < 0) die("mkstemp");
    unlink(path);
    if (pwrite(file, "hello", 5, 0) != 5) die("pwrite");
    seen = mmap(0, sizeof *seen, PROT_READ | PROT_WRITE, MAP_SHARED | MAP_ANONYMOUS, -1, 0);
    if (seen == MAP_FAILED) die("mmap");
    struct sigaction action = {.sa_sigaction = caught, .sa_flags = SA_SIGINFO};
    sigaction(SIGSEGV, &action, 0);
    sigaction(SIGBUS, &action, 0);
}

int main(void) {
    const uint32_t shown = 0x20000000, own = 0x20010000, zeros = 0x20020000;
    opening();
    map(shown, 2 * PAGE, PROT_READ | PROT_WRITE, 1, 1, 0);
    map(own, PAGE, PROT_READ | PROT_WRITE, 0, 1, 0);
    map(zeros, 2 * PAGE, PROT_READ | PROT_WRITE, 0, 0, 0);
    load(shown, 4);
    load(shown + PAGE, 1);                        /* behind the file's last page */
    store(shown + 1, 1, "E");
    read_part(0, 64);                             /* a store in a mapping is seen by a read */
    write_part(4, "O!", 2);                       /* and a write in a mapping; it makes the file longer */
    load(shown + 4, 2);
    store(own, 1, "J");                           /* a private copy */
    write_part(0, "C", 1);
    load(own, 1);
    load(shown, 1);
    store(zeros, 4, "\1\2\3\4");
    pid_t child = divide();
    if (child == 0) {
        load(zeros, 4);
        store(zeros, 2, "\377\376");
        store(shown + 2, 1, "L");                 /* shared with the parent */
        load(zeros, 4);
        leave();
        return 0;
    }
    waitpid(child, 0, 0);
    load(zeros, 4);
    load(shown, 4);
    protect(zeros, PAGE, PROT_READ);
    store(zeros, 4, "\0\0\0\0");
    load(zeros, 4);
    synchronize(shown, PAGE);
    unmap(own, PAGE);
    load(own, 1);
    read_part(0, 64);
    leave();
    printf("trace swap 64\ndisk 0 64\nroot 1\nfile 0 a rw 0 5 1+1\n00000000 68656c6c6f\nentries %u\n%.*s", seen->entries,
           (int)seen->used, seen->text);
    return 0;
}
