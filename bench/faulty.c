/* Put in front of the C library (LD_PRELOAD), this makes calls of a program fail, so that bench/faults.py can look at what
 * the program does then. Only calls from the program itself count, not those of libraries.
 *
 *   FAULTY_CALL    memory   malloc and realloc
 *                  read     read from standard input
 *                  write    write to standard output
 *                  dial     socket, bind, listen, accept, connect and setsockopt
 *                  receive  recv
 *                  send     send
 *                  disk     open and flock, and of what was opened fsync, fdatasync, ftruncate, lseek, statx, read, pread and write
 *   FAULTY_AT      the number of the first call that fails, from 1; 0 for none
 *   FAULTY_REST    1: all later calls fail too
 *   FAULTY_ERROR   the error number of a call that fails
 *   FAULTY_KILL    1: the program is killed in place of a call that fails
 *   FAULTY_PIECE   the most bytes that a read, write, recv or send moves; 0 for any
 *   FAULTY_COUNT   a file to which the number of calls is written at the end
 *   FAULTY_SYNCED  a file into which what was opened is copied whenever it was synced: what a crash leaves that loses all else
 */
#define _GNU_SOURCE
#include <errno.h>
#include <fcntl.h>
#include <link.h>
#include <stdarg.h>
#include <signal.h>
#include <stdint.h>
#include <stdio.h>
#include <stdlib.h>
#include <string.h>
#include <sys/socket.h>
#include <sys/stat.h>
#include <sys/syscall.h>
#include <unistd.h>

extern void *__libc_malloc(size_t);
extern void *__libc_realloc(void *, size_t);

static uintptr_t code_begin, code_end;
static const char *call_name = "", *synced_path;
static unsigned long at, rest, kills, piece, calls;
static int error_number = EIO;

static int note_program(struct dl_phdr_info *info, size_t size, void *unused) {
    (void)size;
    (void)unused;
    for (int i = 0; i < info->dlpi_phnum; i++) {
        const ElfW(Phdr) *part = &info->dlpi_phdr[i];
        if (part->p_type == PT_LOAD && (part->p_flags & PF_X)) {
            code_begin = info->dlpi_addr + part->p_vaddr;
            code_end = code_begin + part->p_memsz;
        }
    }
    return 1; /* the program itself comes first */
}

static unsigned long number_of(const char *name) {
    const char *value = getenv(name);
    return value ? strtoul(value, NULL, 10) : 0;
}

__attribute__((constructor)) static void begin(void) {
    dl_iterate_phdr(note_program, NULL);
    if (getenv("FAULTY_CALL")) call_name = getenv("FAULTY_CALL");
    if (getenv("FAULTY_ERROR")) error_number = (int)number_of("FAULTY_ERROR");
    synced_path = getenv("FAULTY_SYNCED");
    at = number_of("FAULTY_AT");
    rest = number_of("FAULTY_REST");
    kills = number_of("FAULTY_KILL");
    piece = number_of("FAULTY_PIECE");
}

__attribute__((destructor)) static void end(void) {
    const char *path = getenv("FAULTY_COUNT");
    if (!path) return;
    char told[32];
    int length = snprintf(told, sizeof told, "%lu\n", calls);
    int file = (int)syscall(SYS_openat, AT_FDCWD, path, O_WRONLY | O_CREAT | O_TRUNC, 0600);
    if (file >= 0) syscall(SYS_write, file, told, (size_t)length);
}

/* Whether this call is one that fails. */
static int fails(const char *name, void *caller) {
    uintptr_t from = (uintptr_t)caller;
    if (from < code_begin || from >= code_end || strcmp(name, call_name) != 0) return 0;
    calls++;
    if (at == 0 || (calls != at && !(rest && calls > at))) return 0;
    if (kills) kill(getpid(), SIGKILL);
    errno = error_number;
    return 1;
}

static size_t shortened(size_t length) { return piece && length > piece ? piece : length; }

/* Standard input and output apart, reads and writes are of the file that was opened. */
static const char *kind_of(int file) { return file == 0 ? "read" : file == 1 ? "write" : "disk"; }

static int is_ours(void *caller) { return (uintptr_t)caller >= code_begin && (uintptr_t)caller < code_end; }

/* Copies the bytes of a file that was synced; a folder has none. */
static int noted(int file, int answer) {
    if (answer != 0 || !synced_path) return answer;
    char bytes[4096];
    if (syscall(SYS_pread64, file, bytes, sizeof bytes, (off_t)0) < 0) return answer;
    int copy = (int)syscall(SYS_openat, AT_FDCWD, synced_path, O_WRONLY | O_CREAT | O_TRUNC, 0600);
    for (off_t place = 0;;) {
        long some = syscall(SYS_pread64, file, bytes, sizeof bytes, place);
        if (some <= 0) break;
        syscall(SYS_write, copy, bytes, some);
        place += some;
    }
    syscall(SYS_close, copy);
    return answer;
}

void *malloc(size_t size) {
    if (fails("memory", __builtin_return_address(0))) return NULL;
    return __libc_malloc(size);
}

void *realloc(void *old, size_t size) {
    if (fails("memory", __builtin_return_address(0))) return NULL;
    return __libc_realloc(old, size);
}

ssize_t read(int file, void *bytes, size_t length) {
    if (fails(kind_of(file), __builtin_return_address(0))) return -1;
    return syscall(SYS_read, file, bytes, is_ours(__builtin_return_address(0)) ? shortened(length) : length);
}

static ssize_t put(int file, const void *bytes, size_t length, void *caller) {
    if (fails(kind_of(file), caller)) return -1;
    return syscall(SYS_write, file, bytes, is_ours(caller) ? shortened(length) : length);
}

ssize_t write(int file, const void *bytes, size_t length) {
    return put(file, bytes, length, __builtin_return_address(0));
}

ssize_t __write(int file, const void *bytes, size_t length) {
    return put(file, bytes, length, __builtin_return_address(0));
}

ssize_t recv(int file, void *bytes, size_t length, int how) {
    if (fails("receive", __builtin_return_address(0))) return -1;
    return syscall(SYS_recvfrom, file, bytes, shortened(length), how, NULL, NULL);
}

ssize_t send(int file, const void *bytes, size_t length, int how) {
    if (fails("send", __builtin_return_address(0))) return -1;
    return syscall(SYS_sendto, file, bytes, shortened(length), how, NULL, 0);
}

int socket(int family, int type, int protocol) {
    if (fails("dial", __builtin_return_address(0))) return -1;
    return (int)syscall(SYS_socket, family, type, protocol);
}

int setsockopt(int file, int level, int option, const void *value, socklen_t length) {
    if (fails("dial", __builtin_return_address(0))) return -1;
    return (int)syscall(SYS_setsockopt, file, level, option, value, length);
}

int bind(int file, const struct sockaddr *address, socklen_t length) {
    if (fails("dial", __builtin_return_address(0))) return -1;
    return (int)syscall(SYS_bind, file, address, length);
}

int listen(int file, int most) {
    if (fails("dial", __builtin_return_address(0))) return -1;
    return (int)syscall(SYS_listen, file, most);
}

int connect(int file, const struct sockaddr *address, socklen_t length) {
    if (fails("dial", __builtin_return_address(0))) return -1;
    return (int)syscall(SYS_connect, file, address, length);
}

int accept4(int file, struct sockaddr *address, socklen_t *length, int how) {
    if (fails("dial", __builtin_return_address(0))) return -1;
    return (int)syscall(SYS_accept4, file, address, length, how);
}

int open(const char *path, int how, ...) {
    va_list more;
    va_start(more, how);
    unsigned mode = va_arg(more, unsigned);
    va_end(more);
    if (fails("disk", __builtin_return_address(0))) return -1;
    return (int)syscall(SYS_openat, AT_FDCWD, path, how, mode);
}

int fsync(int file) {
    if (fails("disk", __builtin_return_address(0))) return -1;
    return noted(file, (int)syscall(SYS_fsync, file));
}

int flock(int file, int how) {
    if (fails("disk", __builtin_return_address(0))) return -1;
    return (int)syscall(SYS_flock, file, how);
}

int fdatasync(int file) {
    if (fails("disk", __builtin_return_address(0))) return -1;
    return noted(file, (int)syscall(SYS_fdatasync, file));
}

int ftruncate(int file, off_t length) {
    if (fails("disk", __builtin_return_address(0))) return -1;
    return (int)syscall(SYS_ftruncate, file, length);
}

off_t lseek(int file, off_t place, int from) {
    if (file > 2 && fails("disk", __builtin_return_address(0))) return -1;
    return syscall(SYS_lseek, file, place, from);
}

ssize_t pread64(int file, void *bytes, size_t length, off_t place) {
    if (fails("disk", __builtin_return_address(0))) return -1;
    return syscall(SYS_pread64, file, bytes, is_ours(__builtin_return_address(0)) ? shortened(length) : length, place);
}

int statx(int file, const char *path, int flags, unsigned mask, struct statx *told) {
    if (fails("disk", __builtin_return_address(0))) return -1;
    return (int)syscall(SYS_statx, file, path, flags, mask, told);
}
