// Refuses one call of a program, for bin/refuse-memory: loaded before the C library (LD_PRELOAD), it counts the calls
// of one kind and refuses the one whose number is asked for.
//
// REFUSE_KIND  memory: malloc, calloc, realloc, aligned_alloc, posix_memalign, mmap give nothing (ENOMEM);
//              thread: pthread_create gives EAGAIN;
//              stream: read, readv, recv, recvfrom, recvmsg, write, writev, send, sendto, sendmsg fail (EIO);
//              short:  the same calls move one byte, where they should move more
// REFUSE_AT    the number of the call, from 1; 0 refuses none
// REFUSE_COUNT a file of 8 bytes, which gets the number of calls of this kind so far
//
// What the C library does before the program's own code begins isn't counted: the counting begins with the constructor.
#define _GNU_SOURCE
#include <dlfcn.h>
#include <errno.h>
#include <fcntl.h>
#include <pthread.h>
#include <stdatomic.h>
#include <stdint.h>
#include <stdlib.h>
#include <string.h>
#include <sys/mman.h>
#include <sys/socket.h>
#include <sys/syscall.h>
#include <sys/uio.h>
#include <unistd.h>

extern void *__libc_malloc(size_t);
extern void *__libc_calloc(size_t, size_t);
extern void *__libc_realloc(void *, size_t);
extern void *__libc_memalign(size_t, size_t);

enum kind { NONE, MEMORY, THREAD, STREAM, SHORT };
static enum kind kind;
static uint64_t refused_at;
static _Atomic uint64_t *calls;
static int (*create)(pthread_t *, const pthread_attr_t *, void *(*)(void *), void *);

__attribute__((constructor)) static void begin(void) {
  const char *word = getenv("REFUSE_KIND"), *at = getenv("REFUSE_AT"), *path = getenv("REFUSE_COUNT");
  if (!word || !at || !path) return;
  create = (int (*)(pthread_t *, const pthread_attr_t *, void *(*)(void *), void *))dlsym(RTLD_NEXT, "pthread_create");
  refused_at = strtoull(at, NULL, 10);
  int file = open(path, O_RDWR);
  void *page = (void *)syscall(SYS_mmap, NULL, 8, PROT_READ | PROT_WRITE, MAP_SHARED, file, 0);
  if (file < 0 || page == MAP_FAILED) _exit(99);
  close(file);
  calls = page;
  kind = !strcmp(word, "memory") ? MEMORY : !strcmp(word, "thread") ? THREAD : !strcmp(word, "stream") ? STREAM : SHORT;
}

// Counts a call of this kind, and says whether it is the one to refuse.
static int refused(enum kind of) {
  return kind == of && atomic_fetch_add(calls, 1) + 1 == refused_at;
}

void *malloc(size_t n) {
  if (refused(MEMORY)) { errno = ENOMEM; return NULL; }
  return __libc_malloc(n);
}

void *calloc(size_t n, size_t size) {
  if (refused(MEMORY)) { errno = ENOMEM; return NULL; }
  return __libc_calloc(n, size);
}

void *realloc(void *old, size_t n) {
  if (refused(MEMORY)) { errno = ENOMEM; return NULL; }
  return __libc_realloc(old, n);
}

void *aligned_alloc(size_t align, size_t n) {
  if (refused(MEMORY)) { errno = ENOMEM; return NULL; }
  return __libc_memalign(align, n);
}

int posix_memalign(void **out, size_t align, size_t n) {
  if (refused(MEMORY)) return ENOMEM;
  *out = __libc_memalign(align, n);
  return *out ? 0 : ENOMEM;
}

void *mmap(void *at, size_t n, int prot, int flags, int file, off_t offset) {
  if (refused(MEMORY)) { errno = ENOMEM; return MAP_FAILED; }
  return (void *)syscall(SYS_mmap, at, n, prot, flags, file, offset);
}

int pthread_create(pthread_t *thread, const pthread_attr_t *attributes, void *(*run)(void *), void *with) {
  return refused(THREAD) ? EAGAIN : create(thread, attributes, run, with);
}

// How many bytes of n a read or a write may move: -1 where it is refused.
static ssize_t room(size_t n) {
  if (refused(STREAM)) { errno = EIO; return -1; }
  if (n > 1 && refused(SHORT)) return 1;
  return (ssize_t)n;
}

#define ONE_BUFFER(name, type, number, ...) \
  ssize_t name(int file, type data, size_t n) { \
    ssize_t most = room(n); \
    return most < 0 ? -1 : syscall(number, file, data, most, ##__VA_ARGS__); \
  }

ONE_BUFFER(read, void *, SYS_read)
ONE_BUFFER(write, const void *, SYS_write)

ssize_t recvfrom(int file, void *restrict data, size_t n, int flags, struct sockaddr *restrict from,
                 socklen_t *restrict length) {
  ssize_t most = room(n);
  return most < 0 ? -1 : syscall(SYS_recvfrom, file, data, most, flags, from, length);
}

ssize_t recv(int file, void *data, size_t n, int flags) { return recvfrom(file, data, n, flags, NULL, NULL); }

ssize_t sendto(int file, const void *data, size_t n, int flags, const struct sockaddr *to, socklen_t length) {
  ssize_t most = room(n);
  return most < 0 ? -1 : syscall(SYS_sendto, file, data, most, flags, to, length);
}

ssize_t send(int file, const void *data, size_t n, int flags) { return sendto(file, data, n, flags, NULL, 0); }

// Of several buffers a short call moves the first byte of the first one that has any.
static struct iovec first_byte(const struct iovec *parts, size_t count) {
  while (count > 1 && !parts->iov_len) parts++, count--;
  return (struct iovec){parts->iov_base, 1};
}

static size_t length_of(const struct iovec *parts, size_t count) {
  size_t n = 0;
  for (size_t i = 0; i < count; i++) n += parts[i].iov_len;
  return n;
}

static ssize_t vectored(long number, int file, const struct iovec *parts, int count) {
  size_t n = length_of(parts, (size_t)count);
  ssize_t most = room(n);
  if (most < 0) return -1;
  if ((size_t)most == n) return syscall(number, file, parts, count);
  struct iovec one = first_byte(parts, (size_t)count);
  return syscall(number, file, &one, 1);
}

ssize_t readv(int file, const struct iovec *parts, int count) { return vectored(SYS_readv, file, parts, count); }
ssize_t writev(int file, const struct iovec *parts, int count) { return vectored(SYS_writev, file, parts, count); }

static ssize_t message(long number, int file, const struct msghdr *whole, int flags) {
  size_t n = length_of(whole->msg_iov, whole->msg_iovlen);
  ssize_t most = room(n);
  if (most < 0) return -1;
  if ((size_t)most == n) return syscall(number, file, whole, flags);
  struct iovec one = first_byte(whole->msg_iov, whole->msg_iovlen);
  struct msghdr part = *whole;
  part.msg_iov = &one;
  part.msg_iovlen = 1;
  return syscall(number, file, &part, flags);
}

ssize_t recvmsg(int file, struct msghdr *whole, int flags) { return message(SYS_recvmsg, file, whole, flags); }
ssize_t sendmsg(int file, const struct msghdr *whole, int flags) { return message(SYS_sendmsg, file, whole, flags); }
