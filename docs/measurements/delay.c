// Times data packets of a program with one task and a period, for delay.sh and udp.sh: loaded before the C library (LD_PRELOAD), it
// notes when a sleep of at least 500 microseconds ends, or a wait that nobody ended in time, which is that of the task before its cycle,
// and how long after it
// a frame is written whose packet is one of data (its first byte is below 40, hexadecimal).
//
// DELAY_FILE   the file that gets the microseconds of each, one a line
#define _GNU_SOURCE
#include <dlfcn.h>
#include <errno.h>
#include <fcntl.h>
#include <stdarg.h>
#include <stdatomic.h>
#include <stdio.h>
#include <stdlib.h>
#include <sys/socket.h>
#include <sys/syscall.h>
#include <time.h>
#include <unistd.h>

static _Atomic long long woken;
static int delays = -1;

__attribute__((constructor)) static void begin(void) {
  const char *path = getenv("DELAY_FILE");
  if (path) delays = open(path, O_WRONLY | O_CREAT | O_APPEND, 0666);
}

static long long now(void) {
  struct timespec t;
  clock_gettime(CLOCK_MONOTONIC, &t);
  return t.tv_sec * 1000000000LL + t.tv_nsec;
}

static void note(const unsigned char *bytes, size_t length) {
  if (length >= 5 && bytes[4] < 0x40 && woken && delays >= 0) dprintf(delays, "%.1f\n", (now() - woken) / 1000.0);
}

int clock_nanosleep(clockid_t clock, int flags, const struct timespec *wait, struct timespec *left) {
  static int (*next)(clockid_t, int, const struct timespec *, struct timespec *);
  if (!next) next = dlsym(RTLD_NEXT, "clock_nanosleep");
  int status = next(clock, flags, wait, left);
  if (wait->tv_sec > 0 || wait->tv_nsec >= 500000) woken = now();
  return status;
}

int nanosleep(const struct timespec *wait, struct timespec *left) {
  static int (*next)(const struct timespec *, struct timespec *);
  if (!next) next = dlsym(RTLD_NEXT, "nanosleep");
  int status = next(wait, left);
  if (wait->tv_sec > 0 || wait->tv_nsec >= 500000) woken = now();
  return status;
}

long syscall(long number, ...) {
  static long (*next)(long, ...);
  if (!next) next = dlsym(RTLD_NEXT, "syscall");
  va_list given;
  long a[6];
  va_start(given, number);
  for (int i = 0; i < 6; i++) a[i] = va_arg(given, long);
  va_end(given);
  long result = next(number, a[0], a[1], a[2], a[3], a[4], a[5]);
  if (number == SYS_futex && result == -1 && errno == ETIMEDOUT) woken = now();
  return result;
}

ssize_t write(int file, const void *bytes, size_t length) {
  static ssize_t (*next)(int, const void *, size_t);
  if (!next) next = dlsym(RTLD_NEXT, "write");
  if (file > 2 && file != delays) note(bytes, length);
  return next(file, bytes, length);
}

ssize_t send(int file, const void *bytes, size_t length, int flags) {
  static ssize_t (*next)(int, const void *, size_t, int);
  if (!next) next = dlsym(RTLD_NEXT, "send");
  note(bytes, length);
  return next(file, bytes, length, flags);
}

ssize_t sendto(int file, const void *bytes, size_t length, int flags, const struct sockaddr *to, socklen_t size) {
  static ssize_t (*next)(int, const void *, size_t, int, const struct sockaddr *, socklen_t);
  if (!next) next = dlsym(RTLD_NEXT, "sendto");
  note(bytes, length);
  return next(file, bytes, length, flags, to, size);
}
