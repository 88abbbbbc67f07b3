// Makes a disk slow for one program, for the scripts beside it: loaded before the C library (LD_PRELOAD), it lets each sync of a file take as
// many milliseconds more as the file SLOW_SYNC says, or fail where that says a number below 0. Where that isn't there, it changes nothing.
#define _GNU_SOURCE
#include <errno.h>
#include <stdio.h>
#include <stdlib.h>
#include <sys/syscall.h>
#include <time.h>
#include <unistd.h>

// Waits as is asked, and gives whether the disk is to fail.
static int wait_as_asked(void) {
  const char *path = getenv("SLOW_SYNC");
  FILE *file = path ? fopen(path, "r") : NULL;
  long most = 0;
  if (!file) return 0;
  if (fscanf(file, "%ld", &most) != 1) most = 0;
  fclose(file);
  if (most < 0) return 1;
  struct timespec rest = {most / 1000, most % 1000 * 1000000};
  while (nanosleep(&rest, &rest)) {
  }
  return 0;
}

static int sync_by(long call, int file) {
  if (wait_as_asked()) {
    errno = EIO;
    return -1;
  }
  return (int)syscall(call, file);
}

int fsync(int file) { return sync_by(SYS_fsync, file); }

int fdatasync(int file) { return sync_by(SYS_fdatasync, file); }
