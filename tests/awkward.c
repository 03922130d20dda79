/* Loaded before the C library (LD_PRELOAD): makes standard input and output transfer few bytes, be interrupted, or fail. These
   variables of the environment begin with READ_ for reads and with WRITE_ for writes:
   MOST         the largest number of bytes that a call transfers
   INTERRUPTED  the number of first calls that are interrupted
   FAILS        the number of the call that fails, from 0; all later ones fail too, unless ONCE is set
   COUNTS names a file, to which the numbers of reads and of writes are written at the end. */
#define _GNU_SOURCE
#include <errno.h>
#include <stdio.h>
#include <stdlib.h>
#include <sys/syscall.h>
#include <unistd.h>

struct device {
  const char *most, *interrupted, *fails, *once;
  unsigned long calls;
};

static struct device input = {"READ_MOST", "READ_INTERRUPTED", "READ_FAILS", "READ_ONCE", 0};
static struct device output = {"WRITE_MOST", "WRITE_INTERRUPTED", "WRITE_FAILS", "WRITE_ONCE", 0};

static unsigned long number(const char *name, unsigned long otherwise) {
  const char *text = getenv(name);
  return text == 0 ? otherwise : strtoul(text, 0, 10);
}

/* Returns how many of `size` bytes the next call transfers, or -1 if it is interrupted or fails. */
static ssize_t begun(struct device *it, size_t size) {
  unsigned long call = it->calls++;
  unsigned long fails = number(it->fails, -1ul);
  if (call < number(it->interrupted, 0)) {
    errno = EINTR;
    return -1;
  }
  if (call == fails || (call > fails && getenv(it->once) == 0)) {
    errno = EIO;
    return -1;
  }
  unsigned long most = number(it->most, -1ul);
  return size < most ? size : most;
}

ssize_t read(int file, void *to, size_t size) {
  ssize_t count = file == 0 ? begun(&input, size) : (ssize_t)size;
  return count < 0 ? -1 : syscall(SYS_read, file, to, count);
}

ssize_t write(int file, const void *from, size_t size) {
  ssize_t count = file == 1 ? begun(&output, size) : (ssize_t)size;
  return count < 0 ? -1 : syscall(SYS_write, file, from, count);
}

__attribute__((destructor)) static void tell(void) {
  const char *name = getenv("COUNTS");
  FILE *file = name == 0 ? 0 : fopen(name, "w");
  if (file == 0) return;
  fprintf(file, "%lu %lu", input.calls, output.calls);
  fclose(file);
}
