/* Loaded before the C library (LD_PRELOAD): each of the program's allocations fails in a copy of the program, which runs from there to
   its end, while the program itself waits and then goes on as if nothing had failed. The C library's own allocations aren't counted,
   and neither is a block that is made smaller, since that frees memory.

   The standard output and standard error of the Nth copy, with what the program had written before, are the files N.out and N.err in
   the folder REFUSED of the environment. The file `statuses` there has the wait status of each copy, on a line each. Standard input,
   output and error of the program must be files, since a copy and the program share their offsets. */
#define _GNU_SOURCE
#include <errno.h>
#include <fcntl.h>
#include <link.h>
#include <signal.h>
#include <stdint.h>
#include <stdio.h>
#include <stdlib.h>
#include <sys/prctl.h>
#include <sys/wait.h>
#include <unistd.h>

extern void *__libc_malloc(size_t size);
extern void *__libc_calloc(size_t count, size_t size);
extern void *__libc_realloc(void *old, size_t size);
extern void *__libc_memalign(size_t alignment, size_t size);

static uintptr_t begin, end;
static unsigned long asked;

/* The size of the last allocation at each address. */
#define PLACES (1ul << 20)
static struct { void *at; size_t size; } sizes[PLACES];

static size_t *size_at(void *at) {
  unsigned long k = ((uintptr_t)at >> 4) % PLACES;
  while (sizes[k].at != 0 && sizes[k].at != at) k = (k + 1) % PLACES;
  sizes[k].at = at;
  return &sizes[k].size;
}

static void *noted(void *at, size_t size) {
  if (at != 0) *size_at(at) = size;
  return at;
}

/* Sets `begin` and `end` to the bounds of the first loaded object, the program. */
static int see(struct dl_phdr_info *info, size_t size, void *unused) {
  (void)size;
  (void)unused;
  begin = UINTPTR_MAX;
  for (int k = 0; k < info->dlpi_phnum; k++) {
    const ElfW(Phdr) *part = &info->dlpi_phdr[k];
    if (part->p_type != PT_LOAD) continue;
    uintptr_t from = info->dlpi_addr + part->p_vaddr, to = from + part->p_memsz;
    if (from < begin) begin = from;
    if (to > end) end = to;
  }
  return 1;
}

/* Ends the program where the copies can't be made. The status is one that no program has. */
static void give_up(void) {
  _exit(99);
}

/* Has the copy write to the file NUMBER.SUFFIX in `folder` in place of `descriptor`, after what was written there before. */
static void write_apart(const char *folder, int descriptor, const char *suffix) {
  char path[4096], block[4096];
  snprintf(path, sizeof path, "/proc/self/fd/%d", descriptor);
  int from = open(path, O_RDONLY);
  snprintf(path, sizeof path, "%s/%lu.%s", folder, asked, suffix);
  int to = open(path, O_WRONLY | O_CREAT | O_TRUNC, 0600);
  if (from < 0 || to < 0) give_up();
  for (ssize_t got; (got = read(from, block, sizeof block)) != 0;)
    if (got < 0 || write(to, block, got) != got) give_up();
  if (dup2(to, descriptor) < 0 || close(from) != 0 || close(to) != 0) give_up();
}

/* The greatest number of a file that the program may have open, and one more. */
#define OPEN 64

/* Waits for a copy, notes its status, and sets the offsets of open files back to those before it. */
static void wait_for(const char *folder, pid_t copy, const off_t *offsets) {
  char path[4096];
  int status;
  if (waitpid(copy, &status, 0) != copy) give_up();
  for (int k = 0; k < OPEN; k++)
    if (offsets[k] >= 0) lseek(k, offsets[k], SEEK_SET);
  snprintf(path, sizeof path, "%s/statuses", folder);
  int to = open(path, O_WRONLY | O_CREAT | O_APPEND, 0600);
  if (to < 0 || dprintf(to, "%d\n", status) < 0 || close(to) != 0) give_up();
}

/* Returns whether the allocation that the code at `from` requests must fail: in a copy that is made here. */
static int refused(void *from) {
  static const char *folder;
  if (end == 0) {
    dl_iterate_phdr(see, 0);
    folder = getenv("REFUSED");
  }
  if (folder == 0 || (uintptr_t)from < begin || (uintptr_t)from >= end) return 0;
  off_t offsets[OPEN];
  for (int k = 0; k < OPEN; k++) offsets[k] = lseek(k, 0, SEEK_CUR);
  asked++;
  pid_t copy = fork();
  if (copy < 0) give_up();
  if (copy != 0) {
    wait_for(folder, copy, offsets);
    return 0;
  }
  prctl(PR_SET_PDEATHSIG, SIGKILL);
  write_apart(folder, 1, "out");
  write_apart(folder, 2, "err");
  folder = 0;
  errno = ENOMEM;
  return 1;
}

void *malloc(size_t size) {
  return refused(__builtin_return_address(0)) ? 0 : noted(__libc_malloc(size), size);
}

void *calloc(size_t count, size_t size) {
  return refused(__builtin_return_address(0)) ? 0 : noted(__libc_calloc(count, size), count * size);
}

void *realloc(void *old, size_t size) {
  int smaller = old != 0 && size <= *size_at(old);
  return !smaller && refused(__builtin_return_address(0)) ? 0 : noted(__libc_realloc(old, size), size);
}

void *memalign(size_t alignment, size_t size) {
  return refused(__builtin_return_address(0)) ? 0 : noted(__libc_memalign(alignment, size), size);
}

void *aligned_alloc(size_t alignment, size_t size) {
  return refused(__builtin_return_address(0)) ? 0 : noted(__libc_memalign(alignment, size), size);
}

int posix_memalign(void **out, size_t alignment, size_t size) {
  if (refused(__builtin_return_address(0))) return ENOMEM;
  *out = noted(__libc_memalign(alignment, size), size);
  return *out ? 0 : ENOMEM;
}
