// A library to preload into the program, which chooses what is outside of it. Each part is asleep until its variable is set:
//   KOWHIRUPE_MOMENTS=FILE      what the clock tells: the file has a line for each time that the clock is asked, seconds
//                               since 1970-01-01T00:00:00Z, which may have a fraction, and then whatever it says of them;
//                               where a dash stands in their place the clock can't be read. After the last line the
//                               clock tells the last moment again. Clocks that do not tell the date are the computer's own
//   KOWHIRUPE_NOW=FILE          the clock tells the moment that stands in the file when it is asked
//   KOWHIRUPE_INPUT=N           the standard input gives its first N bytes, and a read behind them fails
//   KOWHIRUPE_OUTPUT=N          the standard output takes N bytes, and a write behind them fails
//   KOWHIRUPE_WRITE=N           a write takes at most N bytes of what is to be written to the standard output
//   KOWHIRUPE_FAIL_BEHIND=N     the first call that changes a file behind the N-th moment that the clock tells fails
//   KOWHIRUPE_FAIL_ACCEPT=N     the call of this number that takes a connection fails
//   KOWHIRUPE_ACCEPT_FAULT=N    with this number of errno, where it is another than that of too many open files
//   KOWHIRUPE_HASTE=N           clocks that do not tell the date go so many times as fast
//   KOWHIRUPE_FAIL_MEMORY=N     the allocation of this number, from 1, fails
//   KOWHIRUPE_FAIL_CHANGE=N     the call of this number that changes a file fails
//   KOWHIRUPE_STOP_CHANGE=N     in place of it the program stops at once
//   KOWHIRUPE_COUNTS=FILE       at its end the program writes there how many allocations and changing calls it made
// Calls that change a file are write, pwrite, fsync, fdatasync, ftruncate and unlink; those on the standard input, output and
// error are none of them.
#define _GNU_SOURCE
#include <dlfcn.h>
#include <errno.h>
#include <stdio.h>
#include <stdlib.h>
#include <sys/socket.h>
#include <sys/syscall.h>
#include <sys/types.h>
#include <time.h>
#include <unistd.h>

static long allocations, changes, failing_allocation, failing_change, stopping_change, accepts, failing_accept;
static long accept_fault, haste;
static long told_moments, failing_behind, is_next_failing;
static long input = -1, output = -1, longest_write = -1; // what is left of them, and -1 where they have no end
static FILE *moments;
static char moments_read[4096];

static long number_or(const char *name, long otherwise) {
  const char *text = getenv(name);
  return text ? atol(text) : otherwise;
}

static long number(const char *name) { return number_or(name, 0); }

__attribute__((constructor)) static void begin(void) {
  failing_change = number("KOWHIRUPE_FAIL_CHANGE");
  stopping_change = number("KOWHIRUPE_STOP_CHANGE");
  failing_accept = number("KOWHIRUPE_FAIL_ACCEPT");
  accept_fault = number_or("KOWHIRUPE_ACCEPT_FAULT", EMFILE);
  haste = number_or("KOWHIRUPE_HASTE", 1);
  failing_behind = number("KOWHIRUPE_FAIL_BEHIND");
  input = number_or("KOWHIRUPE_INPUT", -1);
  output = number_or("KOWHIRUPE_OUTPUT", -1);
  longest_write = number_or("KOWHIRUPE_WRITE", -1);
  const char *path = getenv("KOWHIRUPE_MOMENTS");
  if (path) moments = fopen(path, "r");
  if (moments) setvbuf(moments, moments_read, _IOFBF, sizeof moments_read);
  allocations = changes = 0;
  failing_allocation = number("KOWHIRUPE_FAIL_MEMORY");
}

__attribute__((destructor)) static void end(void) {
  const char *path = getenv("KOWHIRUPE_COUNTS");
  long counted = allocations;
  failing_allocation = 0;
  FILE *out = path ? fopen(path, "w") : NULL;
  if (!out) return;
  fprintf(out, "%ld %ld\n", counted, changes);
  fclose(out);
}

// Seconds as they are written, with a fraction or without one.
static struct timespec moment_of(const char *text) {
  char *rest;
  struct timespec moment = {strtoll(text, &rest, 10), 0};
  long unit = 100000000;
  if (*rest == '.') {
    for (rest++; *rest >= '0' && *rest <= '9'; rest++, unit /= 10) moment.tv_nsec += (*rest - '0') * unit;
  }
  return moment;
}

// A clock that goes many times as fast, from when it is first asked.
static int hasten(struct timespec *out) {
  static long long first;
  long long now = out->tv_sec * 1000000000LL + out->tv_nsec;
  if (!first) first = now;
  now = first + (now - first) * haste;
  out->tv_sec = now / 1000000000LL;
  out->tv_nsec = now % 1000000000LL;
  return 0;
}

// The moment in a file that is read anew each time, as it is written; false where there is none.
static int is_told_now(struct timespec *moment) {
  const char *path = getenv("KOWHIRUPE_NOW");
  FILE *file = path ? fopen(path, "r") : NULL;
  char told[64];
  if (!file) return 0;
  int is_read = fscanf(file, " %63s", told) == 1;
  fclose(file);
  if (is_read) *moment = moment_of(told);
  return is_read;
}

int clock_gettime(clockid_t which, struct timespec *out) {
  static struct timespec moment;
  char told[64];
  if (which == CLOCK_REALTIME && is_told_now(out)) return 0;
  if (which != CLOCK_REALTIME || !moments) {
    int status = syscall(SYS_clock_gettime, which, out);
    return status == 0 && which == CLOCK_MONOTONIC && haste > 1 ? hasten(out) : status;
  }
  if (++told_moments == failing_behind) is_next_failing = 1;
  if (fscanf(moments, " %63s%*[^\n]", told) == 1) {
    if (told[0] == '-') {
      errno = EIO;
      return -1;
    }
    moment = moment_of(told);
  }
  *out = moment;
  return 0;
}

// Memory: the C library's own calls have other names too, by which they are reached.
extern void *__libc_malloc(size_t), *__libc_calloc(size_t, size_t), *__libc_realloc(void *, size_t);

static int fails(void) {
  if (++allocations != failing_allocation) return 0;
  errno = ENOMEM;
  return 1;
}

void *malloc(size_t n) { return fails() ? NULL : __libc_malloc(n); }
void *calloc(size_t n, size_t size) { return fails() ? NULL : __libc_calloc(n, size); }
void *realloc(void *old, size_t n) { return fails() ? NULL : __libc_realloc(old, n); }

// Whether a call that changes a file goes on. It may end the program.
static int goes_on(int fd) {
  if (fd >= 0 && fd <= 2) return 1;
  if (++changes == stopping_change) _exit(137);
  if (changes != failing_change && !is_next_failing) return 1;
  is_next_failing = 0;
  errno = EIO;
  return 0;
}

#define OWN(name) \
  static __typeof__(name) *own; \
  if (!own) own = dlsym(RTLD_NEXT, #name)

#define CALL(name, fd, ...) \
  OWN(name); \
  return goes_on(fd) ? own(__VA_ARGS__) : -1

// How many of n bytes may move where so many are left, and -1 where none may.
static ssize_t part(size_t n, long left) {
  if (left < 0 || n == 0) return n;
  if (left == 0) errno = EIO;
  return left == 0 ? -1 : n < (size_t)left ? (ssize_t)n : left;
}

ssize_t read(int fd, void *into, size_t n) {
  OWN(read);
  ssize_t count = fd == 0 ? part(n, input) : (ssize_t)n;
  if (count >= 0) count = own(fd, into, count);
  if (fd == 0 && input > 0 && count > 0) input -= count;
  return count;
}

ssize_t write(int fd, const void *from, size_t n) {
  OWN(write);
  if (!goes_on(fd)) return -1;
  ssize_t count = fd == 1 ? part(part(n, longest_write), output) : (ssize_t)n;
  if (count >= 0) count = own(fd, from, count);
  if (fd == 1 && output > 0 && count > 0) output -= count;
  return count;
}

ssize_t pwrite(int fd, const void *from, size_t n, off_t at) { CALL(pwrite, fd, fd, from, n, at); }
ssize_t pwrite64(int fd, const void *from, size_t n, off64_t at) { CALL(pwrite64, fd, fd, from, n, at); }
int fsync(int fd) { CALL(fsync, fd, fd); }
int fdatasync(int fd) { CALL(fdatasync, fd, fd); }
int ftruncate(int fd, off_t n) { CALL(ftruncate, fd, fd, n); }
int ftruncate64(int fd, off64_t n) { CALL(ftruncate64, fd, fd, n); }
int unlink(const char *path) { CALL(unlink, -1, path); }

int accept4(int fd, struct sockaddr *from, socklen_t *length, int flags) {
  OWN(accept4);
  if (++accepts != failing_accept) return own(fd, from, length, flags);
  errno = accept_fault;
  return -1;
}
