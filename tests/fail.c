/* Loaded before the C library, it has siptrace and sipsurvey read and write in pieces, and fails one read or one write of standard output: that whose
   number, from 1 on, is in the environment as FAILED_READ or FAILED_WRITE. With INTERRUPTED each of them is interrupted so many times before
   it is done, and with REFUSED_RANDOM the system has no random bytes. Other programs read and write as ever. */
#define _GNU_SOURCE
#include <errno.h>
#include <stdlib.h>
#include <string.h>
#include <sys/syscall.h>
#include <unistd.h>

/* How many bytes one read or write takes at most, so that a log of some length has many of them. tests/surveys counts them by this number. */
enum { PIECE = 4096 };

/* The scripts ./siptrace and ./sipsurvey give their program that name; on its own it is called siptrace-SOURCES-KIT or sipsurvey-SOURCES-KIT. */
static int is_named(const char *name) { return strncmp(program_invocation_short_name, name, strlen(name)) == 0; }

/* Whether this is one of the two programs. */
static int is_ours(void) { return is_named("siptrace") || is_named("sipsurvey"); }

/* Whether the call with this number, from 1 on, is the one that fails, as the variable of this name says. */
static int is_failed(const char *name, long call) {
  const char *failed = getenv(name);
  return failed && call == atol(failed);
}

/* Whether the call is interrupted: as many times in a row as INTERRUPTED says, and then the next one is not. */
static int is_interrupted(void) {
  static long so_far;
  const char *times = getenv("INTERRUPTED");
  if (!times) return 0;
  so_far = so_far < atol(times) ? so_far + 1 : 0;
  errno = EINTR;
  return so_far != 0;
}

/* How many bytes of these are read or written in one call. */
static size_t piece(size_t size) { return size < PIECE ? size : PIECE; }

/* The answer of a call that fails. */
static ssize_t fail(void) {
  errno = EIO;
  return -1;
}

/* Stands for the C library's read, and reads a piece at most. */
ssize_t read(int file, void *bytes, size_t size) {
  /* Each read is numbered in the order in which it is called; those that are interrupted have no number. */
  static long call;
  if (!is_ours()) return syscall(SYS_read, file, bytes, size);
  if (is_interrupted()) return -1;
  return is_failed("FAILED_READ", ++call) ? fail() : syscall(SYS_read, file, bytes, piece(size));
}

/* Stands for the C library's write, and writes a piece of standard output at most. */
ssize_t write(int file, const void *bytes, size_t size) {
  /* What does not go to standard output is written as ever, and has no number. */
  static long call;
  if (!is_ours() || file != STDOUT_FILENO) return syscall(SYS_write, file, bytes, size);
  if (is_interrupted()) return -1;
  return is_failed("FAILED_WRITE", ++call) ? fail() : syscall(SYS_write, file, bytes, piece(size));
}

/* Stands for the C library's getentropy, which gives the program its random bytes. */
int getentropy(void *bytes, size_t size) {
  if (is_ours() && getenv("REFUSED_RANDOM")) return (int)fail();
  return syscall(SYS_getrandom, bytes, size, 0) == (long)size ? 0 : -1;
}
