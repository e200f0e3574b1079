/* Loaded before the C library, it refuses one growth of memory: the one whose number, from 1 on, is in the environment as REFUSED_GROWTH. */
#include <stdlib.h>

extern void *__libc_malloc(size_t size);
extern void *__libc_realloc(void *old, size_t size);

/* Counts one growth more, and tells whether it is the one to refuse. */
static int is_refused(void) {
  static long growth;
  const char *refused = getenv("REFUSED_GROWTH");
  growth++;
  return refused && growth == atol(refused);
}

/* A first piece of memory counts as a growth. */
void *malloc(size_t size) { return is_refused() ? NULL : __libc_malloc(size); }

/* So does a piece that becomes greater or smaller. */
void *realloc(void *old, size_t size) { return is_refused() ? NULL : __libc_realloc(old, size); }
