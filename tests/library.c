/* Calls libsiptrace on the log in each file that it is given, with each growth of memory refused in turn.

     library judge FILE..    a line for each log: how many refused growths the call answers with SIPTRACE_NO_MEMORY, and the numbers of its verdict
     library survey FILE..   a line for each log: the same of a survey, with the numbers of its summary. Before, each log is surveyed with room for none
                             of its findings, for one, and so on up to two more than it has

   std does without some growths that are refused; such a call gives its whole answer. The status is 1 where a call with a refused growth answers
   anything else or changes what it was given, where a call keeps memory, or where another part of the room is written than what the call says. */
#include "siptrace.h"

#include <fcntl.h>
#include <inttypes.h>
#include <stdio.h>
#include <stdlib.h>
#include <string.h>
#include <sys/mman.h>
#include <sys/stat.h>
#include <unistd.h>

extern void *__libc_malloc(size_t size);
extern void *__libc_realloc(void *old, size_t size);
extern void __libc_free(void *old);

/* How many growths of a call are let through before one is refused, how many the call has asked for, and how many blocks it holds. */
static long before_refusal, growths, held;
/* Whether a call is going on, in which growths and blocks are counted. */
static int is_counting;

/* Whether the growth that is asked for is the one to refuse. Only growths within a call are counted. */
static int is_refused(void) { return is_counting && growths++ == before_refusal; }

/* These three stand for those of the C library. A block is held from malloc, or from realloc of no block, until free. */
void *malloc(size_t size) {
  if (is_refused()) return NULL;
  void *block = __libc_malloc(size);
  held += is_counting && block;
  return block;
}

void *realloc(void *old, size_t size) {
  if (is_refused()) return NULL;
  void *block = __libc_realloc(old, size);
  held += is_counting && block && !old;
  return block;
}

void free(void *old) {
  held -= is_counting && old;
  __libc_free(old);
}

/* Numbers that no call tells, which stand where a call has written nothing. */
static const struct siptrace_verdict untold = {77, 77, 77, 77, 77, 77, 77, 77};

/* Whether no call has written to the verdict. */
static int is_as_it_was(const struct siptrace_verdict *it) {
  return it->kind == 77 && it->entries == 77 && it->transactions == 77 && it->entry == 77 && it->transaction == 77 && it->reason == 77 &&
         it->unit == 77 && it->line == 77;
}

/* Any 16 bytes: no answer depends on them. */
static const struct siptrace_seed seed = {{1, 2, 3, 4, 5, 6, 7, 8, 9, 10, 11, 12, 13, 14, 15, 16}};

/* Judges a log with each growth refused in turn, and prints the line of the log. The answer is 1 where something is not as it should be. */
static int judge_with_refusals(const char *path, const uint8_t *log, size_t length) {
  long refused = 0;
  for (before_refusal = 0;; before_refusal++) {
    struct siptrace_verdict verdict = untold;
    growths = held = 0;
    is_counting = 1;
    const uint32_t status = siptrace_judge(log, length, &seed, &verdict);
    is_counting = 0;
    if (held != 0) {
      printf("%s: %ld blocks are kept\n", path, held);
      return 1;
    }
    const int was_refused = growths > before_refusal;
    if (status == SIPTRACE_NO_MEMORY && was_refused && is_as_it_was(&verdict)) {
      refused++;
    } else if (status == SIPTRACE_ANSWERED && verdict.kind != untold.kind) {
      /* std does without some growths that are refused. */
      if (was_refused) continue;
      printf("%ld %" PRIu32 " %" PRIu64 " %" PRIu64 " %" PRIu64 " %" PRIu64 " %" PRIu32 " %" PRIu32 " %zu\n", refused, verdict.kind, verdict.entries, verdict.transactions, verdict.entry, verdict.transaction,
             verdict.reason, verdict.unit, verdict.line);
      return 0;
    } else {
      printf("%s: growth %ld: status %u\n", path, before_refusal + 1, status);
      return 1;
    }
  }
}

/* A call tells at most so many findings here, and has room for two more. */
enum { MOST_FINDINGS = 4096, MORE_ROOM = 2 };

/* A summary that no call gives, which stands where a call has written nothing. */
static const struct siptrace_summary unsaid = {77, 77, 77, 77, 77, 77};

/* Whether no call has written to the summary. */
static int is_unsaid(const struct siptrace_summary *it) {
  return it->findings == 77 && it->end == 77 && it->entries == 77 && it->transactions == 77 && it->entry == 77 && it->reason == 77;
}

/* Whether two verdicts are the same. */
static int are_alike(const struct siptrace_verdict *a, const struct siptrace_verdict *b) {
  return a->kind == b->kind && a->entries == b->entries && a->transactions == b->transactions && a->entry == b->entry &&
         a->transaction == b->transaction && a->reason == b->reason && a->unit == b->unit && a->line == b->line;
}

/* The findings of a call with room for all, and those of another call. */
static struct siptrace_verdict whole[MOST_FINDINGS + MORE_ROOM], part[MOST_FINDINGS + MORE_ROOM];

/* Makes all places as they are where no call has written. */
static void clear(struct siptrace_verdict *findings) {
  for (size_t at = 0; at < MOST_FINDINGS + MORE_ROOM; at++) findings[at] = untold;
}

/* Whether no call has written to the places from this one on. */
static int are_untold(const struct siptrace_verdict *findings, size_t at) {
  while (at < MOST_FINDINGS + MORE_ROOM && is_as_it_was(&findings[at])) at++;
  return at == MOST_FINDINGS + MORE_ROOM;
}

/* Whether a call with this room tells what a call with all room tells, but for the findings that have no place. */
static int is_part(const uint8_t *log, size_t length, size_t room, const struct siptrace_summary *summary) {
  struct siptrace_summary said = unsaid;
  clear(part);
  const uint32_t status = siptrace_survey(log, length, &seed, part, room, &said);
  const size_t count = room < summary->findings ? room : summary->findings;
  for (size_t at = 0; at < count; at++)
    if (!are_alike(&part[at], &whole[at])) return 0;
  return status == (room < summary->findings ? SIPTRACE_NO_ROOM : SIPTRACE_ANSWERED) && are_untold(part, count) && said.findings == summary->findings &&
         said.end == summary->end && said.entries == summary->entries && said.transactions == summary->transactions &&
         said.entry == summary->entry && said.reason == summary->reason;
}

/* Surveys a log with room for all findings, and then for none, one and so on. The answer is 1 where the calls differ. */
static int survey_in_rooms(const char *path, const uint8_t *log, size_t length) {
  struct siptrace_summary summary = unsaid;
  clear(whole);
  if (siptrace_survey(log, length, &seed, whole, MOST_FINDINGS, &summary) != SIPTRACE_ANSWERED || !are_untold(whole, summary.findings)) {
    printf("%s: not surveyed\n", path);
    return 1;
  }
  for (size_t room = 0; room <= summary.findings + MORE_ROOM; room++)
    if (!is_part(log, length, room, &summary)) {
      printf("%s: room for %zu of %zu findings\n", path, room, summary.findings);
      return 1;
    }
  return 0;
}

/* Surveys a log with each growth refused in turn, and prints the line of the log. The answer is 1 where something is not as it should be. */
static int survey_with_refusals(const char *path, const uint8_t *log, size_t length) {
  long refused = 0;
  if (survey_in_rooms(path, log, length)) return 1;
  for (before_refusal = 0;; before_refusal++) {
    struct siptrace_summary summary = unsaid;
    clear(part);
    growths = held = 0;
    is_counting = 1;
    const uint32_t status = siptrace_survey(log, length, &seed, part, MOST_FINDINGS, &summary);
    is_counting = 0;
    if (held != 0) {
      printf("%s: %ld blocks are kept\n", path, held);
      return 1;
    }
    const int was_refused = growths > before_refusal;
    if (status == SIPTRACE_NO_MEMORY && was_refused && is_unsaid(&summary) && are_untold(part, 0)) {
      refused++;
    } else if (status == SIPTRACE_ANSWERED && !is_unsaid(&summary)) {
      /* std does without some growths that are refused. */
      if (was_refused) continue;
      printf("%ld %zu %" PRIu32 " %" PRIu64 " %" PRIu64 " %" PRIu64 " %" PRIu32 "\n", refused, summary.findings, summary.end, summary.entries, summary.transactions, summary.entry, summary.reason);
      return 0;
    } else {
      printf("%s: growth %ld: status %u\n", path, before_refusal + 1, status);
      return 1;
    }
  }
}

/* Tries the log of each file by the call that the first word names, and ends at the first that is not as it should be. */
int main(int count, char **words) {
  if (count < 2) return 2;
  const int is_survey = strcmp(words[1], "survey") == 0;
  for (int at = 2; at < count; at++) {
    const int file = open(words[at], O_RDONLY);
    struct stat is;
    if (file < 0 || fstat(file, &is) != 0) return 2;
    const size_t length = (size_t)is.st_size;
    /* One byte more than the file has, since a file of no bytes cannot be mapped. */
    uint8_t *log = mmap(NULL, length + 1, PROT_READ, MAP_PRIVATE, file, 0);
    if (log == MAP_FAILED) return 2;
    const int failed = (is_survey ? survey_with_refusals : judge_with_refusals)(words[at], log, length);
    munmap(log, length + 1);
    close(file);
    if (failed) return 1;
  }
  return 0;
}
