/* What the callers in C share: the bytes of a file, a seed, and a verdict or a finding in the words of the programs. */
#ifndef TELLING_H
#define TELLING_H

#include "siptrace.h"

#include <inttypes.h>
#include <stdio.h>
#include <stdlib.h>
#include <sys/random.h>

/* The names of the reasons, by their numbers in siptrace.h. */
static const char *const reasons[] = {
    [SIPTRACE_NO_HEAD_END] = "NoHeadEnd",   [SIPTRACE_BARE_LINE_END] = "BareLineEnd", [SIPTRACE_START_LINE] = "StartLine",
    [SIPTRACE_FIELD_LINE] = "FieldLine",    [SIPTRACE_VALUE] = "Value",               [SIPTRACE_REPEATED] = "Repeated",
    [SIPTRACE_MISSING] = "Missing",         [SIPTRACE_METHOD_MISMATCH] = "MethodMismatch",
    [SIPTRACE_NO_LENGTH] = "NoLength",      [SIPTRACE_SHORT_BODY] = "ShortBody",      [SIPTRACE_LONG_BODY] = "LongBody",
    [SIPTRACE_NO_COOKIE] = "NoCookie",      [SIPTRACE_HEADER] = "Header",             [SIPTRACE_ENTRY_LINE] = "EntryLine",
    [SIPTRACE_TRUNCATED] = "Truncated",     [SIPTRACE_ORDER] = "Order",               [SIPTRACE_LIMIT] = "Limit",
};

/* Writes a verdict, or a finding of a survey, as the programs write it, but of a finding without the words for its transaction after the number. */
static void print_verdict(const struct siptrace_verdict *verdict) {
  const uint64_t entry = verdict->entry;
  const uint32_t reason = verdict->reason;
  switch (verdict->kind) {
  case SIPTRACE_LEGAL:
    printf("legal entries %" PRIu64 " transactions %" PRIu64 "\n", verdict->entries, verdict->transactions);
    break;
  case SIPTRACE_MALFORMED:
    printf("malformed %" PRIu64 " ", entry);
    if (verdict->unit == SIPTRACE_LINE) printf("line %zu", verdict->line);
    else printf(verdict->unit == SIPTRACE_HEAD ? "head" : "body");
    printf(" %" PRIu32 " %s\n", reason, reasons[reason]);
    break;
  case SIPTRACE_BREACH:
    printf("breach %" PRIu64 " transaction %" PRIu64 "\n", entry, verdict->transaction);
    break;
  case SIPTRACE_UNDECIDED:
    printf("undecided %" PRIu64 " transaction %" PRIu64 "\n", entry, verdict->transaction);
    break;
  case SIPTRACE_LOG_FAULT:
    printf("log fault %" PRIu64 " %" PRIu32 " %s\n", entry, reason, reasons[reason]);
    break;
  }
}

/* Reads the bytes of a file; NULL where it cannot. */
static uint8_t *read_all(const char *path, size_t *length) {
  FILE *file = fopen(path, "rb");
  if (!file) return NULL;
  uint8_t *bytes = NULL;
  size_t room = 0;
  *length = 0;
  do {
    /* The room doubles where it is full. */
    if (*length == room) {
      room = room ? 2 * room : 65536;
      uint8_t *more = realloc(bytes, room);
      if (!more) {
        free(bytes);
        fclose(file);
        return NULL;
      }
      bytes = more;
    }
    *length += fread(bytes + *length, 1, room - *length, file);
  } while (!feof(file) && !ferror(file));
  if (ferror(file)) {
    free(bytes);
    bytes = NULL;
  }
  fclose(file);
  return bytes;
}

/* Fills the seed with random bytes of the system, and answers whether it could. */
static int fill_seed(struct siptrace_seed *seed) { return getrandom(seed->bytes, sizeof seed->bytes, 0) == sizeof seed->bytes; }

#endif
