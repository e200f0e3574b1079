/* siptrace as a library: calls of libsiptrace.a and libsiptrace.so, for x86-64 with Linux and glibc. docs/API.md tells how to build and use them.

   What the caller owes, which nothing checks: a pointer that is not NULL, not even for no bytes or no room, to as many bytes or structs as the number
   after it says, or to a struct that is as declared here; no two of one call overlap where one of them is written; and nobody writes what a call
   reads while it runs. No call keeps a pointer after its end but into what it took from malloc. Calls may run at once on threads of their own. They
   take memory by malloc and realloc, give it back by free, and do nothing else to the process: they read no file, write none and print nothing. */
#ifndef SIPTRACE_H
#define SIPTRACE_H

#include <stddef.h>
#include <stdint.h>

#ifdef __cplusplus
extern "C" {
#endif

/* What a call answers. */
enum siptrace_status {
  SIPTRACE_ANSWERED = 0,  /* it did what it is for */
  SIPTRACE_NO_MEMORY = 1, /* malloc or realloc refused; nothing was written */
  SIPTRACE_NO_ROOM = 2    /* siptrace_survey alone: the log is surveyed, but there are more findings than room for them */
};

/* What is said of a log, or found in it. */
enum siptrace_kind {
  SIPTRACE_LEGAL = 1,     /* transactions of RFC 3261 can have produced it */
  SIPTRACE_MALFORMED = 2, /* the message of the entry is none of the profile, or a request that was sent without the cookie in its branch */
  SIPTRACE_BREACH = 3,    /* after the entry the transaction has no run */
  SIPTRACE_UNDECIDED = 4, /* after the entry the transaction can stand in more states than are followed */
  SIPTRACE_LOG_FAULT = 5  /* the entry, or the header, cannot be read */
};

/* Why a message is malformed, or why a log cannot be read. */
enum siptrace_reason {
  SIPTRACE_NO_HEAD_END = 1,
  SIPTRACE_BARE_LINE_END = 2,
  SIPTRACE_START_LINE = 3,
  SIPTRACE_FIELD_LINE = 4,
  SIPTRACE_VALUE = 5,
  SIPTRACE_REPEATED = 6,
  SIPTRACE_MISSING = 7,
  SIPTRACE_METHOD_MISMATCH = 8,
  SIPTRACE_NO_LENGTH = 9,
  SIPTRACE_SHORT_BODY = 10,
  SIPTRACE_LONG_BODY = 11,
  SIPTRACE_NO_COOKIE = 12,
  SIPTRACE_HEADER = 20,
  SIPTRACE_ENTRY_LINE = 21,
  SIPTRACE_TRUNCATED = 22,
  SIPTRACE_ORDER = 23,
  SIPTRACE_LIMIT = 24
};

/* Where the fault of a malformed message is. */
enum siptrace_unit { SIPTRACE_HEAD = 1, SIPTRACE_LINE = 2, SIPTRACE_BODY = 3 };

/* A verdict, or a finding, which is SIPTRACE_MALFORMED, SIPTRACE_BREACH or SIPTRACE_UNDECIDED. What its kind does not have is 0. Entries and
   transactions are numbered from 1. */
struct siptrace_verdict {
  uint32_t kind;         /* enum siptrace_kind */
  uint64_t entries;      /* SIPTRACE_LEGAL: how many entries the log has, 0 to 1,000,000 */
  uint64_t transactions; /* SIPTRACE_LEGAL: how many transactions these concern */
  uint64_t entry;        /* every other kind: the entry; 0 is the header of the log */
  uint64_t transaction;  /* SIPTRACE_BREACH, SIPTRACE_UNDECIDED: the transaction */
  uint32_t reason;       /* SIPTRACE_MALFORMED, SIPTRACE_LOG_FAULT: enum siptrace_reason */
  uint32_t unit;         /* SIPTRACE_MALFORMED: enum siptrace_unit */
  size_t line;           /* SIPTRACE_LINE: the logical line of the message; 0 is the start line */
};

/* Random bytes of the system, as getrandom gives them, that no sender of messages can guess. No verdict depends on them: with bytes that are known
   a log can be made that takes long to judge. */
struct siptrace_seed {
  uint8_t bytes[16];
};

/* The verdict on the log of these bytes, which is what the program `siptrace` tells of them. SIPTRACE_NO_MEMORY leaves *verdict as it was. */
uint32_t siptrace_judge(const uint8_t *log, size_t length, const struct siptrace_seed *seed, struct siptrace_verdict *verdict);

/* How the log of a survey ends. */
enum siptrace_end {
  SIPTRACE_END_OF_LOG = 1,  /* it was read to its end */
  SIPTRACE_END_AT_FAULT = 2 /* an entry, or the header, cannot be read; nothing is said of what comes after it */
};

/* What a survey came to. What its end does not have is 0. */
struct siptrace_summary {
  size_t findings;       /* how many findings the log has, however many of them had room */
  uint32_t end;          /* enum siptrace_end */
  uint64_t entries;      /* SIPTRACE_END_OF_LOG: how many entries the log has, 0 to 1,000,000 */
  uint64_t transactions; /* SIPTRACE_END_OF_LOG: how many transactions these concern */
  uint64_t entry;        /* SIPTRACE_END_AT_FAULT: the entry that cannot be read; 0 is the header of the log */
  uint32_t reason;       /* SIPTRACE_END_AT_FAULT: enum siptrace_reason, SIPTRACE_HEADER to SIPTRACE_LIMIT */
};

/* The survey of the log of these bytes: all that is wrong in it, each transaction being judged for itself, which is what the program `sipsurvey`
   tells of them. `room` is the number of findings for which there is room at `findings`.

   SIPTRACE_ANSWERED: all summary->findings findings stand at `findings`, in the order in which `sipsurvey` tells them: by entry, and at one entry the
   fault of its message, then breaches, then undecided, each by transaction. A transaction has at most one finding, and a message one.
   SIPTRACE_NO_ROOM: summary->findings is above `room`, and the first `room` of them stand there. Call again with room for summary->findings.
   In both cases *summary is that of the whole log, and room that no finding needs is left as it was.
   SIPTRACE_NO_MEMORY: *summary and all room are left as they were. The call holds all findings of the log in
   memory of its own while it runs, whatever the room. */
uint32_t siptrace_survey(const uint8_t *log, size_t length, const struct siptrace_seed *seed, struct siptrace_verdict *findings, size_t room,
                         struct siptrace_summary *summary);

#ifdef __cplusplus
}
#endif

#endif
