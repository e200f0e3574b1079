/* Surveys the log in each file that it is given, by libsiptrace, and writes the lines that the program sipsurvey writes, without the words for a transaction after its number. */
#include "telling.h"

/* A survey that a call has made: its findings, whose memory comes from malloc, and its summary. */
struct survey {
  struct siptrace_verdict *findings;
  struct siptrace_summary summary;
};

/* Makes a survey, and answers whether there was memory. Few logs have many findings: where the first room is too small, the call says how much is wanted. */
static int make_survey(const uint8_t *log, size_t length, const struct siptrace_seed *seed, struct survey *survey) {
  uint32_t status = SIPTRACE_NO_ROOM;
  for (size_t room = 4; status == SIPTRACE_NO_ROOM; room = survey->summary.findings) {
    survey->findings = malloc(room * sizeof *survey->findings);
    if (!survey->findings) return 0;
    status = siptrace_survey(log, length, seed, survey->findings, room, &survey->summary);
    if (status != SIPTRACE_ANSWERED) free(survey->findings);
  }
  return status == SIPTRACE_ANSWERED;
}

/* Writes each finding, and the last line: how the log ends, or its fault. */
static void print_survey(const struct survey *survey) {
  const struct siptrace_summary *summary = &survey->summary;
  for (size_t at = 0; at < summary->findings; at++) print_verdict(&survey->findings[at]);
  if (summary->end == SIPTRACE_END_OF_LOG)
    printf("end entries %" PRIu64 " transactions %" PRIu64 " findings %zu\n", summary->entries, summary->transactions, summary->findings);
  else
    printf("log fault %" PRIu64 " %" PRIu32 " %s\n", summary->entry, summary->reason, reasons[summary->reason]);
}

/* The status is 4 where a file cannot be read, or memory or random bytes are wanting. */
int main(int count, char **paths) {
  struct siptrace_seed seed;
  if (!fill_seed(&seed)) return 4;
  for (int at = 1; at < count; at++) {
    size_t length;
    uint8_t *log = read_all(paths[at], &length);
    if (!log) {
      fprintf(stderr, "%s: cannot read\n", paths[at]);
      return 4;
    }
    struct survey survey;
    const int is_made = make_survey(log, length, &seed, &survey);
    free(log);
    if (!is_made) {
      fprintf(stderr, "%s: out of memory\n", paths[at]);
      return 4;
    }
    print_survey(&survey);
    free(survey.findings);
  }
  return 0;
}
