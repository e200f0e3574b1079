/* Stands between the explanation and the program, and answers falsely in one way. It is the program to who asks, with the same words, standard input
   and output, and the same status.

   STUB_PROGRAM  the genuine program
   STUB_WAY      how it answers falsely, below
   STUB_NUMBER   a number for the way, where it needs one
   STUB_COUNT    a file in which each question adds a byte, for the ways that count

   turned    the verdict on a log whose last moment is the number: legal for a breach, and a breach for what is legal
   later     a log whose last moment is one after the number has the answer of the number
   earlier   a log whose last moment is the number has the answer of one after it
   legal     the question of that number is answered legal
   breach    the question of that number is answered by a breach
   silent    each log that ends with a mark after the number is legal
   tolerant  each log with a tolerance of the number or more is legal
   rules     a log by the rules of RFC 3261 is judged by those of RFC 6026
   deadline  the listing of states has the number one later, wherever it stands
   fewer     the listing of states lacks its last line
   entry     the verdict on a file names the entry before
   key       the verdict on a file names the transaction after */
#include <stdio.h>
#include <stdlib.h>
#include <string.h>
#include <sys/stat.h>
#include <sys/wait.h>
#include <unistd.h>

/* The most bytes of a log, and of an answer, which are 4 MiB. */
enum { MOST = 1 << 22 };

static char log_bytes[MOST], answer[MOST];
static size_t log_size, answer_size;

/* Reads a file to its end, and answers how many bytes it has. */
static size_t read_all(int from, char *to) {
  size_t size = 0;
  ssize_t got;
  while (size < MOST - 1 && (got = read(from, to + size, MOST - 1 - size)) > 0) size += (size_t)got;
  to[size] = 0;
  return size;
}

/* Finds where the last entry of the log begins: entries are read from the first one on. The header ends at the line that begins with t1, or with rules. */
static char *last_entry(void) {
  char *at = log_bytes, *last = log_bytes, *end = log_bytes + log_size;
  /* The header has two lines, and perhaps one of rules. */
  for (int lines = 0; lines < 2 && at; lines++) at = strchr(at, '\n') ? strchr(at, '\n') + 1 : NULL;
  if (at && !strncmp(at, "rules ", 6)) at = strchr(at, '\n') + 1;
  while (at && at < end) {
    long long moment;
    int length, has_message = *at == 'S' || *at == 'R' || *at == 'F';
    last = at;
    if (sscanf(at + 1, " %lld %d", &moment, &length) < 1 + has_message) break;
    at = memchr(at, '\n', (size_t)(end - at));
    if (at) at += 1 + (has_message ? length + 1 : 0);
  }
  return last;
}

/* The moment of the last entry of the log, and -1 where there is no log. */
static long long last_moment(void) { return log_size ? atoll(last_entry() + 1) : -1; }

/* Puts another moment into the last entry. */
static void set_last_moment(long long moment) {
  static char changed[MOST];
  /* After its letter and a blank stands the moment, whose digits are replaced. */
  char *entry = last_entry(), *rest = entry + 2;
  size_t front = (size_t)(entry + 2 - log_bytes), used;
  while (*rest >= '0' && *rest <= '9') rest++;
  memcpy(changed, log_bytes, front);
  used = front + (size_t)sprintf(changed + front, "%lld", moment);
  memcpy(changed + used, rest, log_size - (size_t)(rest - log_bytes));
  log_size = used + log_size - (size_t)(rest - log_bytes);
  memcpy(log_bytes, changed, log_size);
  log_bytes[log_size] = 0;
}

/* Takes the line of rules out of the log. */
static void drop_rules(void) {
  char *rules = strstr(log_bytes, "rules 3261\n");
  if (!rules) return;
  /* The line has 11 bytes with its line feed. */
  log_size -= 11;
  memmove(rules, rules + 11, log_size - (size_t)(rules - log_bytes) + 1);
}

/* The greater of the two tolerances in the header of the log, and 0 where it tells none. */
static int greatest_tolerance(void) {
  int early = 0, late = 0, both = 0;
  char *line = strchr(log_bytes, '\n');
  if (line && sscanf(line, "\nt1 %*d t2 %*d t4 %*d early %d late %d", &early, &late) == 2) return early > late ? early : late;
  return line && sscanf(line, "\nt1 %*d t2 %*d t4 %*d tolerance %d", &both) == 1 ? both : 0;
}

/* Runs the genuine program with these words on the log, keeps what it answers, and gives its status. */
static int ask(char **words) {
  int output[2], status;
  if (pipe(output)) exit(70);
  FILE *held = tmpfile();
  if (!held || fwrite(log_bytes, 1, log_size, held) != log_size || fflush(held)) exit(70);
  rewind(held);
  pid_t child = fork();
  if (!child) {
    dup2(fileno(held), 0), dup2(output[1], 1);
    close(output[0]), close(output[1]);
    lseek(0, 0, SEEK_SET);
    execv(getenv("STUB_PROGRAM"), words);
    _exit(70);
  }
  close(output[1]);
  answer_size = read_all(output[0], answer);
  waitpid(child, &status, 0);
  return WIFEXITED(status) ? WEXITSTATUS(status) : 70;
}

/* Puts a line in place of the answer, and gives the status that belongs to it. */
static int say(const char *text, int status) {
  answer_size = (size_t)snprintf(answer, sizeof answer, "%s\n", text);
  return status;
}

/* Whether the answer is a breach. */
static int is_breach(void) { return !strncmp(answer, "breach ", 7); }

/* Answers legal in place of a breach, and a breach in place of legal. */
static int turned(int status) {
  if (is_breach()) return say("legal entries 1 transactions 1", 0);
  return strncmp(answer, "legal ", 6) ? status : say("breach 1 transaction 1", 1);
}

/* Writes the number one greater wherever it stands in the answer. */
static void replace_number(const char *number) {
  static char changed[MOST];
  size_t length = strlen(number), used = 0;
  for (size_t at = 0; at < answer_size; ) {
    int is_whole = !strncmp(answer + at, number, length) && (at == 0 || answer[at - 1] < '0' || answer[at - 1] > '9') && (answer[at + length] < '0' || answer[at + length] > '9');
    if (is_whole) {
      used += (size_t)sprintf(changed + used, "%lld", atoll(number) + 1);
      at += length;
    } else {
      changed[used++] = answer[at++];
    }
  }
  memcpy(answer, changed, used);
  answer_size = used;
}

/* Takes the last line off the answer. */
static void drop_last_line(void) {
  if (answer_size < 2) return;
  size_t end = answer_size - 1;
  while (end && answer[end - 1] != '\n') end--;
  answer_size = end;
}

/* Adds a byte to the file of questions, and answers how many there were with this one, and 0 where no file counts them. */
static long count_question(void) {
  const char *name = getenv("STUB_COUNT");
  struct stat seen;
  FILE *file = name ? fopen(name, "ab") : NULL;
  if (!file) return 0;
  fputc('.', file);
  fclose(file);
  return stat(name, &seen) ? 0 : (long)seen.st_size;
}

/* Reads the log unless it is a file's, asks the genuine program, and answers falsely where its way says so. */
int main(int count, char **words) {
  const char *way = getenv("STUB_WAY"), *number = getenv("STUB_NUMBER") ? getenv("STUB_NUMBER") : "0";
  long long wanted = atoll(number), entry, key;
  int is_file = count > 1 && !strcmp(words[1], "check"), is_listing = count > 1 && !strcmp(words[1], "states");
  /* The program is asked about a file (`check FILE`), for a listing (`states`), or about a log on its input. */
  long asked = count_question();
  if (!way || !getenv("STUB_PROGRAM")) return 70;
  if (!is_file) log_size = read_all(0, log_bytes);
  long long last = is_file ? -1 : last_moment();
  int is_mark = !is_file && log_size && *last_entry() == 'M';
  /* The ways that change the log before the program is asked, and below those that change its answer. */
  if (!is_file && !is_listing) {
    if (!strcmp(way, "later") && last == wanted + 1) set_last_moment(wanted);
    if (!strcmp(way, "earlier") && last == wanted) set_last_moment(wanted + 1);
    if (!strcmp(way, "rules")) drop_rules();
  }
  int status = ask(words);
  if (is_file && sscanf(answer, "breach %lld transaction %lld", &entry, &key) == 2) {
    if (!strcmp(way, "entry")) answer_size = (size_t)sprintf(answer, "breach %lld transaction %lld\n", entry - 1, key);
    if (!strcmp(way, "key")) answer_size = (size_t)sprintf(answer, "breach %lld transaction %lld\n", entry, key + 1);
  } else if (is_listing) {
    if (!strcmp(way, "deadline")) replace_number(number);
    if (!strcmp(way, "fewer")) drop_last_line();
  } else if (!is_file) {
    if (!strcmp(way, "turned") && last == wanted) status = turned(status);
    if (!strcmp(way, "legal") && asked == wanted) status = say("legal entries 1 transactions 1", 0);
    if (!strcmp(way, "breach") && asked == wanted) status = say("breach 1 transaction 1", 1);
    if (!strcmp(way, "silent") && is_mark && last > wanted) status = say("legal entries 1 transactions 1", 0);
    if (!strcmp(way, "tolerant") && greatest_tolerance() >= wanted) status = say("legal entries 1 transactions 1", 0);
  }
  fwrite(answer, 1, answer_size, stdout);
  return fflush(stdout) ? 5 : status;
}
