/* Writes a client's lines for sicheck. Each is there whole, or not at all.

       Line line = {0};
       line_read(&line, "x", 1, NULL);                  the key wasn't there; else the address of the value
       line_write(&line, "x", 1, value);
       if (line_committed(&line, 1, id, start, commit)) ..    to standard output; 0, or -1 with errno

   A key is 1 to 128 bytes of UTF-8, whose length is told. What the format forbids is EINVAL, and nothing is written. Threads may write to one
   file, and processes to one pipe, if no line has over 4,096 bytes; else the line is EMSGSIZE. A file belongs to one process: where a line doesn't
   fit on the disk it is taken back. */
#include <errno.h>
#include <pthread.h>
#include <stdarg.h>
#include <stdint.h>
#include <stdio.h>
#include <stdlib.h>
#include <string.h>
#include <sys/stat.h>
#include <unistd.h>

typedef struct {
  char *text; /* the operations so far */
  size_t size, room;
  unsigned count;
  int fault;
} Line;

static void line_put(Line *line, const char *text, size_t size) {
  if (line->size + size > line->room) {
    size_t room = 2 * line->room + size + 256;
    char *more = realloc(line->text, room);
    if (!more) { line->fault = ENOMEM; return; }
    line->text = more;
    line->room = room;
  }
  if (size) memcpy(line->text + line->size, text, size);
  line->size += size;
}

static void line_say(Line *line, const char *form, ...) {
  char text[200];
  va_list rest;
  va_start(rest, form);
  int size = vsnprintf(text, sizeof text, form, rest);
  va_end(rest);
  line_put(line, text, size > 0 && (size_t)size < sizeof text ? (size_t)size : 0);
}

/* How many bytes the first letter takes; 0 where it is no UTF-8. */
static size_t line_letter(const unsigned char *it, size_t left) {
  size_t size = it[0] < 0x80 ? 1 : it[0] < 0xC2 ? 0 : it[0] < 0xE0 ? 2 : it[0] < 0xF0 ? 3 : it[0] < 0xF5 ? 4 : 0;
  if (size == 0 || size > left) return 0;
  for (size_t i = 1; i < size; i++)
    if ((it[i] & 0xC0) != 0x80) return 0;
  if ((it[0] == 0xE0 && it[1] < 0xA0) || (it[0] == 0xED && it[1] > 0x9F)) return 0; /* longer than need be; half a surrogate pair */
  if ((it[0] == 0xF0 && it[1] < 0x90) || (it[0] == 0xF4 && it[1] > 0x8F)) return 0; /* longer than need be; beyond the last */
  return size;
}

static void line_key(Line *line, const char *key, size_t length) {
  if (length < 1 || length > 128) line->fault = EINVAL;
  line_put(line, "\"", 1);
  for (size_t i = 0, size; i < length && !line->fault; i += size) {
    size = line_letter((const unsigned char *)key + i, length - i);
    if (size == 0) line->fault = EINVAL;
    else if (key[i] == '"' || key[i] == '\\') line_say(line, "\\%c", key[i]);
    else if ((unsigned char)key[i] < 0x20) line_say(line, "\\u%04x", (unsigned)key[i]);
    else line_put(line, key + i, size);
  }
  line_put(line, "\"", 1);
}

static void line_op(Line *line, const char *head, const char *key, size_t length, const uint64_t *value) {
  if (++line->count > 4096) line->fault = EINVAL;
  line_say(line, "%s[\"%s\",", line->count > 1 ? "," : "", head);
  line_key(line, key, length);
  if (value) line_say(line, ",%llu]", (unsigned long long)*value);
  else line_put(line, ",null]", 6);
}

static void line_read(Line *line, const char *key, size_t length, const uint64_t *value) { line_op(line, "r", key, length, value); }
static void line_write(Line *line, const char *key, size_t length, uint64_t value) { line_op(line, "w", key, length, &value); }

/* Writes the text whole, or nothing of it. */
static int line_send(int file, const char *text, size_t size) {
  static pthread_mutex_t turn = PTHREAD_MUTEX_INITIALIZER;
  struct stat is;
  if (fstat(file, &is)) return -1;
  if (S_ISFIFO(is.st_mode) && size > 4096) { errno = EMSGSIZE; return -1; }
  pthread_mutex_lock(&turn);
  off_t before = S_ISREG(is.st_mode) ? lseek(file, 0, SEEK_END) : 0;
  size_t done = 0;
  int fault = 0;
  while (done < size && !fault) {
    ssize_t some = write(file, text + done, size - done);
    if (some > 0) done += (size_t)some;
    else if (errno != EINTR) fault = errno;
  }
  if (fault && S_ISREG(is.st_mode) && (ftruncate(file, before) || lseek(file, before, SEEK_SET) < 0)) fault = EIO;
  pthread_mutex_unlock(&turn);
  errno = fault;
  return fault ? -1 : 0;
}

/* Ends the line, and gives it up for the next transaction. */
static int line_end(Line *line, int file, const char *head) {
  Line all = {0};
  line_put(&all, head, strlen(head));
  line_put(&all, line->text, line->size);
  line_put(&all, "]}\n", 3);
  int fault = line->fault ? line->fault : all.fault ? all.fault : all.size > 1048577 ? EINVAL : 0;
  if (!fault && line_send(file, all.text, all.size)) fault = errno;
  free(all.text);
  free(line->text);
  memset(line, 0, sizeof *line);
  errno = fault;
  return fault ? -1 : 0;
}

static int line_committed(Line *line, int file, uint64_t id, uint64_t start, uint64_t commit) {
  char head[160];
  snprintf(head, sizeof head, "{\"do\":\"txn\",\"id\":%llu,\"start\":%llu,\"status\":\"committed\",\"commit\":%llu,\"ops\":[",
           (unsigned long long)id, (unsigned long long)start, (unsigned long long)commit);
  return line_end(line, file, head);
}

/* The status is `aborted` or `indoubt`. */
static int line_unfinished(Line *line, int file, uint64_t id, uint64_t start, const char *status) {
  char head[160];
  snprintf(head, sizeof head, "{\"do\":\"txn\",\"id\":%llu,\"start\":%llu,\"status\":\"%s\",\"ops\":[", (unsigned long long)id,
           (unsigned long long)start, status);
  return line_end(line, file, head);
}

static int line_setup(int file, const char *key, size_t length, uint64_t value) {
  Line line = {0};
  line_put(&line, "{\"do\":\"setup\",\"key\":", 20);
  line_key(&line, key, length);
  line_say(&line, ",\"value\":%llu}\n", (unsigned long long)value);
  int fault = line.fault;
  if (!fault && line_send(file, line.text, line.size)) fault = errno;
  free(line.text);
  errno = fault;
  return fault ? -1 : 0;
}
