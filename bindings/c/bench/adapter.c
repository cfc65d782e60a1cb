/* The library as one engine among others, timed in the process, so that starting, reading and writing are not counted.
 *
 *   adapter [--KIND] cli FLAGS PATTERN < TEXT
 *       one line for each match: START..END in bytes, and for each group a space and its START..END, or `-`
 *   adapter [--KIND] bench FLAGS PATTERN_FILE TEXT_FILE OUTPUT_FILE|-
 *       times compiling and one search over the whole text, each as the least of three or more runs, and writes them in a line of
 *       JSON to standard error; then, unless the output is `-`, searches once more and writes the lines
 *
 * KIND names the calls that search: `ascii`, `valid` (UTF-8 that was checked before), `utf16`, `ucs2` (offsets are then in units). By
 * default they are those for ASCII where the text is ASCII, else `valid`. Unicode's tables are made once, before the time begins.
 * The status is 3 where the pattern or a flag is refused, 2 for wrong words, and 1 where something else fails.
 */
#define _POSIX_C_SOURCE 200809L
#include <regress.h>

#include <inttypes.h>
#include <stdio.h>
#include <stdlib.h>
#include <time.h>

/* At least so many ranges are asked for at once. */
enum { ROOM = 1024 };

typedef enum { VALID, ASCII, UTF16, UCS2 } kind;

/* A text, in bytes and where units are searched in units. */
typedef struct {
  kind searched;
  char *bytes;
  uint16_t *units;
  size_t length, count;
} text_given;

/* A compiled pattern. */
typedef struct {
  regress_pattern pattern;
  regress_search search;
  regress_range *ranges;
  size_t width, room;
} engine;

/* Where lines are written to; NULL where none are. What is found is summed up, so that it is looked at in any case. */
typedef struct {
  FILE *to;
  size_t sum;
} sink;

static regress_tables tables;

static void fail(int status, const char *text) {
  fprintf(stderr, "%s\n", text);
  exit(status);
}

static void *room_for(size_t size) {
  void *room = malloc(size + 1);
  if (room == NULL) fail(1, "out of memory");
  return room;
}

static int64_t now(void) {
  struct timespec time;
  clock_gettime(CLOCK_MONOTONIC, &time);
  return (int64_t)time.tv_sec * 1000000000 + time.tv_nsec;
}

/* Reads a file, or standard input for NULL, and ends it with a null byte. */
static char *read_file(const char *name, size_t *length) {
  FILE *file = name == NULL ? stdin : fopen(name, "rb");
  size_t room = 1 << 16, read;
  if (file == NULL) fail(1, "a file can't be read");
  char *bytes = room_for(room);
  *length = 0;
  while ((read = fread(bytes + *length, 1, room - *length, file)) > 0) {
    *length += read;
    if (*length < room) continue;
    bytes = realloc(bytes, 2 * room + 1);
    if (bytes == NULL) fail(1, "out of memory");
    room *= 2;
  }
  if (name != NULL) fclose(file);
  bytes[*length] = 0;
  return bytes;
}

static void free_engine(engine *made) {
  free(made->ranges);
  regress_free(&made->search);
  regress_free(&made->pattern);
}

static engine compile(const char *source, size_t length, const char *flags) {
  engine made = {{0}, {0}, NULL, 0, 0};
  regress_error error = {0, 0, ""};
  if (regress_compile(source, length, flags, &tables, &made.pattern, &error) != REGRESS_OK) fail(3, error.text);
  if (regress_search_new(&made.pattern, &made.search) != REGRESS_OK) fail(1, "no search");
  made.width = (size_t)regress_group_count(&made.pattern) + 1;
  made.room = made.width > ROOM ? made.width : ROOM;
  made.ranges = room_for(made.room * sizeof *made.ranges);
  return made;
}

/* The 16-bit units of UTF-8. */
static void read_units(text_given *text) {
  text->units = room_for(text->length * sizeof *text->units);
  for (size_t at = 0; at < text->length;) {
    const unsigned char *byte = (const unsigned char *)text->bytes + at;
    int more = *byte < 0x80 ? 0 : *byte < 0xE0 ? 1 : *byte < 0xF0 ? 2 : 3;
    uint32_t point = more == 0 ? *byte : *byte & (0x3Fu >> more);
    for (int k = 1; k <= more; k++) point = point << 6 | (byte[k] & 0x3F);
    if (point > 0xFFFF) {
      text->units[text->count++] = (uint16_t)(0xD7C0 + (point >> 10));
      point = 0xDC00 + (point & 0x3FF);
    }
    text->units[text->count++] = (uint16_t)point;
    at += (size_t)more + 1;
  }
}

/* Reads a text, checks it by a call of the library that does, and finds its kind. */
static text_given read_text(const char *name, const char *asked) {
  text_given text = {VALID, NULL, NULL, 0, 0};
  text.bytes = read_file(name, &text.length);
  engine empty = compile("", 0, "");
  if (regress_is_match(&empty.search, text.bytes, text.length, 0) != 1) fail(1, "the text is not UTF-8");
  free_engine(&empty);
  size_t ascii = 0;
  while (ascii < text.length && (text.bytes[ascii] & 0x80) == 0) ascii++;
  if (strcmp(asked, "ascii") == 0 && ascii < text.length) fail(1, "the text is not ASCII");
  if (strcmp(asked, "") == 0 || strcmp(asked, "ascii") == 0) text.searched = ascii == text.length ? ASCII : VALID;
  if (strcmp(asked, "utf16") == 0) text.searched = UTF16;
  if (strcmp(asked, "ucs2") == 0) text.searched = UCS2;
  if (text.searched == UTF16 || text.searched == UCS2) read_units(&text);
  return text;
}

static int32_t find_many(engine *made, const text_given *text, size_t *start, size_t *found) {
  regress_search *search = &made->search;
  switch (text->searched) {
    case ASCII: return regress_find_many_ascii(search, text->bytes, text->length, start, made->ranges, made->room, made->width, found);
    case VALID: return regress_find_many_valid(search, text->bytes, text->length, start, made->ranges, made->room, made->width, found);
    case UTF16: return regress_find_many_utf16(search, text->units, text->count, start, made->ranges, made->room, made->width, found);
    default: return regress_find_many_ucs2(search, text->units, text->count, start, made->ranges, made->room, made->width, found);
  }
}

/* Looks at the ranges of a match, and writes its line. */
static void tell(const regress_range *ranges, size_t width, sink *told) {
  for (size_t g = 0; g < width; g++) told->sum += ranges[g].start + ranges[g].end;
  if (told->to == NULL) return;
  for (size_t g = 0; g < width; g++) {
    const char *before = g == 0 ? "" : " ";
    if (ranges[g].start == REGRESS_UNSET)
      fprintf(told->to, "%s-", before);
    else
      fprintf(told->to, "%s%zu..%zu", before, ranges[g].start, ranges[g].end);
  }
  putc('\n', told->to);
}

/* Searches the whole text: how many matches there are. */
static size_t search(engine *made, const text_given *text, sink *told) {
  size_t start = 0, found = 0, matches = 0;
  while (start != REGRESS_UNSET) {
    if (find_many(made, text, &start, &found) != REGRESS_OK) fail(1, "the search failed");
    for (size_t k = 0; k < found; k++) tell(made->ranges + k * made->width, made->width, told);
    matches += found;
  }
  return matches;
}

static int run_cli(const char *asked, char **words) {
  text_given text = read_text(NULL, asked);
  engine made = compile(words[1], strlen(words[1]), words[0]);
  sink told = {stdout, 0};
  search(&made, &text, &told);
  free_engine(&made);
  free(text.units);
  free(text.bytes);
  return fflush(stdout) == 0 ? 0 : 1;
}

/* The least time of three compilations; the last one's pattern is kept. */
static int64_t time_compiling(const char *source, size_t length, const char *flags, engine *made) {
  int64_t least = INT64_MAX;
  for (int turn = 0; turn < 3; turn++) {
    if (turn > 0) free_engine(made);
    int64_t begin = now();
    *made = compile(source, length, flags);
    int64_t took = now() - begin;
    if (took < least) least = took;
  }
  return least;
}

static int run_bench(const char *asked, char **words) {
  size_t length, matches = 0;
  char *source = read_file(words[1], &length);
  int64_t begin = now();
  text_given text = read_text(words[2], asked);
  int64_t reading = now() - begin, least = INT64_MAX, total = 0;
  engine made;
  int64_t compiling = time_compiling(source, length, words[0], &made);
  sink told = {NULL, 0};
  int passes = 0;
  while ((passes < 3 || total < 100000000) && total < 2000000000 && passes < 200) {
    begin = now();
    matches = search(&made, &text, &told);
    int64_t took = now() - begin;
    if (took < least) least = took;
    total += took;
    passes++;
  }
  fprintf(stderr, "{\"read_ns\": %" PRId64 ", \"compile_ns\": %" PRId64 ", \"search_ns\": %" PRId64 ", \"passes\": %d, \"matches\": %zu}\n",
          reading, compiling, least, passes, matches);
  if (strcmp(words[3], "-") != 0) {
    told.to = fopen(words[3], "wb");
    if (told.to == NULL) fail(1, "the output can't be written");
    search(&made, &text, &told);
    if (fclose(told.to) != 0) fail(1, "the output can't be written");
  }
  free_engine(&made);
  free(text.units);
  free(text.bytes);
  free(source);
  return 0;
}

int main(int count, char **words) {
  const char *asked = count > 1 && strncmp(words[1], "--", 2) == 0 ? words[1] + 2 : "";
  int first = asked[0] == 0 ? 1 : 2, status = 2;
  static const char *const kinds[] = {"", "ascii", "valid", "utf16", "ucs2"};
  int is_known = 0;
  for (size_t k = 0; k < sizeof kinds / sizeof *kinds; k++) is_known |= strcmp(asked, kinds[k]) == 0;
  if (regress_tables_unicode(&tables) != REGRESS_OK) fail(1, "no tables");
  if (is_known && count - first == 3 && strcmp(words[first], "cli") == 0)
    status = run_cli(asked, words + first + 1);
  else if (is_known && count - first == 5 && strcmp(words[first], "bench") == 0)
    status = run_bench(asked, words + first + 1);
  else
    fprintf(stderr, "adapter [--ascii|--valid|--utf16|--ucs2] cli FLAGS PATTERN, or bench FLAGS PATTERN_FILE TEXT_FILE OUTPUT_FILE|-\n");
  regress_free(&tables);
  return status;
}
