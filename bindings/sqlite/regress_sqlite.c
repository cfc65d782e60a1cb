/* Regular expressions of ECMAScript in SQLite, by an engine that is proved: a loadable extension.
 *
 *   .load ./regress_sqlite
 *   SELECT name FROM people WHERE name REGEXP '^\p{Lu}';
 *
 *   text REGEXP pattern, regexp(pattern, text [, flags])        1 where the pattern matches somewhere in the text, else 0
 *   regexp_substr(text, pattern [, flags])                      the text of the first match, NULL where there is none
 *   regexp_replace(text, pattern, template [, flags])           the text with each match replaced by a template of ECMAScript
 *
 * Flags are ECMAScript's; without them they are `u`. An argument that is NULL gives NULL. A pattern that is refused is an error of
 * the statement. All are deterministic. A pattern that stands for itself in a statement is compiled once.
 */
#include <regress.h>
#include <sqlite3ext.h>

#include <string.h>

SQLITE_EXTENSION_INIT1

/* What the functions of a connection share, which one thread calls at a time. The last function that goes frees it. */
typedef struct {
  int functions;
  regress_tables tables;
} shared;

/* A pattern that was compiled, with its search, and the flags that it has. */
typedef struct {
  regress_pattern pattern;
  regress_search search;
  char flags[16];
} compiled;

/* An argument as the library takes it. */
typedef struct {
  const char *text;
  size_t length;
} words;

static void free_shared(void *held) {
  shared *all = held;
  if (--all->functions > 0) return;
  regress_free(&all->tables);
  sqlite3_free(all);
}

static void free_compiled(void *held) {
  compiled *made = held;
  regress_free(&made->search);
  regress_free(&made->pattern);
  sqlite3_free(made);
}

static void answer_error(sqlite3_context *context, int32_t code) {
  char text[64] = "";
  size_t written;
  if (code == REGRESS_OUT_OF_MEMORY) {
    sqlite3_result_error_nomem(context);
    return;
  }
  regress_error_text(code, text, sizeof text - 1, &written);
  sqlite3_result_error(context, text, -1);
}

/* Answers what is wrong with a pattern, as `regexp: Unbalanced bracket at 3`. */
static void answer_refusal(sqlite3_context *context, const regress_error *error) {
  char *text = error->code == REGRESS_SYNTAX ? sqlite3_mprintf("regexp: %s at %llu", error->text, (unsigned long long)error->place)
                                             : sqlite3_mprintf("regexp: %s", error->text);
  if (text == NULL || error->code == REGRESS_OUT_OF_MEMORY)
    sqlite3_result_error_nomem(context);
  else
    sqlite3_result_error(context, text, -1);
  sqlite3_free(text);
}

/* Reads an argument as UTF-8. Answers whether it is there: NULL is not, and then the function's answer is NULL. */
static int read_argument(sqlite3_context *context, sqlite3_value *value, words *to) {
  to->text = (const char *)sqlite3_value_text(value);
  to->length = (size_t)sqlite3_value_bytes(value);
  if (to->text == NULL && sqlite3_value_type(value) != SQLITE_NULL) sqlite3_result_error_nomem(context);
  return to->text != NULL;
}

static compiled *compile(sqlite3_context *context, words pattern, const char *flags) {
  shared *all = sqlite3_user_data(context);
  regress_error error = {REGRESS_OK, 0, ""};
  compiled *made = sqlite3_malloc(sizeof *made);
  int32_t code = made == NULL ? REGRESS_OUT_OF_MEMORY : REGRESS_OK;
  if (code == REGRESS_OK) memset(made, 0, sizeof *made);
  if (code == REGRESS_OK && all->tables.held == NULL) code = regress_tables_unicode(&all->tables);
  if (code == REGRESS_OK) code = regress_compile(pattern.text, pattern.length, flags, &all->tables, &made->pattern, &error);
  if (code == REGRESS_OK) code = regress_search_new(&made->pattern, &made->search);
  if (code == REGRESS_OK) {
    strcpy(made->flags, flags);
    return made;
  }
  if (error.code == REGRESS_OK) error.code = code;
  answer_refusal(context, &error);
  if (made != NULL) free_compiled(made);
  return NULL;
}

/* The pattern that an argument stands for: the one that SQLite keeps with the statement, else a new one, which it keeps from now
 * on. NULL where the function has its answer. */
static compiled *pattern_of(sqlite3_context *context, sqlite3_value **values, int number, int count, int flags_number) {
  words pattern, flags = {"u", 1};
  if (!read_argument(context, values[number], &pattern)) return NULL;
  if (count > flags_number && !read_argument(context, values[flags_number], &flags)) return NULL;
  if (strlen(flags.text) != flags.length || flags.length >= sizeof(((compiled *)NULL)->flags)) {
    sqlite3_result_error(context, "regexp: unknown flag", -1);
    return NULL;
  }
  compiled *kept = sqlite3_get_auxdata(context, number);
  if (kept != NULL && strcmp(kept->flags, flags.text) == 0) return kept;
  compiled *made = compile(context, pattern, flags.text);
  if (made == NULL) return NULL;
  sqlite3_set_auxdata(context, number, made, free_compiled);
  kept = sqlite3_get_auxdata(context, number); /* NULL where SQLite had no memory, and freed it */
  if (kept == NULL) sqlite3_result_error_nomem(context);
  return kept;
}

static void regexp(sqlite3_context *context, int count, sqlite3_value **values) {
  words text;
  compiled *made = pattern_of(context, values, 0, count, 2);
  if (made == NULL || !read_argument(context, values[1], &text)) return;
  int32_t code = regress_is_match(&made->search, text.text, text.length, 0);
  if (code < 0)
    answer_error(context, code);
  else
    sqlite3_result_int(context, code);
}

static void regexp_substr(sqlite3_context *context, int count, sqlite3_value **values) {
  words text;
  regress_range range;
  compiled *made = pattern_of(context, values, 1, count, 2);
  if (made == NULL || !read_argument(context, values[0], &text)) return;
  int32_t code = regress_find(&made->search, text.text, text.length, 0, &range, 1);
  if (code < 0)
    answer_error(context, code);
  else if (code > 0)
    sqlite3_result_text64(context, text.text + range.start, range.end - range.start, SQLITE_TRANSIENT, SQLITE_UTF8);
}

static void regexp_replace(sqlite3_context *context, int count, sqlite3_value **values) {
  words text, with;
  compiled *made = pattern_of(context, values, 1, count, 3);
  if (made == NULL || !read_argument(context, values[0], &text) || !read_argument(context, values[2], &with)) return;
  size_t room = text.length + text.length / 4 + 64, written = 0;
  int32_t code = REGRESS_NO_ROOM;
  char *buffer = NULL;
  for (int turn = 0; turn < 2 && code == REGRESS_NO_ROOM; turn++, room = written + 1) {
    sqlite3_free(buffer);
    buffer = sqlite3_malloc64(room);
    code = buffer == NULL ? REGRESS_OUT_OF_MEMORY
                          : regress_replace_all(&made->pattern, text.text, text.length, with.text, with.length, buffer, room, &written);
  }
  if (code == REGRESS_OK) {
    sqlite3_result_text64(context, buffer, written, sqlite3_free, SQLITE_UTF8);
  } else {
    sqlite3_free(buffer);
    answer_error(context, code);
  }
}

/* What SQLite calls when it loads the extension. */
int sqlite3_regresssqlite_init(sqlite3 *db, char **message, const sqlite3_api_routines *api) {
  static const struct {
    const char *name;
    int count;
    void (*call)(sqlite3_context *, int, sqlite3_value **);
  } functions[] = {{"regexp", 2, regexp},        {"regexp", 3, regexp},
                   {"regexp_substr", 2, regexp_substr},   {"regexp_substr", 3, regexp_substr},
                   {"regexp_replace", 3, regexp_replace}, {"regexp_replace", 4, regexp_replace}};
  const int kind = SQLITE_UTF8 | SQLITE_DETERMINISTIC;
  (void)message;
  SQLITE_EXTENSION_INIT2(api);
  shared *all = sqlite3_malloc(sizeof *all);
  if (all == NULL) return SQLITE_NOMEM;
  memset(all, 0, sizeof *all);
  all->functions = 1; /* this function's own, until all are made */
  int code = SQLITE_OK;
  for (size_t k = 0; k < sizeof functions / sizeof *functions && code == SQLITE_OK; k++) {
    all->functions++;
    code = sqlite3_create_function_v2(db, functions[k].name, functions[k].count, kind, all, functions[k].call, NULL, NULL, free_shared);
  }
  free_shared(all);
  return code;
}
