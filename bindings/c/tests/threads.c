/* Four threads search with one compiled pattern, each by a handle of its own. */
#include <regress.h>

#include "check.h"

#include <pthread.h>

enum { THREADS = 4, TURNS = 2000 };

typedef struct {
  regress_pattern pattern;
  unsigned long found;
} work;

static const char text[] = "on 2025-06-01, and on 2026-11-27";

static void *searches(void *given) {
  work *mine = given;
  regress_search search = {0};
  regress_range ranges[3];
  for (int turn = 0; turn < TURNS; turn++) {
    if (regress_search_new(&mine->pattern, &search) != REGRESS_OK) return NULL;
    for (size_t start = 0; regress_find(&search, text, sizeof text - 1, start, ranges, 3) == 3; start = ranges[0].end)
      if (ranges[1].end - ranges[1].start == 4) mine->found++;
  }
  regress_free(&search);
  regress_free(&mine->pattern);
  return NULL;
}

int main(void) {
  const char *source = "(\\d{4})-(\\d\\d)";
  regress_tables tables = {0};
  regress_pattern pattern = {0};
  static work works[THREADS];
  pthread_t threads[THREADS];
  CHECK(regress_tables_small(&tables) == REGRESS_OK);
  CHECK(regress_compile(source, strlen(source), "", &tables, &pattern, NULL) == REGRESS_OK);
  for (int k = 0; k < THREADS; k++) CHECK(regress_share(&pattern, &works[k].pattern) == REGRESS_OK);
  regress_free(&pattern);
  regress_free(&tables);
  for (int k = 0; k < THREADS; k++) CHECK(pthread_create(&threads[k], NULL, searches, &works[k]) == 0);
  for (int k = 0; k < THREADS; k++) {
    CHECK(pthread_join(threads[k], NULL) == 0);
    CHECK(works[k].found == 2 * TURNS);
  }
  return told();
}
