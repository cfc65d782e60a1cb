/* Checks that are counted: `N passed, M failed`. */
#ifndef CHECK_H
#define CHECK_H

#include <stdio.h>

static unsigned long passed, failed;

/* What is tried, as a check that fails tells it. */
static const char *trying = "";

#define CHECK(fact) \
  do { \
    if (fact) { \
      passed++; \
    } else { \
      failed++; \
      printf("%s:%d: %s: not so: %s\n", __FILE__, __LINE__, trying, #fact); \
    } \
  } while (0)

static inline int told_of(const char *file) {
  printf("%s:\n%lu passed, %lu failed\n", file, passed, failed);
  return failed == 0 ? 0 : 1;
}

/* Tells how many checks passed and failed, and answers the exit status. */
#define told() told_of(__FILE__)

#endif
