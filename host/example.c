/* A logger's idle loop: it checks a script, loads it, and gives the engine one step in each idle moment. */
#include <stdio.h>
#include <string.h>

#include "pulleyrush.h"

/* (apply (fn v0 ref num. (apply (fn v1 rev. (apply (fn v2 unit. read v0) (join v1))) (fork (assign v0 42)))) (ref 7)):
 * a cell with 7, a task that writes 42 into it, a join, and the cell read. */
static const uint16_t script[] = {8, 7, 0, 36, 34, 8, 7, 1, 35, 8,  7, 2, 32, 11, 4, 0,
                                  14, 4, 1, 13, 12, 4, 0, 3, 42, 10, 3, 7};

static void print_words(const char *name, const uint16_t *words, size_t length) {
  printf("%s", name);
  for (size_t i = 0; i < length; i++) printf(" %u", (unsigned)words[i]);
  printf("\n");
}

int main(void) {
  static uint16_t image[PULLEYRUSH_WORDS], next[PULLEYRUSH_WORDS], work[PULLEYRUSH_WORDS];
  size_t script_length = sizeof script / sizeof script[0];

  PulleyrushAnswer checked =
      pulleyrush_check(script, script_length, next, PULLEYRUSH_WORDS, work, PULLEYRUSH_WORDS);
  printf("check %u\n", (unsigned)checked.number);
  print_words("type", next, checked.length);

  PulleyrushAnswer loaded = pulleyrush_load(script, script_length, image, PULLEYRUSH_WORDS, work, PULLEYRUSH_WORDS);
  printf("load %u\n", (unsigned)loaded.number);
  if (loaded.number != PULLEYRUSH_DONE) return 1;
  size_t length = loaded.length;

  /* every idle moment goes to the next live task in turn, until none of them moves */
  int idle = 0;
  for (unsigned revision = 0; idle < 64; revision = (revision + 1) % 64) {
    PulleyrushReport report = pulleyrush_report(image, length);
    if (!(report.marks >> revision & 1)) {
      idle++;
      continue;
    }
    PulleyrushAnswer stepped =
        pulleyrush_step(image, length, (uint16_t)revision, next, PULLEYRUSH_WORDS, work, PULLEYRUSH_WORDS);
    if (stepped.number > PULLEYRUSH_EMPTIED) {
      idle++;
      continue;
    }
    idle = 0;
    length = stepped.length;
    memcpy(image, next, length * sizeof image[0]);
    printf("task %u\n", revision);
    print_words("state", image, length);
  }
  return 0;
}
