/* Pulleyrush: a script engine for roast loggers, for C.
 *
 * Every function works on buffers that you lend and keeps nothing: no heap, no globals, no input or output, so
 * several engines may be used side by side. Each call ends and touches only the buffers named here. What is said
 * below of answers and buffers is proved of the functions (crates/host/src/lib.rt).
 *
 * Words are uint16_t. A script is one closed expression; an image is the state of all tasks, the words that load
 * and step write. Lengths are counted in words. Buffers that are written must not overlap any other.
 *
 * Stack: under 512 KiB for any script, under 2 MiB for any image.
 */
#ifndef PULLEYRUSH_H
#define PULLEYRUSH_H

#include <stddef.h>
#include <stdint.h>

#ifdef __cplusplus
extern "C" {
#endif

/* The length of every work buffer and of a run's state buffer, and the most words an image has. */
#define PULLEYRUSH_WORDS 8192
/* The most words a script has, the words that hold any first image, and those that hold any type. */
#define PULLEYRUSH_SCRIPT 2048
#define PULLEYRUSH_FIRST 2052
#define PULLEYRUSH_TYPE 4096

/* The numbers of answers. */
enum pulleyrush_number {
  PULLEYRUSH_DONE = 0,            /* done; the length says how many words were written */
  PULLEYRUSH_EMPTIED = 1,         /* step: joined a task that is gone, the state is empty now; the image is the word 0 */
  PULLEYRUSH_FINISHED = 2,        /* step: the task is finished, its expression is a value */
  PULLEYRUSH_WAITS = 3,           /* step: the task waits at a join for a task that is not finished */
  PULLEYRUSH_STUCK_SHAPE = 4,     /* step: stuck, no rule fits the expression */
  PULLEYRUSH_STUCK_LOCATION = 5,  /* step: stuck, a cell that this task does not have is read or assigned */
  PULLEYRUSH_NOT_LIVE = 6,        /* step: there is no such task */
  PULLEYRUSH_NO_NUMBER = 7,       /* step: no number is left for a new cell or task */
  PULLEYRUSH_NOT_VALID = 8,       /* step, run, report: the words are no image */
  PULLEYRUSH_NO_ROOM = 9,         /* a buffer is too short, or a work buffer is not 8,192 words */
  PULLEYRUSH_NOT_FORMED = 10,     /* load, check: not one well-formed expression, or over 2,048 words */
  PULLEYRUSH_HOLDS_HANDLE = 11,   /* load, check: the script holds a location or a revision */
  PULLEYRUSH_NOT_CLOSED = 12,     /* load, check: the script has a free variable */
  PULLEYRUSH_NO_TYPE = 13,        /* check: the script has no type; it may still be loaded and run */
  PULLEYRUSH_LONG_TYPE = 14       /* check: a part of the script has a type of over 4,096 words */
};

/* length: the words written with answers 0 and 1, and 0 with every other answer. */
typedef struct {
  uint32_t number;
  size_t length;
} PulleyrushAnswer;

/* count: how many revision numbers are live or mentioned; marks: bit r is set for each such number r. */
typedef struct {
  uint32_t number;
  uint32_t count;
  uint64_t marks;
} PulleyrushReport;

/* In load, check and step: `work` has PULLEYRUSH_WORDS words, or the answer is 9; it is all zeros afterwards, whatever
 * the answer. `out` may have any length: with answers 0 and 1 it holds the result and then zeros to its end, with every
 * other answer it is untouched. */

/* The image of a script's first state: task 0 alone, with the script. Answers 0, 9, 10, 11, 12. */
PulleyrushAnswer pulleyrush_load(const uint16_t *script, size_t script_length, uint16_t *out, size_t out_length,
                                 uint16_t *work, size_t work_length);

/* The words of the script's type. A script that passes (0) can never get stuck. Answers 0, 9, 10, 11, 12, 13, 14. */
PulleyrushAnswer pulleyrush_check(const uint16_t *script, size_t script_length, uint16_t *out, size_t out_length,
                                  uint16_t *work, size_t work_length);

/* One step of task `revision`: the next image. Answers 0 to 9. A refused step leaves the image as it is: keep it. */
PulleyrushAnswer pulleyrush_step(const uint16_t *image, size_t image_length, uint16_t revision, uint16_t *out,
                                 size_t out_length, uint16_t *work, size_t work_length);

/* Tries every pick in turn on the image in the first `length` words of `state`, and goes on after a refusal. `state`
 * and `work` have PULLEYRUSH_WORDS words and `answers` at least as many as `picks`, or the answer is 9; it is 8 if the
 * words are no image; a refused run touches nothing. Else 0 with the last image's length: `state` holds that image
 * and zeros, answers[i] the number of the i-th pick's step, further answers are untouched, `work` is zeros. */
PulleyrushAnswer pulleyrush_run(uint16_t *state, size_t state_length, size_t length, const uint16_t *picks,
                                size_t picks_length, uint16_t *answers, size_t answers_length, uint16_t *work,
                                size_t work_length);

/* Which revision numbers are live or mentioned. Answers 0 and 8; with 8 count and marks are 0. */
PulleyrushReport pulleyrush_report(const uint16_t *image, size_t image_length);

#ifdef __cplusplus
}
#endif

#endif
