/* trials.h: functions below the services, for tests. They are no part of the library: they stand in an archive of
 * their own, target/staticlib/libtrials.a, which `make trials` builds and `make install` does not install, and
 * they may change or go with any version. A program may be linked with both archives.
 *
 * Every call takes any bytes, keeps no state and allocates nothing. The caller guarantees that each pointer is
 * valid for its length. A null pointer is fine with length 0.
 */
#ifndef VAULTGARLIC_TRIALS_H
#define VAULTGARLIC_TRIALS_H

#include <stdbool.h>
#include <stddef.h>
#include <stdint.h>

typedef struct {
    bool stands;     /* whether the word stands there */
    size_t compared; /* how many letters a comparison one by one takes */
} vg_trial_stood;

/* Whether the word b stands in the word w with `at` letters before it. A word is its letters, a byte each, and any
 * byte is a letter. `compared` counts the letters of b from the last one back to the first that is not the letter it
 * would meet in w, that one counted; all of them when none differs. Where b would run past w's end,
 * which is so for at + b_len above w_len, above SIZE_MAX too, the answer is no and 0 letters are compared. The
 * empty word stands at every place from 0 to w_len. */
vg_trial_stood vg_trial_stands_at(const uint8_t *b, size_t b_len, const uint8_t *w, size_t w_len, size_t at);

typedef struct {
    bool fits;          /* whether the bytes are a word of at most 72 letters */
    uint64_t blocks[6]; /* the numbers that it is packed into */
} vg_trial_packed;

/* The word w packed, as the services pack words: twelve letters of five bits to a number, the first letter in bits 55
 * to 59, `a` as 26 down to `z` as 1, and zeros behind the last letter. Bytes that are no word of at most 72 letters
 * `a` to `z` are answered with no and six zeros. */
vg_trial_packed vg_trial_pack(const uint8_t *w, size_t w_len);

#endif
