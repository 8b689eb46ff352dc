/*
 * fenloth_texts.h: `rng check` and `rng replay` as two C functions over texts in memory. They are proved to meet
 * the contracts of crates/fenloth_c/src/lib.rt, if the caller keeps to the rules below; nothing checks the caller.
 *
 * Each text is a pointer and its number of bytes; no byte 0 is needed after it. No pointer may be NULL, even with 0 bytes.
 * The buffer, `made` and the texts may not overlap. A call keeps nothing: threads may call at once, each with its own
 * buffer. It takes memory by malloc, so neither a signal handler nor the forked child of a process with threads may call.
 */
#ifndef FENLOTH_TEXTS_H
#define FENLOTH_TEXTS_H

#include <stddef.h>
#include <stdint.h>

#ifdef __cplusplus
extern "C" {
#endif

/* The answers. Each but FENLOTH_NO_MEMORY is a fact about the texts, or about them and the length of the buffer. */
enum {
    FENLOTH_YES = 0,            /* the transcript is lawful, or was made again */
    FENLOTH_NO_TRANSCRIPT = 1,  /* the text is no transcript's */
    FENLOTH_LINES = 2,          /* 2 to 7: the first clause that fails, as docs/TRANSCRIPT.md numbers them */
    FENLOTH_MARKS = 3,
    FENLOTH_FORMS = 4,
    FENLOTH_ANSWERS = 5,
    FENLOTH_DATA = 6,
    FENLOTH_LOOKS = 7,
    FENLOTH_NO_SCRIPT = 8,      /* the script has a fault, whatever the transcript is */
    FENLOTH_NO_MEMORY = 9,
    FENLOTH_TOO_LONG = 10,      /* the transcript has more than 2^31 bytes */
    FENLOTH_NO_ROOM = 11        /* the buffer is too short */
};

/* Whether the transcript is lawful for the script: 0 to 10. */
uint32_t fenloth_check(const uint8_t *script, size_t script_bytes, const uint8_t *transcript, size_t transcript_bytes);

/*
 * Makes the only lawful transcript with the words and steps of this one, whose answers and data are not judged. With
 * FENLOTH_YES its text is at the start of the buffer, and the rest of the buffer is unchanged. With FENLOTH_NO_ROOM the
 * text is longer than the buffer. Both set *made to the number of bytes of the text. Any other answer is one of
 * fenloth_check, but never FENLOTH_ANSWERS or FENLOTH_DATA. The buffer changes only with FENLOTH_YES, and *made only with
 * FENLOTH_YES and FENLOTH_NO_ROOM.
 */
uint32_t fenloth_replay(const uint8_t *script, size_t script_bytes, const uint8_t *transcript, size_t transcript_bytes,
                        uint8_t *buffer, size_t buffer_bytes, uint64_t *made);

#ifdef __cplusplus
}
#endif

#endif
