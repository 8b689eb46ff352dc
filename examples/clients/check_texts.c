/*
 * Prints the answer of fenloth_check, and the transcript that fenloth_replay makes. docs/USING.md shows how to build it.
 *
 *     ./check_texts SCRIPT TRANSCRIPT
 */
#include "fenloth_texts.h"
#include <stdio.h>
#include <stdlib.h>

static uint8_t *read_file(const char *path, size_t *bytes)
{
    FILE *file = fopen(path, "rb");
    size_t room = 1 << 16, n;
    uint8_t *text = malloc(room);

    *bytes = 0;
    while (file && text && (n = fread(text + *bytes, 1, room - *bytes, file)) > 0)
        if ((*bytes += n) == room)
            text = realloc(text, room *= 2);
    if (!file || !text || ferror(file))
        perror(path), exit(2);
    fclose(file);
    return text;
}

int main(int count, char **words)
{
    size_t script_bytes, transcript_bytes;
    uint8_t none[1], *buffer = none, *script, *transcript;
    uint64_t made = 0;
    uint32_t answer;

    if (count != 3)
        return fprintf(stderr, "usage: check_texts SCRIPT TRANSCRIPT\n"), 2;
    script = read_file(words[1], &script_bytes);
    transcript = read_file(words[2], &transcript_bytes);
    printf("%u\n", (unsigned)fenloth_check(script, script_bytes, transcript, transcript_bytes));
    /* Without room, the call returns the length. */
    answer = fenloth_replay(script, script_bytes, transcript, transcript_bytes, none, 0, &made);
    if (answer == FENLOTH_NO_ROOM && (buffer = malloc(made)))
        answer = fenloth_replay(script, script_bytes, transcript, transcript_bytes, buffer, made, &made);
    if (answer == FENLOTH_YES)
        fwrite(buffer, 1, made, stdout);
    return answer == FENLOTH_YES ? 0 : 1;
}
