/*
 * A key maker, on a core that is not ready and then on one that is.
 *
 *     cc -o example example.c && ./example my.script my.transcript && rng check my.script my.transcript
 */
#include "fenloth.h"

enum { GRND_NONBLOCK = 1 };

static struct fenloth core;

/* The code under test. It calls the core's getrandom(2) in place of the machine's. */
static int make_key(unsigned char key[16])
{
    return fenloth_getrandom(&core, key, 16, GRND_NONBLOCK) == 16 ? 0 : -1;
}

int main(int count, char **words)
{
    FILE *script = count > 2 ? fopen(words[1], "w") : NULL, *transcript = count > 2 ? fopen(words[2], "w") : NULL;
    unsigned char key[16], entropy[32] = {1, 2, 3};

    if (fenloth_open(&core, NULL, 1, script, transcript))
        return fprintf(stderr, "%s\n", core.problem), 1;
    if (make_key(key) && errno == EAGAIN)
        printf("not ready: no key\n");
    fenloth_add(&core, entropy, sizeof(entropy), 256);
    printf("%d bits: ", fenloth_bits(&core));
    if (!make_key(key))
        for (size_t i = 0; i < sizeof(key); i++)
            printf("%02x%s", key[i], i + 1 < sizeof(key) ? "" : "\n");
    return fenloth_close(&core) ? fprintf(stderr, "%s\n", core.problem), 1 : 0;
}
