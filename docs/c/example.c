/* The keys of the names given as arguments, by a pack: example PACK NAME..
   Build: bin/libbm, then cc -o example docs/c/example.c target/staticlib/libbm.a */
#include <inttypes.h>
#include <stdio.h>
#include <string.h>
#include "bm.h"

int main(int argc, char **argv)
{
    static uint8_t pack[49152], out[65536];
    uint64_t tail[2];
    FILE *file = argc < 2 ? NULL : fopen(argv[1], "rb");
    if (file == NULL) {
        fputs("usage: example PACK NAME..\n", stderr);
        return 2;
    }
    size_t length = fread(pack, 1, sizeof pack, file);
    fclose(file);
    for (int i = 2; i < argc; i++) {
        uint32_t code = bm_spell(1, 0, 0, 20, pack, length, (const uint8_t *)argv[i], strlen(argv[i]), out, sizeof out, tail, 2);
        if (code == 0)
            printf("0 %" PRIu64 " %.*s\n", tail[1], (int)tail[0], (const char *)out);
        else
            printf("%" PRIu32 " %" PRIu64 "\n", code, tail[0]);
    }
    return 0;
}
