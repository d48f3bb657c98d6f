/* Writes the text of a trace as Valgrind's lackey does, of any length: no file is stored.
 *
 *     cc -O2 -o lackey_text bench/lackey_text.c
 *     ./lackey_text 100000000 | time crates/resctrl_plan/out/resctrl_plan curve 1024 16 >/dev/null
 *
 * The word is how many references there are. One in three is an instruction of a loop over 64 KB of code, which jumps back now and
 * then; the others are loads, stores and modifications of 4 MB of data, most of them in a part of 256 KB. The same number gives the
 * same text. */
#include <stdint.h>
#include <stdio.h>
#include <stdlib.h>

static uint64_t number = 1;

static uint64_t below(uint64_t end) {
    number = number * 6364136223846793005u + 1442695040888963407u;
    return (number >> 33) % end;
}

int main(int argc, char **argv) {
    if (argc != 2)
        return 1;
    static const char kinds[] = "LLLSSM";
    static char buffer[1 << 16];
    setvbuf(stdout, buffer, _IOFBF, sizeof buffer);
    uint64_t code = 0x400000;
    puts("==1== Lackey, an example Valgrind tool");
    for (uint64_t left = strtoull(argv[1], 0, 10); left > 0; left--) {
        if (below(3) == 0) {
            printf("I  %08llx,%d\n", (unsigned long long)code, (int)(1 + below(8)));
            code = below(16) == 0 ? 0x400000 + below(0x10000) : code + 4;
        } else {
            uint64_t data = 0x1ffe000000 + (below(8) == 0 ? below(0x400000) : below(0x40000));
            printf(" %c %llx,%d\n", kinds[below(6)], (unsigned long long)data, 1 << below(4));
        }
    }
    return 0;
}
