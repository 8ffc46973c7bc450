// Launches the card of a folder and runs it from C, and prints what ./bench prints of a launched warp:
//     cc linked/example.c linked/libcapi.a -o example && ./example examples/split
// A slice is passed as its pointer and then its length in elements. The words are read as this machine has them: little-endian.
#include <inttypes.h>
#include <stdio.h>

uint32_t bench_launch(const uint8_t *card, size_t card_bytes, const uint32_t *kernel, size_t kernel_words,
                      uint32_t *vector, size_t vector_words, const uint8_t *data, size_t data_bytes,
                      uint32_t *state, size_t state_words);
uint32_t bench_run(uint32_t *state, size_t state_words, const uint32_t *kernel, size_t kernel_words,
                   uint32_t *vector, size_t vector_words, uint8_t *data, size_t data_bytes, uint32_t budget,
                   uint32_t *steps, size_t steps_words);

enum { OPEN = 219, PC = 220, MASK = 221, STATE = 241, VECTOR = 8192, KERNEL = 16384, DATA = 65536 };

// Room for more than a card, data or a kernel may have, which is refused.
static uint8_t card[51], data[DATA + 1];
static uint32_t kernel[KERNEL + 1], vector[VECTOR], state[STATE], steps;

// The bytes read; a file that is missing counts as empty.
static size_t read_file(const char *folder, const char *name, void *to, size_t room) {
    char path[4096];
    snprintf(path, sizeof path, "%s/%s", folder, name);
    FILE *file = fopen(path, "rb");
    if (!file) return 0;
    size_t got = fread(to, 1, room, file);
    fclose(file);
    return got;
}

int main(int argc, char **argv) {
    if (argc != 2) return fprintf(stderr, "usage: example FOLDER\n"), 2;
    size_t card_bytes = read_file(argv[1], "card.bin", card, sizeof card);
    size_t kernel_bytes = read_file(argv[1], "kernel.bin", kernel, sizeof kernel);
    size_t bytes = read_file(argv[1], "data.bin", data, sizeof data);
    size_t words = kernel_bytes % 4 ? 0 : kernel_bytes / 4; // no whole words count as none, which is refused
    uint32_t code = bench_launch(card, card_bytes, kernel, words, vector, VECTOR, data, bytes, state, STATE);
    if (code != 0) return printf("code %" PRIu32 "\n", code), 0;
    code = bench_run(state, STATE, kernel, words, vector, VECTOR, data, bytes, 65536, &steps, 1);
    printf("code %" PRIu32 "\nsteps %" PRIu32 "\npc %08" PRIx32 "\nmask %08" PRIx32 "\nsplits %" PRIu32 "\n", code, steps,
           state[PC], state[MASK], state[OPEN]);
    return 0;
}
