/* Lists the function whose eight record files are in a folder, checks its walks, and by their tables decodes the first instruction of a small
   code, writes it again and with another number, and finds the target of a jump and the walks of another, for which no object is lent; then
   the walks of code that is empty, and walks that an exception handler takes further. At last the opcode records go into the 64-byte form and back.
     cc -Icapi/include capi/example.c target/staticlib/libcapi.a -o target/example && target/example crates/jscd_list/data */
#include "jscd.h"
#include <stdio.h>
#include <stdlib.h>
#include <string.h>

#define MOST 65536

struct file {
    uint8_t *bytes;
    size_t length;
};

static struct file read_file(const char *folder, const char *name) {
    char path[4096];
    struct file file = {malloc(MOST), 0};
    snprintf(path, sizeof path, "%s/%s", folder, name);
    FILE *from = fopen(path, "rb");
    if (!from || !file.bytes) {
        perror(path);
        exit(2);
    }
    file.length = fread(file.bytes, 1, MOST, from);
    fclose(from);
    return file;
}

static void print_walked(const char *what, uint8_t answer, size_t steps, size_t place) {
    if (answer == JSCD_DONE)
        printf("%sclosed\n", what);
    else if (answer == JSCD_LEAVES)
        printf("%sleaves steps %zu from %zu\n", what, steps, place);
    else
        printf("%srefused %d at %zu\n", what, answer, place);
}

int main(int argc, char **argv) {
    static const char *names[8] = {"opcodes.bin", "types.bin",   "runtime.bin", "intrinsic.bin",
                                   "layout.bin",  "objects.bin", "slots.bin",   "payload.bin"};
    static uint8_t out[MOST];
    static uint8_t marks[MOST];
    struct file f[8];
    size_t steps;
    size_t place;
    if (argc != 2) {
        fprintf(stderr, "usage: example FOLDER\n");
        return 2;
    }
    for (int k = 0; k < 8; k++)
        f[k] = read_file(argv[1], names[k]);

    uint8_t answer = jscd_list(out, sizeof out, f[0].bytes, f[0].length, f[1].bytes, f[1].length, f[2].bytes, f[2].length,
                               f[3].bytes, f[3].length, f[4].bytes, f[4].length, f[5].bytes, f[5].length, f[6].bytes,
                               f[6].length, f[7].bytes, f[7].length, 0, &place);
    if (answer != JSCD_DONE) {
        printf("refused %d at %zu\n", answer, place);
        return 1;
    }
    fwrite(out, 1, place, stdout);

    answer = jscd_walk(marks, sizeof marks, f[0].bytes, f[0].length, f[1].bytes, f[1].length, f[2].bytes, f[2].length, f[3].bytes,
                       f[3].length, f[4].bytes, f[4].length, f[5].bytes, f[5].length, f[6].bytes, f[6].length, f[7].bytes,
                       f[7].length, 0, &steps, &place);
    print_walked("", answer, steps, place);

    static const uint8_t code[] = {0x03, 0xff};
    uint64_t numbers[JSCD_NUMBERS];
    answer = jscd_decode(f[0].bytes, f[0].length, f[1].bytes, f[1].length, f[4].bytes, f[4].length, code, sizeof code, 0, &place,
                         numbers);
    if (answer == JSCD_DONE && numbers[JSCD_OPERANDS] > 0)
        printf("opcode %llu, first operand of kind %llu: %lld\n", (unsigned long long)numbers[JSCD_OPCODE],
               (unsigned long long)numbers[JSCD_OPERAND(0)], (long long)numbers[JSCD_OPERAND(0) + 1]);

    answer = jscd_write(out, sizeof out, f[0].bytes, f[0].length, f[1].bytes, f[1].length, f[4].bytes, f[4].length, numbers, &place);
    if (answer == JSCD_DONE)
        printf("written again: %zu bytes, %s\n", place,
               place == sizeof code && !memcmp(out, code, sizeof code) ? "the same" : "others");
    numbers[JSCD_OPERAND(0) + 1] = 384;
    answer = jscd_write(out, sizeof out, f[0].bytes, f[0].length, f[1].bytes, f[1].length, f[4].bytes, f[4].length, numbers, &place);
    if (answer != JSCD_DONE)
        printf("384 in one byte: refused %d at %zu\n", answer, place);

    static const uint8_t jump[] = {0x06, 0x02, 0x0b};
    static const uint8_t none[1];
    uint64_t values[2];
    answer = jscd_target(jump, sizeof jump, 0, f[0].bytes, f[0].length, f[1].bytes, f[1].length, f[4].bytes, f[4].length, none, 0,
                         none, 0, none, 0, 0, 0, &place, values);
    if (answer == JSCD_DONE && values[0] == JSCD_FOUND)
        printf("target %llu\n", (unsigned long long)values[1]);
    answer = jscd_walk_code(marks, sizeof marks, jump, sizeof jump, f[0].bytes, f[0].length, f[1].bytes, f[1].length, f[4].bytes,
                            f[4].length, none, 0, none, 0, none, 0, 0, 0, &steps, &place);
    if (answer == JSCD_DONE)
        printf("closed, marks %d %d %d\n", marks[0], marks[1], marks[2]);

    /* A BytecodeArray without a slot, and lent code of no bytes; neither needs a mark. */
    static const uint8_t placeholder[16] = {1};
    answer = jscd_walk(marks, 0, f[0].bytes, f[0].length, f[1].bytes, f[1].length, f[2].bytes, f[2].length, f[3].bytes, f[3].length,
                       f[4].bytes, f[4].length, placeholder, sizeof placeholder, none, 0, none, 0, 0, &steps, &place);
    print_walked("empty function: ", answer, steps, place);
    answer = jscd_walk_code(marks, 0, none, 0, f[0].bytes, f[0].length, f[1].bytes, f[1].length, f[4].bytes, f[4].length, none, 0,
                            none, 0, none, 0, 0, 0, &steps, &place);
    print_walked("empty lent code: ", answer, steps, place);

    /* The jump's code, whose Return is at 2: while the jump is carried out, the handler is at 2, and then where no instruction starts. */
    uint8_t handlers[12] = {0, 0, 0, 0, 2, 0, 0, 0, 2, 0, 0, 0};
    answer = jscd_walk_code_with(marks, sizeof marks, jump, sizeof jump, f[0].bytes, f[0].length, f[1].bytes, f[1].length, f[4].bytes,
                                 f[4].length, none, 0, none, 0, none, 0, 0, 0, handlers, sizeof handlers, &steps, &place);
    print_walked("handler at 2: ", answer, steps, place);
    handlers[8] = 1;
    answer = jscd_walk_code_with(marks, sizeof marks, jump, sizeof jump, f[0].bytes, f[0].length, f[1].bytes, f[1].length, f[4].bytes,
                                 f[4].length, none, 0, none, 0, none, 0, 0, 0, handlers, sizeof handlers, &steps, &place);
    print_walked("handler at 1: ", answer, steps, place);
    /* The listed function with the same handlers: its own code has no instruction at 1 either. */
    answer = jscd_walk_with(marks, sizeof marks, f[0].bytes, f[0].length, f[1].bytes, f[1].length, f[2].bytes, f[2].length, f[3].bytes,
                            f[3].length, f[4].bytes, f[4].length, f[5].bytes, f[5].length, f[6].bytes, f[6].length, f[7].bytes,
                            f[7].length, 0, handlers, sizeof handlers, &steps, &place);
    print_walked("the function's: ", answer, steps, place);

    /* 64-byte records, as document 01 has them, and 72-byte records again. A table whose bytes 50 to 53 are not those of its names has no 64-byte form. */
    static uint8_t again[MOST];
    answer = jscd_to_old(out, sizeof out, f[0].bytes, f[0].length, f[1].bytes, f[1].length, &place);
    if (answer != JSCD_DONE) {
        printf("no 64-byte records: refused %d at %zu\n", answer, place);
        return 0;
    }
    size_t old = place;
    answer = jscd_to_new(again, sizeof again, out, old, f[1].bytes, f[1].length, &place);
    if (answer == JSCD_DONE)
        printf("opcodes in %zu bytes, and in %zu again: %s\n", old, place,
               place == f[0].length && !memcmp(again, f[0].bytes, place) ? "the same" : "others");
    return 0;
}
