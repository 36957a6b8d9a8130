/* Runs inputs one by one: the files named, or standard input. */
#include <stdint.h>
#include <stdio.h>
#include <stdlib.h>

int LLVMFuzzerTestOneInput(const uint8_t *data, size_t size);

static int run(FILE *file) {
    static uint8_t bytes[1 << 20];
    if (!file) return perror("once"), 1;
    size_t size = fread(bytes, 1, sizeof bytes, file);
    return LLVMFuzzerTestOneInput(bytes, size);
}

int main(int count, char **names) {
    if (count == 1) return run(stdin);
    for (int i = 1; i < count; i++) {
        FILE *file = fopen(names[i], "rb");
        if (run(file)) return 1;
        fclose(file);
    }
    printf("%d inputs, every promise kept\n", count - 1);
    return 0;
}
