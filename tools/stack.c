/* How much stack a run takes. The run of standard input is played by the library, in a table of 50,000 rows, once at each nesting
   limit that is named, on a stack that is painted first; printed are the limit, the deepest nesting that was met, and how many bytes
   of the paint are gone.

     tools/library.sh
     cc -O2 -pthread -o target/stack tools/stack.c target/staticlib/libexports.a
     python3 tools/edges.py deep | target/stack 1 256 1024 2048 4096 */
#include <pthread.h>
#include <stddef.h>
#include <stdint.h>
#include <stdio.h>
#include <stdlib.h>
#include <string.h>
#include <sys/mman.h>

void run_derivations(const uint8_t *run, size_t run_len, uint32_t *rows, size_t rows_len, uint32_t *cells, size_t cells_len,
                     uint32_t *answers, size_t answers_len, uint32_t *result, size_t result_len);

enum { STACK = 64 << 20, ROWS = 24 * 50000, CELLS = 8 * 100000, ANSWERS = 4 * 8192, PAINT = 0xA5 };

static uint8_t run[65536];
static size_t length;
static uint32_t rows[ROWS], cells[CELLS], answers[ANSWERS], result[5];

static void *play(void *none) {
    run_derivations(run, length, rows, ROWS, cells, CELLS, answers, ANSWERS, result, 5);
    return none;
}

int main(int count, char **words) {
    length = fread(run, 1, sizeof run, stdin);
    uint8_t *stack = mmap(NULL, STACK, PROT_READ | PROT_WRITE, MAP_PRIVATE | MAP_ANONYMOUS, -1, 0);
    if (stack == MAP_FAILED || length < 2) return 2;
    for (int i = 1; i < count; i++) {
        int limit = atoi(words[i]);
        run[0] = limit % 256;
        run[1] = limit / 256;
        memset(stack, PAINT, STACK);
        pthread_attr_t attributes;
        pthread_t thread;
        pthread_attr_init(&attributes);
        if (pthread_attr_setstack(&attributes, stack, STACK) != 0) return 2;
        if (pthread_create(&thread, &attributes, play, NULL) != 0) return 2;
        pthread_join(thread, NULL);
        size_t free_bytes = 0;
        while (free_bytes < STACK && stack[free_bytes] == PAINT) free_bytes++;
        uint32_t deepest = 0;
        for (uint32_t call = 0; call < result[2]; call++)
            if (deepest < answers[4 * call + 3]) deepest = answers[4 * call + 3];
        printf("limit %d deepest %u stack %zu\n", limit, deepest, (size_t)STACK - free_bytes);
    }
    return 0;
}
