/* Plays runs through the program's library and writes the words that they leave.
   In: runs as tools/oracle/src/batch.rs has them, four words each (row words, cell
   words, answer words, bytes), then the bytes. Out, for each: the run's five words,
   then the words of its rows, of its cells and of its answers. Slices are lent full
   of one odd word. */
#include <stdint.h>
#include <stdio.h>
#include <stdlib.h>

void run_derivations(const uint8_t *, size_t, uint32_t *, size_t, uint32_t *, size_t, uint32_t *,
                     size_t, uint32_t *, size_t);

static uint32_t *lent(size_t words)
{
    uint32_t *out = malloc((words + 1) * sizeof *out);
    if (!out)
        exit(1);
    for (size_t i = 0; i < words; i++)
        out[i] = 0xA5C396E1;
    return out;
}

int main(void)
{
    uint32_t head[4];
    while (fread(head, sizeof head, 1, stdin) == 1) {
        uint8_t *bytes = malloc(head[3] + 1);
        if (!bytes || fread(bytes, 1, head[3], stdin) != head[3])
            return 1;
        uint32_t *rows = lent(head[0]), *cells = lent(head[1]), *answers = lent(head[2]);
        uint32_t result[5];
        run_derivations(bytes, head[3], rows, head[0], cells, head[1], answers, head[2], result, 5);
        fwrite(result, sizeof *result, 5, stdout);
        fwrite(rows, sizeof *rows, (size_t)result[3] * 24, stdout);
        fwrite(cells, sizeof *cells, (size_t)result[4] * 8, stdout);
        fwrite(answers, sizeof *answers, (size_t)result[2] * 4, stdout);
        free(bytes), free(rows), free(cells), free(answers);
    }
    return 0;
}
