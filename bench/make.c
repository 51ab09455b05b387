/* Writes a K line and D lines with drawn samples to standard output.
   usage: make KERNEL WORD COUNT LINES, WORD in hexadecimal */
#include <stdint.h>
#include <stdio.h>
#include <stdlib.h>

static uint64_t seed = 1;

static unsigned draw(void)
{
    seed = seed * 6364136223846793005u + 1442695040888963407u;
    return (unsigned)(seed >> 48);
}

int main(int argc, char **argv)
{
    if (argc != 5)
        return 2;
    unsigned count = (unsigned)atoi(argv[3]);
    unsigned long lines = strtoul(argv[4], NULL, 10);
    printf("K%X%09llX%08X\n", (unsigned)atoi(argv[1]), strtoull(argv[2], NULL, 16), 0u);
    for (unsigned long i = 0; i < lines; i++) {
        unsigned sequence = (unsigned)i, sum = count;
        for (int shift = 0; shift < 32; shift += 8)
            sum += sequence >> shift & 255;
        printf("D%08X%02X", sequence, count);
        for (unsigned k = 0; k < count; k++) {
            unsigned v = draw();
            sum += (v >> 8) + (v & 255);
            printf("%04X", v);
        }
        printf("%02X\n", -sum & 255);
    }
    return 0;
}
