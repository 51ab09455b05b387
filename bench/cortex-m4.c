/* What runs on a bare Cortex-M4, for bench/other-processors: the vector table, and the driver of vectors/host with the
   options and sheets that no command line gives there. With COUNT, under qemu -icount shift=0, it counts instructions
   instead. newlib's `_start` sets the stack and clears the memory; files are read and lines printed by semihosting. */
#include "resampler.h"

#include <stdio.h>
#include <string.h>

extern char stack_top[];
void _start(void);

__attribute__((section(".vectors"), used)) static const void *const vectors[] = {stack_top, (const void *)_start};

#ifdef COUNT

/* The system timer counts down at 25 MHz, so that a tick is 40 ns, and an instruction takes 1 ns. */
enum { CONTROL, RELOAD, CURRENT, ON = 5, MOST_TICKS = 0xFFFFFF, INSTRUCTIONS_A_TICK = 40 };
#define TIMER ((volatile uint32_t *)0xE000E010)

/* Ticks of a feed of silence, at equal rates, from an image that needs all four samples. */
static uint32_t ticks(uint8_t kernel, size_t samples)
{
    static uint8_t input[8192], output[8192];
    uint8_t image[RESAMPLER_IMAGE_BYTES] = {kernel, RESAMPLER_WINDOW};
    uint64_t word = RESAMPLER_WORD_ONE;
    memcpy(image + RESAMPLER_AT_WORD, &word, sizeof word);
    uint32_t before = TIMER[CURRENT];
    resampler_feed(image, sizeof image, input, 2 * samples, output, sizeof output);
    return (before - TIMER[CURRENT]) & MOST_TICKS;
}

int main(void)
{
    TIMER[RELOAD] = MOST_TICKS;
    TIMER[CURRENT] = 0;
    TIMER[CONTROL] = ON;
    for (uint8_t kernel = 0; kernel < 4; kernel++) {
        uint32_t more = ticks(kernel, 4000) - ticks(kernel, 1000);
        printf("kernel %d: %.0f instructions an output\n", kernel, (double)more * INSTRUCTIONS_A_TICK / 3000);
    }
    return 0;
}

#else

int replay_main(int argc, char **argv);

int main(void)
{
    static char *arguments[] = {"replay", "--quiet", "--feeds-only",
#include "sheets.inc"
                                NULL};
    return replay_main(sizeof arguments / sizeof *arguments - 1, arguments);
}

#endif
