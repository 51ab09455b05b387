/* The signal that the converters are fed. */
#ifndef WAVE_H
#define WAVE_H

#include "measure.h"
#include "resampler.h"

/* A triangle of some 90 samples with a little noise, at nine tenths of the range, or noise alone, large or small. */
static void fill(uint8_t *wave, size_t samples, int loud, int half)
{
    uint32_t seed = 1;
    uint32_t phase = 0;
    for (size_t i = 0; i < samples; i++) {
        phase += 47721859;
        int32_t ramp = (int32_t)(phase >> 15) - 65536;
        int32_t triangle = (ramp < 0 ? -ramp : ramp) - 32768;
        int32_t noise = (int32_t)draw(&seed) - 32768;
        resampler_put_sample(wave, i,
                             (int16_t)(loud ? noise : half ? noise / 256 : triangle * 7 / 8 + noise / 40));
    }
}

#endif
