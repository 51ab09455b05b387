#!/usr/bin/env -S python3 -B
"""Resamples a WAV file of 16-bit samples, 1 to 16 channels, and says how far the outputs lie from the exact interpolant.

    python/resample_wav.py IN.wav OUT.wav --rate 48000
    python/resample_wav.py OUT.wav --tone 1000 --rate 48000     a sine of one second in the place of IN.wav

Every channel is a lane. The last sample is fed again until there are as many outputs as the input lasts. Printed are the
clips, and the largest and the RMS distance from the exact interpolant, which is worked out in whole numbers at the full 32-bit fraction,
and held to 16 bits. Beside it stands the proved bound 1/2 + D/K; an output above its own bound is an error. Of a tone the
signal-to-noise ratio against the true sine is printed too, over outputs that read neither zeros before the first sample nor copies of the
last."""
import argparse
import sys
import wave
from array import array
from math import log10, pi, sin, sqrt

from resampler import MOST_LANES, WORD_ONE, Kernel, Lanes, Refused

HEIGHT, TONE_RATE = 30000, 44100  # of the tone, which has as many samples as its rate: one second

def tone(hertz, position):
    return HEIGHT * sin(2 * pi * hertz * position / TONE_RATE)

def read(path):  # the rate, and an array of samples for each channel
    with wave.open(path, "rb") as file:
        channels, width = file.getnchannels(), file.getsampwidth()
        if width != 2:
            raise ValueError(f"{path} has samples of {8 * width} bits; the converter takes 16")
        if channels > MOST_LANES:
            raise ValueError(f"{path} has {channels} channels; lanes are at most {MOST_LANES}")
        samples = array("h", file.readframes(file.getnframes()))
        return file.getframerate(), [samples[channel::channels] for channel in range(channels)]

def write(path, rate, parts):
    together = array("h", (0,)) * (len(parts) * len(parts[0]))
    for channel, outputs in enumerate(parts):
        together[channel::len(parts)] = outputs
    with wave.open(path, "wb") as file:
        file.setnchannels(len(parts))
        file.setsampwidth(2)
        file.setframerate(rate)
        file.writeframes(together.tobytes())

def base(kernel, position):  # the basepoint of a position in 2^-32 of a sample
    return (position + (WORD_ONE // 2 if kernel == Kernel.THREE_POINT else 0)) // WORD_ONE

def exact(kernel, xm, x0, x1, x2, f):  # the kernel's value at u = f / 2^32, held; a whole number, times a unit; and that unit
    denominator, *columns = [
        (1, x0, x1 - x0),
        (2, 2 * x0, x1 - xm, x1 - 2 * x0 + xm),
        (2, 2 * x0, -x2 + 3 * x1 - x0 - xm, x2 - x1 - x0 + xm),
        (6, 6 * x0, -x2 + 6 * x1 - 3 * x0 - 2 * xm, 3 * (x1 - 2 * x0 + xm), x2 - 3 * x1 + 3 * x0 - xm)][kernel]
    unit = denominator * WORD_ONE**3
    value = sum(column * f**power * WORD_ONE**(3 - power) for power, column in enumerate(columns))
    return max(-32768 * unit, min(32767 * unit, value)), unit

def distances(kernel, word, samples, outputs):  # of each output its distance from the exact value, and D
    first, last = (0 if kernel == Kernel.LINEAR else -1), kernel.reach  # the samples that it reads, from the basepoint on
    padded = array("h", [0]) + samples + array("h", [0, 0])             # the zeros behind are read by no output
    for k, output in enumerate(outputs):
        b = base(kernel, k * word)
        used = padded[b:b + 4]                                          # xm, x0, x1, x2
        jump = max(abs(used[i + 2] - used[i + 1]) for i in range(first, last))
        value, unit = exact(kernel, *used, k * word - b * WORD_ONE)
        distance = abs(output * unit - value)
        if 2 * kernel.bound * distance > (kernel.bound + 2 * jump) * unit:
            raise ArithmeticError(f"output {k} lies further than 1/2 + D/K from the exact value")
        yield distance / unit, jump

def signal_to_noise(kernel, word, hertz, count, outputs):  # in decibels
    wanted = [(tone(hertz, k * word / WORD_ONE), y) for k, y in enumerate(outputs)
              if k * word >= WORD_ONE and base(kernel, k * word) + kernel.reach < count]
    noise = sum((y - true) ** 2 for true, y in wanted)
    return 10 * log10(sum(true * true for true, _ in wanted) / noise) if noise else float("inf")

def main():
    parser = argparse.ArgumentParser(description=__doc__, formatter_class=argparse.RawDescriptionHelpFormatter)
    parser.add_argument("files", nargs="+", metavar="FILE", help="IN.wav and OUT.wav; with --tone OUT.wav alone")
    parser.add_argument("--rate", type=int, required=True, help="output rate, hertz")
    parser.add_argument("--kernel", choices=[kernel.name.lower() for kernel in Kernel], default="cubic")
    parser.add_argument("--tone", type=float, metavar="HZ", help=f"resample a sine at {TONE_RATE} hertz instead of a file")
    parser.add_argument("--measure", type=int, default=20000, metavar="N", help="outputs of each channel to measure (20000)")
    options = parser.parse_intermixed_args()
    if len(options.files) != (2 if options.tone is None else 1):
        parser.error("IN.wav and OUT.wav are wanted, and with --tone OUT.wav alone")
    kernel = Kernel[options.kernel.upper()]

    rate, parts = read(options.files[0]) if options.tone is None else (
        TONE_RATE, [array("h", [round(tone(options.tone, i)) for i in range(TONE_RATE)])])
    count = len(parts[0])
    try:
        lanes = Lanes(len(parts), kernel, rates=(rate, options.rate))
    except (Refused, OverflowError) as why:
        raise ValueError(f"from {rate} to {options.rate} Hz: the input rate may be at most 4 times the output rate ({why})") from why
    if options.rate < rate:
        print("warning: there is no anti-alias filter: what lies above half the output rate folds back", file=sys.stderr)

    wanted = -(-count * options.rate // rate)              # as many as the input lasts, by the rates; the word is rounded
    more = max(0, lanes.samples_for(wanted) - count)       # copies of the last sample that they need
    given = [samples + samples[-1:] * more for samples in parts]
    made = [outputs[:wanted] for outputs in lanes.feed(given)]  # what is cut off stands by a copy, and is no clip
    write(options.files[-1], options.rate, made)

    print(f"{count} samples at {rate} Hz, {len(parts)} channel{'s' * (len(parts) > 1)}, and {more} copies of the last")
    print(f"{wanted} outputs at {options.rate} Hz, kernel {options.kernel}, word {lanes.word}")
    for channel, outputs in enumerate(made):
        print(f"channel {channel}: {lanes.total_high[channel]} high clips, {lanes.total_low[channel]} low clips")
        found = list(distances(kernel, lanes.word, given[channel], outputs[:options.measure]))
        if found:
            part = f"the first {len(found)} outputs" if len(found) < len(outputs) else "all outputs"
            rms, (largest, _), jump = sqrt(sum(d * d for d, _ in found) / len(found)), max(found), max(jump for _, jump in found)
            print(f"channel {channel}: distance from the exact interpolant, {part}: largest {largest:.4f}, RMS {rms:.4f}; "
                  f"bound 1/2 + D/K {0.5 + jump / kernel.bound:.4f}, D {jump}")
        if options.tone is not None:
            print(f"channel {channel}: signal-to-noise ratio {signal_to_noise(kernel, lanes.word, options.tone, count, outputs):.1f} dB")

if __name__ == "__main__":
    try:
        main()
    except (ValueError, OSError, EOFError, wave.Error) as why:
        sys.exit(f"resample_wav: {why}")
