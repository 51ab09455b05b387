#!/usr/bin/env -S python3 -B
"""The spectrum of a tone that the four kernels resampled, as a picture. Runs cell by cell, or as a script:

    python/spectrum.py [FILE.svg]        target/spectrum.svg if it is not given

The picture is drawn with the repository's tools/charts.py."""
# %% What is needed
import sys
from array import array
from cmath import exp as turned
from math import cos, log10, pi, sin
from pathlib import Path

ROOT = Path(__file__).resolve().parent.parent
sys.path[1:1] = [str(ROOT / "python"), str(ROOT / "tools")]
from charts import BOLD, GREY, INK, Chart, Page, Style
from resampler import Converter, Kernel

# %% A tone. Frequencies are in cycles per input sample. There are sixteen outputs to a sample, so the spectrum reaches to 8, and the images
# at m - f and m + f that are shown, below 2, stand where they are; what folds back on them is low. The tone and its images lie on bins.
SIZE, TIMES, SHOWN, HEIGHT, BIN = 32768, 16, 2, 30000, 205
TONE = BIN * TIMES / SIZE
IMAGES = [("1 \u2212 f", 1 - TONE), ("1 + f", 1 + TONE), ("2 \u2212 f", 2 - TONE)]
samples = array("h", [round(HEIGHT * sin(2 * pi * TONE * i + 0.3)) for i in range(SIZE // TIMES + 8)])

# %% Resample it. The first outputs read a zero before the first sample, and are left out.
outputs = {kernel: Converter(kernel, rates=(1, TIMES)).feed(samples)[2 * TIMES:2 * TIMES + SIZE] for kernel in Kernel}

# %% The spectrum: a Blackman-Harris window, and a Fourier transform by halves.
window = [0.35875 - 0.48829 * cos(a) + 0.14128 * cos(2 * a) - 0.01168 * cos(3 * a) for a in (2 * pi * i / SIZE for i in range(SIZE))]

def transform(values):
    if len(values) == 1:
        return values
    even, odd, step = transform(values[::2]), transform(values[1::2]), -2j * pi / len(values)
    odd = [turned(step * k) * value for k, value in enumerate(odd)]
    return [a + b for a, b in zip(even, odd)] + [a - b for a, b in zip(even, odd)]

def spectrum(values):  # the level of each bin in decibels; 0 is the tone as it came in
    scale = 2 / sum(window) / HEIGHT
    return [20 * log10(max(abs(bin) * scale, 1e-9)) for bin in transform([w * v for w, v in zip(window, values)])[:SIZE // 2]]

levels = {kernel: spectrum(values) for kernel, values in outputs.items()}

def level_at(kernel, frequency):
    return levels[kernel][round(frequency * SIZE / TIMES)]

# %% The levels of the tone and of its images. docs/GUIDE.md has those of f and 1 - f at 0.1, from the impulse responses.
print(f"level in dB    {'f':>7}" + "".join(f"{name:>9}" for name, _ in IMAGES).replace("\u2212", "-"))
for kernel in Kernel:
    print(f"{kernel.name.lower():<15}{level_at(kernel, TONE):7.2f}" + "".join(f"{level_at(kernel, f):9.1f}" for _, f in IMAGES))

# %% The picture: a chart for each kernel. Of the bins under one dot of the picture the highest is drawn.
COLOURS = {Kernel.LINEAR: "#D55E00", Kernel.THREE_POINT: "#0072B2", Kernel.PARABOLIC: "#009E73", Kernel.CUBIC: "#AA3377"}
DOT = 8                                            # bins

def drawn(values):
    return [(TIMES * (i + DOT / 2) / SIZE, max(values[i:i + DOT])) for i in range(0, int((SHOWN + 0.1) * SIZE / TIMES), DOT)]

def picture():
    page = Page(930, 710, "Spectrum of a resampled tone")
    page.text(70, 24, f"A tone at f = {TONE:.4f} cycles per input sample, resampled to {TIMES} times the rate", more=BOLD)
    tone, image = Style("the tone", INK, shape="diamond"), Style("its images at m \u2212 f and m + f, with their levels in dB", INK)
    page.legend(46, 46, [tone], mark=True)
    page.legend(156, 46, [image], mark=True, hollow=True)
    page.legend(548, 46, [Style("spectrum of the outputs, each kernel its colour", GREY)])
    for kernel in Kernel:
        left, top = 70 + 455 * (kernel % 2), 90 + 324 * (kernel // 2)
        chart = Chart(page, (left, top, 390, 240), (0, SHOWN + 0.08), (-140, 12), (0, SHOWN, 0.25), (-140, 0, 20),
                      "frequency, in cycles per input sample", "" if kernel % 2 else "level, in dB of the tone")
        page.text(left, top - 8, f"{int(kernel)} {kernel.name.lower().replace('_', '-')}", more=BOLD)
        chart.curve(drawn(levels[kernel]), Style("", COLOURS[kernel], width=0.9))
        for name, frequency in [("f", TONE)] + IMAGES:
            first, level = name == "f", level_at(kernel, frequency)
            style, across, down, anchor = (tone, 8, 16, "start") if first else (image, -4 if frequency < 1 else 4, -24, "middle")
            x, y = chart.at(frequency, level)
            page.mark(x, y, style, 3.6, not first)
            page.text(x + across, y + down, name, anchor)
            page.text(x + across, y + down + 14, f"{level:.{2 if first else 1}f}".replace("-", "\u2212"), anchor)
    return page.svg()

given = sys.argv[1:] if __name__ == "__main__" and sys.argv[0].endswith("spectrum.py") else []
if len(given) > 1 or given and given[0].startswith("-"):
    sys.exit("usage: python/spectrum.py [FILE.svg]")
target = Path(given[0]) if given else ROOT / "target/spectrum.svg"
target.parent.mkdir(parents=True, exist_ok=True)
target.write_text(picture(), encoding="utf-8")
print(f"{target.name} written")
