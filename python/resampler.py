"""A 16-bit sample-rate converter: libresampler, called from Python by ctypes.

    >>> from array import array
    >>> from resampler import Converter, Kernel
    >>> converter = Converter(Kernel.LINEAR, rates=(24000, 48000))
    >>> converter.feed(array("h", [0, 100, 40]))
    array('h', [0, 50, 100, 70])
    >>> converter.feed(array("h", [20]))                # the stream goes on
    array('h', [40, 30])

What it is. A converter reads 16-bit samples at one rate and writes 16-bit outputs at another. Each output has a position between the
samples, and a kernel interpolates there. The word is input rate / output rate times 2^32, from 1 to 2^34, so there are at most four
samples to an output. An output is the kernel's exact value, rounded once, halves to the even neighbour, and held to -32768..32767; an
output that had to be held is a clip. docs/GUIDE.md has pictures and measurements.

    kernel        reads samples   delay in samples   never clips within   K
    LINEAR        b, b + 1        over 0, to 1       full range           16384
    THREE_POINT   b - 1 .. b + 1  over 1/2, to 3/2   -26213..26213        16384
    PARABOLIC     b - 1 .. b + 2  over 1, to 2       -21844..21844        8192
    CUBIC         b - 1 .. b + 2  over 1, to 2       -26213..26213        12288

Take CUBIC unless there is a reason. An output lies at most 1/2 + D/K counts from the exact interpolant, where D is the largest jump
between neighbouring samples that it reads, zeros before the first included.

There is no anti-alias filter. Where the output rate is lower, filter the input to less than half of it first; where it is higher, images
of the input are taken down only by the kernel.

What is proved, and what is not. The C calls are proved: what each returns and leaves in every buffer. This module is plain Python, which
checks arguments and hands them on; it is tested against the sheets in vectors/host. It needs CPython 3.8 or later on x86-64 Linux.

Samples. Every argument called `samples`, `output` or `line` may be any object with the buffer protocol, in one piece (C-contiguous), of
one dimension, with 16-bit items with sign (`array('h')`, NumPy int16) or with bytes, two to a sample, the low one first (`bytes`,
`bytearray`, NumPy uint8, memoryviews of these). Other items are a TypeError: nothing is converted or taken for something else. A call
uses the buffers where they lie, read-only ones too, and copies nothing. Where a method copies, its docstring says so.

Blocks. How a stream is cut into blocks does not change the outputs. `feed` takes a block of any length and returns all its outputs.
`feed_into` is one C call, of at most 65,536 bytes of samples and of output, into a buffer of the caller's:

    >>> output = array("h", [0] * 3)
    >>> converter.feed_into(array("h", [60, 60, 60]), output)
    Fed(taken=2, written=3, clips=0, full=True)
    >>> output
    array('h', [20, 40, 60])
    >>> converter.outputs_for(1)                         # what a feed of one more sample gives: an output is due
    3

FULL says that the output is all written and another is due: call again with new space, and with the samples that were not taken. Else it
ended HUNGRY: all the samples were taken. At the end of a stream outputs still wait for one or two samples that do not come; to get them
feed the last sample again, as many times as `samples_for` says (resample_wav.py does so).

Errors. A refused call changes no byte, and raises `Refused`, a ValueError with the `number` of the refusal, the `call` and the `text`:

    >>> converter.feed_into(b"odd", output)
    Traceback (most recent call last):
    resampler.Refused: feed: refusal 12, sample buffer of odd length or above 65,536 bytes, or queue buffer of odd length
    >>> converter.retune(word=2**64)
    Traceback (most recent call last):
    OverflowError: retune_word: 18446744073709551616 does not fit 64 bits without sign

A number that does not fit the type in C is an OverflowError, buffers of one call that overlap are a ValueError.

Saving. The image, 40 bytes, is all that there is of a converter. `image` gives it, `Converter.from_image` goes on from it, and pickling
and copying use it. Samples that were not taken are not in it.

    >>> import pickle
    >>> again = pickle.loads(pickle.dumps(converter))
    >>> again == converter, again.feed(b"\\x00\\x00") == converter.feed(b"\\x00\\x00")
    (True, True)

Threads. The library has no state of its own, and ctypes lets other threads run during a call. So several threads may convert at once,
each with objects and output buffers of its own. No two threads may use one object at the same time, or change a buffer that a call reads.

Further: `Lanes` are up to sixteen signals on one clock, `Queue` stores bursts before a converter, `write_start`, `write_data`,
`read_start`, `read_data` and `LineReader` are for frame lines, and `call` makes any of the C calls. include/resampler.h says what each
call does.

The library is found by the first of these: RESAMPLER_LIBRARY, a path in the environment; libresampler.so.1 in the folder above this
file's, where ./install puts it; target/install/lib of the repository; the system's loader. `LIBRARY` says which it was."""
import ctypes
import operator
import os
from array import array
from enum import IntEnum
from pathlib import Path
from struct import pack_into, unpack_from
from typing import NamedTuple

__all__ = ["CALLS", "LARGEST", "LARGEST_WORD", "LIBRARY", "MOST_LANES", "MOST_SAMPLES", "REFUSALS", "WORD_ONE", "Converter", "Data", "Fed",
           "Kernel", "Lanes", "LineReader", "Queue", "Refused", "Start", "call", "most_outputs", "read_data", "read_start", "write_data",
           "write_start"]

WORD_ONE, LARGEST_WORD = 2**32, 2**34   # equal rates, and four samples to an output
LARGEST = 32768                         # samples, and outputs, of one call
MOST_LANES, MOST_SAMPLES = 16, 64       # lanes of an image, and samples of a D line
IMAGE_BYTES, LANES_BYTES, MARKS_BYTES, START_LINE_BYTES = 40, 288, 8, 20
LANE_WINDOWS, LANE_CLIPS = 40, 160      # where an image of lanes has the windows of lanes 1 to 15, and the clips of lanes 0 to 15

class Kernel(IntEnum):
    LINEAR, THREE_POINT, PARABOLIC, CUBIC = range(4)
    reach = property(lambda self: (1, 1, 2, 2)[self], doc="R, how many samples past the basepoint it reads")
    bound = property(lambda self: (16384, 16384, 8192, 12288)[self], doc="K of the proved bound 1/2 + D/K")

REFUSALS = {
    1: "kernel above 3",
    2: "ratio not finite, or below zero",
    3: "output rate 0",
    4: "word 0 or above 2^34: input rate next to 0, or above 4 times the output rate",
    5: "image not started; image, frame or marks of another length or out of range; or queue buffer above 16,384 samples",
    6: "no byte 10 in the first 270 bytes, or in those that were lent",
    7: "first letter not the one called for, or line empty",
    8: "another character than 0-9, A-F after the letter",
    9: "K line not of 18 digits, or D line under 12, count 0 or above 64, or not 12 + 4 times count",
    10: "check of the line fails",
    11: "sample buffer shorter than the count",
    12: "sample buffer of odd length or above 65,536 bytes, or queue buffer of odd length",
    13: "lane count 0 or above 16, or samples of input or places of output not a multiple of it",
    14: "no samples to write, or above 64, or line buffer shorter than the line",
    15: "sequence number not the next",
    16: "samples held and samples offered together more than the queue buffer has"}

class Refused(ValueError):
    """A call that the library refused. It changed no byte of any buffer."""
    def __init__(self, number, call):
        super().__init__(number, call)
        self.number, self.call, self.text = number, call, REFUSALS[number]
    def __str__(self):
        return f"{self.call}: refusal {self.number}, {self.text}"

# ---- the library
# The arguments of each call: R a buffer that is read, W one that may be written, each a pointer and a length in C; I and Q a number of 32
# and of 64 bits, d a float.
CALLS = {
    "start_word": "WIQI", "start_ratio": "WIdI", "start_rates": "WIIII",
    "start_lanes_word": "WIQI", "start_lanes_ratio": "WIdI", "start_lanes_rates": "WIIII",
    "retune_word": "WQ", "retune_ratio": "Wd", "retune_rates": "WII",
    "feed": "WRW", "feed_lanes": "WIRW", "push": "WWR", "draw": "WWRW",
    "write_data": "IRW", "write_start": "IQIW", "read_data": "RWW", "read_start": "RW"}
_BITS = {"I": 32, "Q": 64}
_TYPES = {"R": [ctypes.c_void_p, ctypes.c_size_t], "W": [ctypes.c_void_p, ctypes.c_size_t],
          "I": [ctypes.c_uint32], "Q": [ctypes.c_uint64], "d": [ctypes.c_double]}

def _load():
    name, above = "libresampler.so.1", Path(__file__).resolve().parent.parent
    path = os.environ.get("RESAMPLER_LIBRARY")
    if path:
        path = os.path.abspath(path)
    else:
        path = next((str(place) for place in (above / name, above / "target/install/lib" / name) if place.exists()), name)
    try:
        library = ctypes.CDLL(path)
        calls = {call: getattr(library, f"resampler_{call}") for call in CALLS}
    except (OSError, AttributeError) as why:
        raise ImportError(f"no converter library: {why}. ./install in the repository makes libresampler.so.1; "
                          f"the environment's RESAMPLER_LIBRARY may give the path of another") from why
    for call, kinds in CALLS.items():
        calls[call].argtypes, calls[call].restype = [t for kind in kinds for t in _TYPES[kind]], ctypes.c_uint32
    return path, calls

LIBRARY, _calls = _load()

class _Lent(ctypes.Structure):  # Python's own Py_buffer: where the bytes of an object lie; held until it is released
    _fields_ = [("address", ctypes.c_void_p), ("owner", ctypes.c_void_p), ("length", ctypes.c_ssize_t), ("itemsize", ctypes.c_ssize_t),
                ("readonly", ctypes.c_int), ("ndim", ctypes.c_int)] + [(name, ctypes.c_void_p) for name in (
                    "format", "shape", "strides", "suboffsets", "internal")]

_python = ctypes.PyDLL(None)
_python.PyObject_GetBuffer.argtypes = [ctypes.py_object, ctypes.POINTER(_Lent), ctypes.c_int]
_python.PyBuffer_Release.argtypes, _python.PyBuffer_Release.restype = [ctypes.POINTER(_Lent)], None

def _view(data, rows=None):  # a memoryview of samples or bytes; of two dimensions only where the first has so many rows
    try:
        view = memoryview(data)
    except TypeError:
        raise TypeError(f"samples are array('h', ..), bytes or another buffer, and no {type(data).__name__}") from None
    if view.format.lstrip("@=<") not in ("h", "B", "c"):
        raise TypeError(f"16-bit samples with sign are wanted, or bytes, and not items of the format {view.format!r}")
    if not view.c_contiguous:
        raise ValueError("the buffer is not in one piece (not C-contiguous); make a copy of it that is")
    if view.ndim == 2 and view.shape[0] == rows:
        return view.cast("B")
    if view.ndim != 1:
        raise TypeError(f"a buffer of one dimension is wanted, and not of shape {view.shape}")
    return view

def _lend(data, written):
    view, lent = _view(data), _Lent()
    if written and view.readonly:
        raise TypeError("the call writes this buffer, and it is read-only")
    _python.PyObject_GetBuffer(view, lent, written)
    return lent

def _number(name, kind, value):
    if kind == "d":
        return ctypes.c_double(value)
    number = operator.index(value)
    if not 0 <= number < 1 << _BITS[kind]:
        raise OverflowError(f"{name}: {number} does not fit {_BITS[kind]} bits without sign")
    return number

def call(name, *arguments):
    """Makes one C call, by its name without resampler_, with its arguments in C's order, a buffer being one argument. CALLS has them.
    Raises Refused where it is refused.

    >>> image = bytearray(40)
    >>> call("start_word", image, Kernel.CUBIC, WORD_ONE, 0)
    >>> bytes(image[:8]).hex()
    '0303000000000000'
    """
    kinds, values, lent = CALLS[name], [], []
    if len(arguments) != len(kinds):
        raise TypeError(f"{name} takes {len(kinds)} arguments, where a buffer is one, and not {len(arguments)}")
    try:
        for kind, argument in zip(kinds, arguments):
            if kind in "RW":
                lent.append(_lend(argument, kind == "W"))
                values += lent[-1].address, lent[-1].length  # the address of an empty buffer may be null
            else:
                values.append(_number(name, kind, argument))
        places = sorted((buffer.address, buffer.length) for buffer in lent if buffer.length)
        if any(here + length > there for (here, length), (there, _) in zip(places, places[1:])):
            raise ValueError(f"{name}: buffers overlap")
        refusal = _calls[name](*values)
    finally:
        for buffer in lent:
            _python.PyBuffer_Release(buffer)
    if refusal:
        raise Refused(refusal, name)

# ---- converters
class Fed(NamedTuple):
    """What a feed or a draw did, or several together. Of lanes, taken and written are those of each lane, and the clips those of all."""
    taken: int    # samples
    written: int  # outputs
    clips: int    # outputs that were held, high and low together
    full: bool    # it ended FULL: another output is due. Else it ended HUNGRY: all the samples were taken

def _setting(word, ratio, rates):  # the name of the one that is given, and its numbers
    given = [(name, value) for name, value in (("word", word), ("ratio", ratio), ("rates", rates)) if value is not None]
    if len(given) != 1:
        raise TypeError("exactly one of word=, ratio= and rates= is wanted")
    name, value = given[0]
    if name != "rates":
        return name, (value,)
    fin, fout = value
    return name, (fin, fout)

def _field(layout, at, doc):
    return property(lambda self: unpack_from(layout, self._image, at)[0], doc=doc)

def most_outputs(word, samples):
    """The most outputs of a feed of so many samples at a word, whatever else a converter holds: (samples + 1) times 2^32 / word, rounded
    up. This much space is enough; how many outputs the next feed has exactly tells outputs_for."""
    return -(-(samples + 1) * WORD_ONE // word)

class _Image:  # what Converter and Lanes share; `totals` is what all the calls since the start did together
    needed = _field("<B", 1, "Samples still needed before the next output, 0 to 4.")
    register = _field("<I", 4, "The next output's position in 2^-32 of a sample, modulo 2^32.")
    word = _field("<Q", 8, "Input rate / output rate times 2^32.")
    taken = _field("<I", 24, "Samples taken by the last call.")
    written = _field("<I", 28, "Outputs written by the last call.")
    full = property(lambda self: unpack_from("<I", self._image, 36)[0] == 1, doc="Whether the last call ended FULL.")
    hungry = property(lambda self: not self.full, doc="Whether the last call ended HUNGRY.")
    kernel = property(lambda self: Kernel(self._image[0]), doc="The kernel.")
    image = property(lambda self: bytes(self._image), doc="The image: all that there is, to store and to go on from.")

    def start(self, kernel, *, word=None, ratio=None, rates=None, phase=0):
        """Starts anew, with a kernel and one of: word=, 1 to 2^34; ratio=, a float, input rate / output rate; rates=, a pair of whole
        numbers, input rate and output rate. The phase is the first output's position, in 2^-32 of a sample. A ratio or rates are rounded
        to a word, halves upward."""
        name, numbers = _setting(word, ratio, rates)
        image = bytearray(self._bytes)
        call(self._start + name, image, kernel, *numbers, phase)
        self._adopt(image)

    def retune(self, *, word=None, ratio=None, rates=None):
        """Sets another word, by one of the three. The next output stays where it was due; the one after it lies the new word further on."""
        name, numbers = _setting(word, ratio, rates)
        call(f"retune_{name}", memoryview(self._image)[:IMAGE_BYTES], *numbers)

    def _ahead(self):  # the next output's position less its basepoint and, for the three-point kernel, a half more; in 2^-32 of a sample
        return (self.register + (WORD_ONE // 2 if self.kernel == Kernel.THREE_POINT else 0)) % WORD_ONE

    def outputs_for(self, samples):
        """How many outputs a feed of so many samples gives, exactly, if it has the space. Of lanes, how many of each."""
        return max(0, -((self._ahead() - (samples + 1 - self.needed) * WORD_ONE) // self.word))

    def samples_for(self, outputs=1):
        """How many samples, of each lane, it takes to so many more outputs."""
        return self.needed + (self._ahead() + (outputs - 1) * self.word) // WORD_ONE if outputs > 0 else 0

    @property
    def delay(self):
        """How many sample periods after its position the next output can be written, where samples come one by one: R - u."""
        before = self.kernel == Kernel.THREE_POINT and self.register >= WORD_ONE // 2  # the position lies before the basepoint
        return self.kernel.reach + before - self.register / WORD_ONE

    def _adopt(self, image):  # its feed of nothing is refused with 5 where it is no image, with 13 where it has not so many lanes
        self._feed(bytearray(image), b"", bytearray())
        self._image, self.totals = bytearray(image), Fed(0, 0, 0, False)

    def _done(self):  # what the last call did, which is added to the totals
        fed = Fed(self.taken, self.written, self.clips, self.full)
        self.totals = Fed(*map(operator.add, self.totals[:3], fed), fed.full)
        return fed

    def __reduce__(self):
        return type(self).from_image, self._saved(), {name: value for name, value in vars(self).items() if name != "_image"}

    def __eq__(self, other):
        return self._state() == other._state() if type(self) is type(other) else NotImplemented
    __hash__ = None

    def __repr__(self):
        return f"<{type(self).__name__}: {self.kernel.name}, word {self.word}, register {self.register}, needed {self.needed}>"

def _finished(fed, left):  # whether a call was the last one that the samples left before it need
    if not fed.taken and not fed.written and (left or fed.full):
        raise RuntimeError("something else has changed the converter or the queue meanwhile")
    return fed.taken == left and not fed.full

def _collected(converter, count, step):  # all the outputs of so many samples; step(at, space) is one call from sample `at` on
    outputs, at, made = array("h", (0,)) * converter.outputs_for(count), 0, 0
    with memoryview(outputs) as space:
        while True:
            fed = step(at, space[made:made + LARGEST])
            if _finished(fed, count - at):
                return outputs
            at, made = at + fed.taken, made + fed.written

class Converter(_Image):
    """One signal's converter: Converter(Kernel.CUBIC, rates=(44100, 48000)), or word= or ratio=, and phase=, as `start` has them.

    taken, written, clips, full and hungry tell of the last C call; `totals` of all since the start. Two converters are equal if what
    decides their further outputs is: kernel, word, register, needed count and window."""
    _start, _bytes = "start_", IMAGE_BYTES
    clips = _field("<I", 32, "Clips of the last call, high and low together.")
    window = property(lambda self: unpack_from("<4h", self._image, 16), doc="The newest four samples taken, oldest first.")

    def __init__(self, kernel, **setting):
        self.start(kernel, **setting)

    @classmethod
    def from_image(cls, image):
        """A converter that goes on from an image, of which it takes a copy. Refused with 5 where no call would accept it."""
        self = cls.__new__(cls)
        self._adopt(image)
        return self

    def feed_into(self, samples, output):
        """One C call: takes samples and writes outputs, until the samples or the space are spent. Nothing is copied. Returns Fed."""
        self._feed(self._image, samples, output)
        return self._done()

    def feed(self, samples):
        """Takes a block of any length, in as many calls as it needs, and returns all its outputs as array('h'). The samples are not
        copied. The array has its length by the proved law of how many outputs there are; at small words that are up to 2^32 / word for
        a sample, and feed_into has them in parts."""
        view = _view(samples)
        if view.nbytes % 2:
            self.feed_into(view, bytearray())  # refused with 12, before anything is taken
        pair = 2 // view.itemsize
        return _collected(self, view.nbytes // 2, lambda at, space: self.feed_into(view[pair * at:pair * (at + LARGEST)], space))

    def _feed(self, image, samples, output):
        call("feed", image, samples, output)
    def _saved(self):
        return (self.image,)
    def _state(self):
        return self._image[:24]

class Lanes(_Image):
    """Up to sixteen signals on one clock, with one image: Lanes(3, Kernel.CUBIC, rates=(44100, 48000)), or word= or ratio=, and phase=.
    Each lane gives what a converter of its own would. `lanes` is how many there are, in every feed of this object.

    >>> pair = Lanes(2, Kernel.CUBIC, rates=(24000, 48000))
    >>> pair.feed([array("h", [0, 0, 0, 32767, 32767]), array("h", [0, 0, 0, -32768, -32768])])
    [array('h', [0, 0, 0, -2048, 0, 16384]), array('h', [0, 0, 0, 2048, 0, -16384])]
    >>> pair.feed([array("h", [32767]), array("h", [-32768])]), pair.high, pair.low
    ([array('h', [32767, 32767]), array('h', [-32768, -32768])], (1, 0), (0, 1))

    high and low tell of the last C call, total_high and total_low of all since the start."""
    _start, _bytes = "start_lanes_", LANES_BYTES
    clips = property(lambda self: sum(self.high + self.low), doc="Clips of the last call in all lanes, high and low together.")
    high = property(lambda self: self._counts(0), doc="High clips of each lane in the last call.")
    low = property(lambda self: self._counts(4), doc="Low clips of each lane in the last call.")

    def __init__(self, lanes, kernel, **setting):
        self.lanes = lanes
        self.start(kernel, **setting)

    @classmethod
    def from_image(cls, image, lanes):
        """So many lanes that go on from an image of lanes, of which it takes a copy. Refused with 5 where no call would accept it."""
        self = cls.__new__(cls)
        self.lanes = lanes
        self._adopt(image)
        return self

    @classmethod
    def from_converter(cls, converter):
        """One lane that goes on where the converter is, for a signal of which both counts of clips are wanted."""
        self = cls(1, converter.kernel, word=converter.word)
        self._image[:IMAGE_BYTES] = converter.image
        return self

    def converter(self, lane):
        """A converter that goes on where the lane is."""
        image = self._image[:IMAGE_BYTES]
        pack_into("<4h", image, 16, *self.window(lane))
        pack_into("<I", image, 32, self.high[lane] + self.low[lane])
        return Converter.from_image(image)

    def window(self, lane):
        """The newest four samples that the lane has taken, oldest first."""
        at = range(self.lanes)[lane]
        return unpack_from("<4h", self._image, LANE_WINDOWS + 8 * (at - 1) if at else 16)

    def feed_into(self, samples, output):
        """One C call, nothing copied: the samples of lane 0, then as many of lane 1 and so on, and the output parted in the same way, each
        lane's outputs at the front of its part. An array of two dimensions has a row for each lane. Returns Fed."""
        self._feed(self._image, samples, output)
        return self._done()

    def feed(self, parts):
        """Takes a block of any length, a buffer for each lane, and returns a list with an array('h') for each. The samples of the lanes
        are laid one after another for each call, and the outputs taken apart: both are copies."""
        views = [_view(part) for part in parts]
        if len(views) != self.lanes or len({view.nbytes for view in views}) != 1:
            raise ValueError(f"{self.lanes} buffers with equally many samples are wanted, one for each lane")
        if views[0].nbytes % 2:
            self.feed_into(b"".join(views), bytearray())  # refused with 12 or 13, before anything is taken
        count, most, at = views[0].nbytes // 2, LARGEST // self.lanes, 0
        places = min(most, self.outputs_for(count))
        space, outputs = array("h", (0,)) * (places * self.lanes), [array("h") for _ in views]
        while True:
            fed = self.feed_into(b"".join(view[2 // view.itemsize * at:2 // view.itemsize * (at + most)] for view in views), space)
            for lane, made in enumerate(outputs):
                made.extend(space[lane * places:lane * places + fed.written])
            if _finished(fed, count - at):
                return outputs
            at += fed.taken

    def _feed(self, image, samples, output):
        call("feed_lanes", image, self.lanes, _view(samples, self.lanes), _view(output, self.lanes))
    def _counts(self, at):
        return tuple(unpack_from("<I", self._image, LANE_CLIPS + 8 * lane + at)[0] for lane in range(self.lanes))
    def _adopt(self, image):
        super()._adopt(image)
        self.total_high = self.total_low = (0,) * self.lanes
    def _done(self):
        self.total_high = tuple(map(operator.add, self.total_high, self.high))
        self.total_low = tuple(map(operator.add, self.total_low, self.low))
        return super()._done()
    def _saved(self):
        return self.image, self.lanes
    def _state(self):
        return self.lanes, self._image[:24], self._image[LANE_WINDOWS:LANE_CLIPS]

# ---- bursts
class Queue:
    """A queue of samples before a converter, for a sampler that delivers bursts: Queue(2048) has space for so many, at most 16,384.

    >>> queue, converter = Queue(4), Converter(Kernel.LINEAR, rates=(24000, 48000))
    >>> queue.push(array("h", [0, 100, 40]))
    >>> queue.push(array("h", [20, 60]))
    Traceback (most recent call last):
    resampler.Refused: push: refusal 16, samples held and samples offered together more than the queue buffer has
    >>> queue.draw(converter), len(queue)
    (array('h', [0, 50, 100, 70]), 0)

    len(queue) is how many samples are held. Marks and buffer, with the converter's image, are all that there is; pickling keeps them."""
    marks = property(lambda self: bytes(self._marks), doc="8 bytes: the place of the oldest sample, and how many are held.")
    buffer = property(lambda self: bytes(self._buffer), doc="The ring that the samples wait in, two bytes each.")
    front = property(lambda self: unpack_from("<I", self._marks, 0)[0], doc="The place of the oldest sample held.")
    space = property(lambda self: len(self._buffer) // 2 - len(self), doc="How many samples more it can hold.")

    def __init__(self, samples):
        self._made_from(bytes(MARKS_BYTES), bytes(2 * samples))

    @classmethod
    def from_marks(cls, marks, buffer):
        """A queue that goes on from stored marks and their buffer, of which it takes copies. Refused with 5 where they disagree."""
        self = cls.__new__(cls)
        self._made_from(marks, buffer)
        return self

    def push(self, samples):
        """One C call: stores a burst behind what is held, or refuses it with 16 where it does not fit, and then stores none of it."""
        call("push", self._marks, self._buffer, samples)

    def draw_into(self, converter, output):
        """One C call: feeds the converter what is held, as far as the space allows, and removes what was taken. Returns Fed."""
        call("draw", converter._image, self._marks, self._buffer, output)
        return converter._done()

    def draw(self, converter):
        """Feeds the converter all that is held, in as many calls as it needs, and returns the outputs as array('h')."""
        return _collected(converter, len(self), lambda at, space: self.draw_into(converter, space))

    def held(self):
        """The samples that are held, oldest first, as array('h'): a copy."""
        ring = array("h", self.buffer)
        return (ring[self.front:] + ring[:self.front])[:len(self)]

    def _made_from(self, marks, buffer):
        self._marks, self._buffer = bytearray(marks), bytearray(buffer)
        self.push(b"")  # changes nothing; refused with 5 where marks and buffer disagree, with 12 where the buffer is odd
    def __reduce__(self):
        return type(self).from_marks, (self.marks, self.buffer)
    def __len__(self):
        return unpack_from("<I", self._marks, 4)[0]
    def __bool__(self):
        return True
    def __repr__(self):
        return f"<Queue: {len(self)} of {len(self._buffer) // 2} samples held>"

# ---- frame lines
class Start(NamedTuple):
    """The fields of a K line."""
    kernel: int
    word: int
    phase: int

class Data(NamedTuple):
    """The fields of a D line, and how many bytes the line has: the next one begins there."""
    sequence: int
    samples: array
    length: int

def write_start(kernel, word, phase=0):
    """A K line, 20 bytes.

    >>> write_start(Kernel.LINEAR, 2**31)
    b'K008000000000000000\\n'
    """
    line = bytearray(START_LINE_BYTES)
    call("write_start", kernel, word, phase, line)
    return bytes(line)

def write_data(sequence, samples):
    """A D line of 1 to 64 samples. Readers want sequence numbers that rise by one.

    >>> write_data(0, array("h", [0, 100, 40]))
    b'D000000000300000064002871\\n'
    """
    line = bytearray(14 + 2 * _view(samples).nbytes)
    call("write_data", sequence, samples, line)
    return bytes(line)

def read_start(line):
    """The fields of the K line that the buffer begins with; the next line begins 20 bytes on.

    >>> read_start(b"K008000000000000000\\nD0000..")
    Start(kernel=<Kernel.LINEAR: 0>, word=2147483648, phase=0)
    """
    frame = bytearray(16)
    call("read_start", line, frame)
    kernel, phase, word = unpack_from("<IIQ", frame)
    return Start(Kernel(kernel), word, phase)

def read_data(line, frame):
    """The fields of the D line that the buffer begins with. The frame is a bytearray of 8 bytes that tells the number accepted last, and is
    left with this line's; 8 zero bytes tell none, and then any number is accepted. LineReader keeps one."""
    samples = bytearray(2 * MOST_SAMPLES)
    call("read_data", line, frame, samples)
    sequence, count = unpack_from("<II", frame)
    return Data(sequence, array("h", bytes(samples[:2 * count])), 14 + 4 * count)

class LineReader:
    """Reads the D lines of one sender, and refuses with 15 a line whose number is not the next.

    >>> reader = LineReader()
    >>> reader.read(b"D000000000300000064002871\\n")
    Data(sequence=0, samples=array('h', [0, 100, 40]), length=26)
    >>> reader.read(b"D000000000300000064002871\\n")
    Traceback (most recent call last):
    resampler.Refused: read_data: refusal 15, sequence number not the next

    What comes from a stream is cut anywhere. Refusal 6 with fewer than 270 bytes says that more are wanted; with more it is for good."""
    def __init__(self):
        self.frame = bytearray(8)
    def read(self, line):
        """The fields of the D line that the buffer begins with. Where it is refused, the number that was told last stays."""
        return read_data(line, self.frame)
    def read_all(self, text):
        """Each D line of a text in turn, which has nothing but whole lines."""
        with memoryview(text) as view:
            at = 0
            while at < len(view):
                data = self.read(view[at:])
                at += data.length
                yield data
    def forget(self):
        """Accepts any number in the next line."""
        self.frame[:] = bytes(8)
