/* The sample-rate converter as a C library, libresampler.a and libresampler.so. It does what the note "The converter:
   oscillator, kernels, feeding, frames" says, which is called document 01 here. This header is C99, and C++11.

   A converter is an image of 40 bytes, which the host keeps. A start writes it. A feed takes samples from one
   buffer and writes outputs to another. A retune sets another ratio of the rates. The host may copy an image,
   store it, and go on from it later, in another process or on another machine. In short:
       uint8_t image[RESAMPLER_IMAGE_BYTES];
       resampler_start_rates(image, sizeof image, RESAMPLER_CUBIC, 44100, 48000, 0);
       do {
           resampler_feed(image, sizeof image, input, input_length, output, output_length);
           .. take resampler_written(image) outputs away, and go on in the input by resampler_taken(image) samples ..
       } while (resampler_end(image) == RESAMPLER_FULL);

   Up to sixteen signals on one clock, called lanes, can have one image, of 288 bytes, and one feed.

   A sampler that delivers bursts can have a queue before its converter, in a buffer of the host's. A push stores a
   burst. A draw feeds the converter what the queue holds, and removes what was taken.

   On their way samples stand in frame lines, which are text: a K line has kernel, word and phase, a D line a number
   and up to 64 samples. Two calls write such lines, and two read them.

   Samples and outputs are byte pairs: 16 bits in two's complement, the low byte first. On a machine that has the low
   byte first, as x86-64 has, an array of int16_t is such a buffer: (const uint8_t *)samples.

   An output is the whole number nearest to the kernel's value, and of two that are equally near the even one: halves go
   to the even neighbour (request U6; document 01 has them upward). A library of before takes them upward: an output is
   then one higher exactly where the value is a half within the range and the number above it is odd. The rule changes
   nothing else that a call answers or leaves. A host that kept outputs of such a library sees these differences of one
   count, and two suppliers who compare outputs need one rule. A library shows its rule at the samples 0, 1, with the
   linear kernel and a phase of one half: the output is 0, by the older rule 1. Words, and the nearest sample of the
   three-point kernel, go upward at a half, as before.

   Every call returns 0 or the number of a refusal. A refused call changes no byte of any buffer.

   A buffer is lent as a pointer and its length in bytes, at any alignment. Where the length is 0 the pointer may be
   anything, also null; that is tested of every call, and not proved. The buffers of one call may not overlap. That is
   all that the host has to see to: whatever the buffers and the other arguments hold, a call reads and writes nothing
   outside the buffers, and ends.

   The library has no state of its own and allocates nothing. Several threads may call it at once, each on
   images and queues of its own, and with its own buffers to write to. What the calls do is proved; how arguments
   reach them is the compilers' business. The small functions at the end of this file are plain C: they are tested and
   not proved, and where one works out a formula that is proved, the law is named beside it.

   The guarantee. Take any list of feeds and retunes on one image, lent whole, from an accepted start, refused
   calls included, where nothing else changes the image in between. Refusal 5 does not occur in it. Each accepted
   feed takes as many samples, writes as many outputs and ends as in the paper's run of document 01; and output k
   has that run's basepoint, and lies at most 1/2 + D/K from that run's value, which is exact at the full 32-bit
   fraction and held to 16 bits. D is the largest jump between neighbouring samples among those that the kernel
   uses there, zeros before the first included; K is 16384, 16384, 8192 or 12288 by kernel. Of an image of lanes,
   with feeds of lanes and with retunes of its first 40 bytes, all this holds for each lane that no accepted feed
   left out.

   The guarantee for a queue. Take any list of pushes, draws and retunes on one image, one marks and one queue buffer of
   at most 16,384 samples, lent whole, from an accepted start and from marks that hold nothing and agree with the
   buffer, as 8 zero bytes do; refused calls included, where nothing else changes the three in between. Refusal 5 does
   not occur in it. The samples that the draws took, followed by those that are held, are the samples of the accepted
   pushes: nothing is lost, and nothing comes twice. Where a push is not refused with 12, it is refused with 16 exactly
   where the samples pushed less those drawn, and those offered, are together more than the buffer has. And the draws
   and retunes stand to the paper's run as the feeds and retunes above do, over the samples drawn.

   A sensor turned round. Take two images that were started alike, are retuned alike and lent as much space, one fed the
   other's samples with the other sign; -32768 has none, so it is no sample of either. Every feed takes, writes and ends
   alike, and each output has the other sign, where neither of the two is -32768. */
#ifndef RESAMPLER_H
#define RESAMPLER_H

#include <stddef.h>
#include <stdint.h>

#ifdef __cplusplus
extern "C" {
#endif

/* The version. Where its first number is higher than that of the library that a host was built for, the host has to be
   looked at and compiled anew: a layout, a call or an answer is another. Where the second number is, there is more than
   before, and where only the third is, neither. `strings` shows the version of an installed library behind the word
   `resampler`, beside the sum of the logic in which it was proved. The shared library's name has the first number. */
#define RESAMPLER_VERSION "1.0.0"
#define RESAMPLER_VERSION_MAJOR 1
#define RESAMPLER_VERSION_MINOR 0
#define RESAMPLER_VERSION_PATCH 0

/* Kernels. The basepoint b of an output is the sample at or before its position; for the three-point kernel it is
   the nearest one, halves upward. The kernel is evaluated at u, the fraction from b rounded down to a multiple of
   2^-14; for the three-point kernel it is below zero where the position lies before b. The value is kept exact,
   rounded once, halves to the even neighbour, and held to -32768..32767. An output that had to be held is a clip, as
   below. Samples before the first are zero. R is how far past b a kernel reads. With xm, x0, x1, x2 for the samples
   b - 1 to b + 2 the values are
    0   x0 + u (x1 - x0)
    1   x0 + u (x1 - xm)/2 + u^2 (x1 - 2 x0 + xm)/2
    2   x0 + u (-x2 + 3 x1 - x0 - xm)/2 + u^2 (x2 - x1 - x0 + xm)/2      (alpha 1/2)
    3   x0 + u (-x2 + 6 x1 - 3 x0 - 2 xm)/6 + u^2 (x1 - 2 x0 + xm)/2 + u^3 (x2 - 3 x1 + 3 x0 - xm)/6 */
#define RESAMPLER_LINEAR 0      /* R = 1; samples b and b + 1 */
#define RESAMPLER_THREE_POINT 1 /* R = 1; samples b - 1 to b + 1 */
#define RESAMPLER_PARABOLIC 2   /* R = 2; samples b - 1 to b + 2 */
#define RESAMPLER_CUBIC 3       /* R = 2; samples b - 1 to b + 2 */

/* Clips. An output whose rounded value lies outside -32768..32767 is held, and is a clip: high exactly where that value
   is above 32767, low exactly where it is below -32768. So 32767.5, which rounds to 32768, is high, and -32768.5, which
   rounds to -32768, is neither; an output that is 32767 or -32768 without having been held is neither too. The linear
   kernel makes no clips.

   Where a sensor is turned round, high and low clips change places, but for a rounded value of 32768, which is high:
   turned round it is -32768, which is neither.

   A feed of lanes counts the high and the low clips of each lane, a single feed both together. A host that wants the
   two counts of one signal feeds it as one lane. */

/* A word is input rate / output rate times 2^32: the way from one output to the next, in 2^-32 of a sample. It
   is 1 to 2^34, so that there are at most 2^32 outputs to a sample, and at least one output to four samples. */
#define RESAMPLER_WORD_ONE UINT64_C(0x100000000)     /* 2^32, equal rates */
#define RESAMPLER_LARGEST_WORD UINT64_C(0x400000000) /* 2^34 */

/* Sizes. */
#define RESAMPLER_IMAGE_BYTES 40
#define RESAMPLER_SAMPLE_BYTES 2
#define RESAMPLER_LARGEST_BUFFER 65536 /* bytes of input, of output, of samples in one call, of all lanes together */
#define RESAMPLER_WINDOW 4             /* samples in an image, of each lane */
#define RESAMPLER_MOST_LANES 16

/* The image. Its numbers have the low byte first. The counts and the end are those of the last accepted feed or draw,
   0 after a start; on entry to a call they may be anything. */
#define RESAMPLER_AT_KERNEL 0   /* 1 byte: 0 to 3 */
#define RESAMPLER_AT_NEEDED 1   /* 1 byte: samples still needed before the next output, 0 to 4 */
#define RESAMPLER_AT_ZEROS 2    /* 2 bytes: zero */
#define RESAMPLER_AT_REGISTER 4 /* 4 bytes: the next output's position in 2^-32 of a sample, modulo 2^32 */
#define RESAMPLER_AT_WORD 8     /* 8 bytes: 1 to 2^34 */
#define RESAMPLER_AT_WINDOW 16  /* 4 byte pairs: the newest samples taken, oldest first; zeros at the start */
#define RESAMPLER_AT_TAKEN 24   /* 4 bytes: samples taken */
#define RESAMPLER_AT_WRITTEN 28 /* 4 bytes: outputs written */
#define RESAMPLER_AT_CLIPS 32   /* 4 bytes: clips among them, high and low together */
#define RESAMPLER_AT_END 36     /* 4 bytes: HUNGRY or FULL */

/* The image of lanes begins with an image as above: what the lanes share, with the window and the clips of lane 0, high
   and low together. Samples taken, outputs written and the end are those of every lane that was fed. Bytes 160 to 287
   have the two counts of each lane. They too are those of the last accepted feed, which writes them all, 0 for a lane
   that it left out; on entry to a call they may be anything. One call writes at most 32,768 outputs in all lanes
   together, so 4 bytes hold a count.

   In an older library, whose header has RESAMPLER_AT_LANE_CLIPS and no RESAMPLER_AT_LANE_HIGH, the image of lanes had
   224 bytes, with one count of clips for each lane. Such an image is refused with 5. To go on from one, start an image
   of 288 bytes and copy the first 160 bytes of the old one to its front; what is left out are only the counts:
       memcpy(image, old, RESAMPLER_AT_LANE_HIGH)
   An image of one converter is as it was. To go on from one with both counts, start an image of lanes, copy the 40 bytes
   to its front and feed one lane: bytes 0 to 39 and the outputs are then those of single feeds. */
#define RESAMPLER_AT_LANE_WINDOWS RESAMPLER_IMAGE_BYTES          /* 15 times 4 byte pairs: windows of lanes 1 to 15 */
#define RESAMPLER_AT_LANE_HIGH (RESAMPLER_AT_LANE_WINDOWS + 120) /* 160; 4 bytes: high clips of lane 0 */
#define RESAMPLER_AT_LANE_LOW (RESAMPLER_AT_LANE_HIGH + 4)       /* 164; 4 bytes: low clips of lane 0 */
#define RESAMPLER_LANE_CLIPS_BYTES 8                             /* lane i has its two counts 8 i bytes further on */
#define RESAMPLER_LANES_BYTES (RESAMPLER_AT_LANE_HIGH + 128)     /* 288, the whole image of lanes */

#define RESAMPLER_HUNGRY 0
#define RESAMPLER_FULL 1

/* A queue is a ring of samples in a buffer, and 8 bytes of marks. A queue buffer has half as many samples as bytes,
   rounded down. Sample i of what is held, from 0 on, lies at place front + i of the buffer, modulo the number of its
   samples. 8 zero bytes are an empty queue in a buffer of any length, so there is no call to start one; what the buffer
   contains then does not matter. The numbers of the marks have the low byte first.

   Marks agree with a buffer if held is at most the number of its samples, and front is below that number, or 0 in an
   empty buffer. From marks that agree, every marks that come back agree.

   Image, marks and queue buffer are all that there is of a converter with its queue. The host may store the three
   between any two calls, and go on from them later. The contents of the queue buffer belong to the marks: they are the
   samples that are held. */
#define RESAMPLER_QUEUE_SAMPLES 16384 /* the most samples of a queue buffer; the fewest are 0 */
#define RESAMPLER_MARKS_FRONT 0       /* 4 bytes: place of the oldest sample held; where none is, of the next */
#define RESAMPLER_MARKS_HELD 4        /* 4 bytes: samples held */
#define RESAMPLER_MARKS_BYTES 8

/* Frame lines. A line is a letter, digits 0-9, A-F and byte 10:
       K, 1 digit kernel, 9 digits word, 8 digits phase
       D, 8 digits sequence number, 2 digits count, 4 digits for each sample in two's complement, 2 digits check
   Each two digits after D are a byte, and these bytes, check included, sum to 0 modulo 256. The length of a line
   follows from its letter and count; byte 10 is counted. */
#define RESAMPLER_MOST_SAMPLES 64                           /* samples in a D line; the fewest are 1 */
#define RESAMPLER_START_LINE_BYTES 20                       /* a K line */
#define RESAMPLER_DATA_LINE_BYTES(count) (14 + 4 * (count)) /* a D line with so many samples */
#define RESAMPLER_LONGEST_LINE RESAMPLER_DATA_LINE_BYTES(RESAMPLER_MOST_SAMPLES) /* 270 */

/* What a read leaves in `frame`. Its numbers have the low byte first. Of a D line, where they tell the next read which
   number was accepted last: */
#define RESAMPLER_AT_SEQUENCE 0 /* 4 bytes: sequence number */
#define RESAMPLER_AT_COUNT 4    /* 4 bytes: samples in the line, 1 to 64; on entry 0 for no last number */
#define RESAMPLER_DATA_FIELDS_BYTES 8
/* Of a K line: */
#define RESAMPLER_AT_START_KERNEL 0 /* 4 bytes: 0 to 3 */
#define RESAMPLER_AT_START_PHASE 4  /* 4 bytes */
#define RESAMPLER_AT_START_WORD 8   /* 8 bytes: 1 to 2^34 */
#define RESAMPLER_START_FIELDS_BYTES 16

/* Refusals, as document 01 numbers them, and 13 to 16. Those from 6 to 11 and 15 are of lines that are read, and 14 is
   of lines that are written.

    1   kernel above 3
    2   ratio not finite, or below zero (minus zero is zero)
    3   output rate 0
    4   word 0 or above 2^34, after rounding
    5   state with kernel above 3, word outside 1..2^34 or needed count above 4; image not 40 bytes, for a start
        or feed of lanes not 288, or bytes 2, 3 not zero; `frame` not 8 bytes, for a K line not 16; `marks` not 8
        bytes, queue buffer above 16,384 samples, or marks that disagree with it
    6   no byte 10 in the first 270 bytes, or in those that were lent
    7   first letter not the one called for, or line empty
    8   another character than 0-9, A-F after the letter
    9   K: not 18 digits; D: under 12, count 0 or above 64, or not 12 + 4 times count
   10   check fails
   11   sample buffer shorter than the count
   12   host sample buffer of odd length or above 65,536 bytes; queue buffer of odd length
   13   lane count 0 or above 16; samples of input, or places of output, not a multiple of it
   14   no samples to write, or above 64; line buffer shorter than the line
   15   sequence number not the next
   16   samples held and samples offered together more than the queue buffer has

   Where several apply a call returns the lowest, except that a retune tests 5 first, a read of a K line 1 and 4 last,
   and a read of a D line 15 before 11 and 12. Whatever the refusal, every buffer is left as it came. */
#define RESAMPLER_ACCEPTED 0
#define RESAMPLER_BAD_KERNEL 1
#define RESAMPLER_BAD_RATIO 2
#define RESAMPLER_BAD_RATE 3
#define RESAMPLER_BAD_WORD 4
#define RESAMPLER_BAD_IMAGE 5 /* or `frame` of another length, or marks that are not of the queue buffer */
#define RESAMPLER_NO_LINE_END 6
#define RESAMPLER_BAD_LETTER 7
#define RESAMPLER_BAD_DIGIT 8
#define RESAMPLER_BAD_LENGTH 9
#define RESAMPLER_BAD_CHECK 10
#define RESAMPLER_SHORT_BUFFER 11
#define RESAMPLER_BAD_BUFFER 12
#define RESAMPLER_BAD_LANES 13
#define RESAMPLER_BAD_WRITE 14
#define RESAMPLER_BAD_SEQUENCE 15
#define RESAMPLER_QUEUE_FULL 16

/* Starts. The kernel is 0 to 3. The first output stands phase / 2^32 of a sample past the first sample; any
   phase will do. The setting is a word, a ratio of the rates (input / output), or the two rates in whole hertz:
       word = ratio times 2^32, or fin times 2^32 / fout, rounded to the nearest whole number, halves upward.
   An accepted start writes the whole image: kernel, word, the phase as register, b + R + 1 samples needed, where b is
   the first output's basepoint, a window of zeros, counts of zero and HUNGRY. What stood in the image before does not
   matter.

   Refusals, in this order: 1; for a ratio 2, for rates 3; 4; then 5, if the image is not 40 bytes long. */
uint32_t resampler_start_word(uint8_t *image, size_t image_length, uint32_t kernel, uint64_t word, uint32_t phase);
uint32_t resampler_start_ratio(uint8_t *image, size_t image_length, uint32_t kernel, double ratio, uint32_t phase);
uint32_t resampler_start_rates(uint8_t *image, size_t image_length, uint32_t kernel, uint32_t fin, uint32_t fout,
                               uint32_t phase);

/* Starts of lanes. They are as the starts above, and so are the refusals, but for an image of 288 bytes: all windows
   are zeros, and all counts. */
uint32_t resampler_start_lanes_word(uint8_t *image, size_t image_length, uint32_t kernel, uint64_t word,
                                    uint32_t phase);
uint32_t resampler_start_lanes_ratio(uint8_t *image, size_t image_length, uint32_t kernel, double ratio,
                                     uint32_t phase);
uint32_t resampler_start_lanes_rates(uint8_t *image, size_t image_length, uint32_t kernel, uint32_t fin,
                                     uint32_t fout, uint32_t phase);

/* Retunes. The setting becomes a word as in a start. An accepted retune replaces the eight bytes of the word, and
   leaves every other byte of the image as it is. So the next output stays where it was due, and the one after it
   lies the new word further on.

   An image of lanes is retuned by its first 40 bytes, all lanes at once:
       resampler_retune_word(image, RESAMPLER_IMAGE_BYTES, word)

   Refusals, in this order: 5, for any of its reasons; for a ratio 2, for rates 3; 4. */
uint32_t resampler_retune_word(uint8_t *image, size_t image_length, uint64_t word);
uint32_t resampler_retune_ratio(uint8_t *image, size_t image_length, double ratio);
uint32_t resampler_retune_rates(uint8_t *image, size_t image_length, uint32_t fin, uint32_t fout);

/* Feed repeats: if no sample is needed and the output buffer has space, it writes the next output; if none is
   needed and there is no space, it ends FULL; if one is needed and input is left, it takes it; else it ends
   HUNGRY. An accepted feed then writes the whole image anew, with the samples taken, the outputs written, the
   clips among them and the end. Output bytes past those written keep their contents.

   So after HUNGRY all the input was taken, and all outputs are written that the samples so far allow. After FULL
   the space is all written and another output is due: the host calls again with new space, and with the input that
   was not taken, which may be none. At the end of a stream outputs still wait for one or two samples that do not come.
   To get them the host feeds others, such as copies of the last; resampler_samples_for says how many.

   Where a sample is needed, as after a start or HUNGRY, a feed of n samples writes at most n times 2^32 / word outputs,
   rounded up. Where none is needed, as after FULL, it writes at most (n + 1) times 2^32 / word, rounded up: the output
   that is due is among them. With space for so many it ends HUNGRY.

   Refusals, in this order: 5, for any of its reasons; 12, if the length of the input or of the output is odd or
   above 65,536. Both may be 0. */
uint32_t resampler_feed(uint8_t *image, size_t image_length, const uint8_t *input, size_t input_length,
                        uint8_t *output, size_t output_length);

/* A feed of lanes feeds lanes 0 to `lanes` - 1 of an image of lanes, each as a feed of that lane alone would. The input
   has one lane's samples after another's: of n samples a lane, lane i has those from i n to i n + n - 1. The output
   buffer is parted in the same way, and a lane's outputs lie at the front of its part; bytes past those written keep
   their contents. Samples taken, outputs written and the end do not depend on the samples, and are the same for all
   these lanes; how many outputs a feed writes at most, as above, is said of each. After FULL the samples that were not
   taken lie apart, at the end of each lane's part; the host lays them one after another for the next call.

   An accepted feed writes the whole image anew but for the windows of the lanes that it leaves out, from `lanes` on.
   These keep their bytes, and their counts of clips become 0. Calls may differ in their lane counts, but the register
   and the needed count move on for every lane. So a lane that was left out has a window from another time, and what it
   gives when it is fed again is no run of document 01.

   Refusals, in this order: 5, for any of its reasons; 12, if the length of the whole input or of the whole output is
   odd or above 65,536, so that sixteen lanes have at most 2,048 samples each in one call; 13, if there are no lanes or
   more than 16, or if the number of samples in the input, or of places in the output, is not a multiple of `lanes`:
   three samples are no input of two lanes. Both lengths may be 0. */
uint32_t resampler_feed_lanes(uint8_t *image, size_t image_length, uint32_t lanes, const uint8_t *input,
                              size_t input_length, uint8_t *output, size_t output_length);

/* The queue. `marks` has 8 bytes, and `queue` is the buffer that samples wait in; every push and draw of one queue is
   lent the same two. Marks and image do not lie in the queue buffer, and a burst is not pushed from it: as in every
   call, the buffers are apart from each other. Both calls write the marks, so a push and a draw of one queue may not
   run at once, in two threads or the one in an interrupt of the other.

   An accepted push stores all its samples behind those that are held, round the end of the queue buffer to its start
   where need be. It writes the places that it stores to, and no others; front stays, and held grows by the number of
   samples. A push of nothing changes nothing, and a full queue accepts it too.

   On 16 nothing was stored. The host draws, and pushes the same samples again, or a part of them: after a draw that
   took t samples there is space for t more. A burst of more samples than the whole buffer never finds space.

   An accepted draw leaves image and output as a feed of the samples held, oldest first, would leave them: outputs,
   counts, clips and end are found where that feed has them. The samples taken leave the queue: held is less by their
   number, and front moves on by it, modulo the number of samples in the buffer. It is not put back to 0 where nothing
   is held any more. The queue buffer is not written. After FULL the samples that were not taken are still held, and the
   host draws again with new space; after HUNGRY nothing is held. A draw where nothing is held is a feed of nothing, and
   may write outputs that are due.

   How many outputs a draw writes at most is said at the feed, with n for the samples held. Draws and feeds may take
   turns on one image, as long as the samples come in the order that is wanted.

   Refusals of a push, in this order: 5, if `marks` is not 8 bytes long, if the queue buffer has more than 16,384
   samples, or if the marks disagree with it; 12, if the length of the queue buffer is odd, or that of the samples odd
   or above 65,536; 16, if samples held and samples offered are together more than the queue buffer has. Refusals of a
   draw: 5, for those reasons or for any reason of the image; 12, if the length of the queue buffer is odd, or that of
   the output odd or above 65,536. The lengths of queue buffer, samples and output may be 0.

   A library whose header has no RESAMPLER_MARKS_BYTES (before request U7) has neither call. */
uint32_t resampler_push(uint8_t *marks, size_t marks_length, uint8_t *queue, size_t queue_length,
                        const uint8_t *samples, size_t samples_length);
uint32_t resampler_draw(uint8_t *image, size_t image_length, uint8_t *marks, size_t marks_length,
                        const uint8_t *queue, size_t queue_length, uint8_t *output, size_t output_length);

/* Writes of lines. An accepted write puts the line at the front of `line`, and bytes past it keep their contents. How
   long the line is follows from the arguments, by the names above. A line buffer has no largest length.

   A D line is written from any sequence number and from 1 to 64 samples; readers want numbers that rise by one.
   Refusals, in this order: 12, if the length of the samples is odd or above 65,536; 14, if there are none or more than
   64, or if the buffer is shorter than the line.

   A K line is written from a kernel, a word and any phase, as resampler_start_word has them. Refusals, in this order:
   1; 4; 14, if the buffer is shorter than 20 bytes. */
uint32_t resampler_write_data(uint32_t sequence, const uint8_t *samples, size_t samples_length, uint8_t *line,
                              size_t line_length);
uint32_t resampler_write_start(uint32_t kernel, uint64_t word, uint32_t phase, uint8_t *line, size_t line_length);

/* Reads of lines. A read takes the line that `line` begins with, whatever follows it. An accepted read writes all of
   `frame`. Of a D line the samples go to the first count pairs of `samples`, and bytes past them keep their contents;
   what follows the line stands at resampler_after_data(line, frame). What follows a K line stands at
   line + RESAMPLER_START_LINE_BYTES.

   A host that reads from a stream gets 6 while a line is not whole. With fewer than 270 bytes lent more may come, and
   the host reads again once it has; with 270 or more the line is refused for good.

   D lines are numbered by one, from any first number. On entry `frame` tells a read of a D line which number was
   accepted last: a count of 0 says none, and then any number is accepted; with any other count the number beside it is
   the last, and only the next one is accepted. No number follows FFFFFFFF hexadecimal. An accepted read leaves the
   line's number and count there, and a refused one leaves what was told. So a host that clears the 8 bytes once, before
   the first line of a sender, and lends them for every line of it is told of the first line out of order. On 15 the
   host gives up, or calls resampler_any_sequence(frame) and reads the line again, and so behind a line that it passes
   over. A line that was refused with 11 can be read again into a longer buffer.

   An older library, whose header has no RESAMPLER_BAD_SEQUENCE (before request U4), did not look at the 8 bytes, and
   accepted numbers in any order. Of a K line what `frame` holds on entry is not looked at.

   There is one line for its fields: reading a written line returns its fields, if the number before it is told or none,
   and writing the fields of a read line returns its bytes.

   Refusals of a D line, in this order: 5, if `frame` is not 8 bytes long; 6 to 10; 15, if a last number is told and the
   line's is not the next; 11, if the length of `samples`, halved and rounded down, is below the count; 12, if it is odd
   or above 65,536. Of a K line: 5, if `frame` is not 16 bytes long; 6 to 9; 1; 4. */
uint32_t resampler_read_data(const uint8_t *line, size_t line_length, uint8_t *frame, size_t frame_length,
                             uint8_t *samples, size_t samples_length);
uint32_t resampler_read_start(const uint8_t *line, size_t line_length, uint8_t *frame, size_t frame_length);

/* Each call is a macro of its own name too, so that #ifdef tells whether a header declares it. */
#define resampler_start_word resampler_start_word
#define resampler_start_ratio resampler_start_ratio
#define resampler_start_rates resampler_start_rates
#define resampler_retune_word resampler_retune_word
#define resampler_retune_ratio resampler_retune_ratio
#define resampler_retune_rates resampler_retune_rates
#define resampler_feed resampler_feed
#define resampler_start_lanes_word resampler_start_lanes_word
#define resampler_start_lanes_ratio resampler_start_lanes_ratio
#define resampler_start_lanes_rates resampler_start_lanes_rates
#define resampler_feed_lanes resampler_feed_lanes
#define resampler_push resampler_push
#define resampler_draw resampler_draw
#define resampler_write_data resampler_write_data
#define resampler_write_start resampler_write_start
#define resampler_read_data resampler_read_data
#define resampler_read_start resampler_read_start

/* A refusal in words, without a full stop; "accepted" of 0, and "unknown refusal" of a number that no call returns. */
static inline const char *resampler_refusal_text(uint32_t refusal)
{
    switch (refusal) {
    case RESAMPLER_ACCEPTED:
        return "accepted";
    case RESAMPLER_BAD_KERNEL:
        return "kernel above 3";
    case RESAMPLER_BAD_RATIO:
        return "ratio not finite, or below zero";
    case RESAMPLER_BAD_RATE:
        return "output rate 0";
    case RESAMPLER_BAD_WORD:
        return "word 0 or above 2^34: input rate next to 0, or above 4 times the output rate";
    case RESAMPLER_BAD_IMAGE:
        return "image not started; image, frame or marks of another length or out of range; or queue buffer above "
               "16,384 samples";
    case RESAMPLER_NO_LINE_END:
        return "no byte 10 in the first 270 bytes, or in those that were lent";
    case RESAMPLER_BAD_LETTER:
        return "first letter not the one called for, or line empty";
    case RESAMPLER_BAD_DIGIT:
        return "another character than 0-9, A-F after the letter";
    case RESAMPLER_BAD_LENGTH:
        return "K line not of 18 digits, or D line under 12, count 0 or above 64, or not 12 + 4 times count";
    case RESAMPLER_BAD_CHECK:
        return "check of the line fails";
    case RESAMPLER_SHORT_BUFFER:
        return "sample buffer shorter than the count";
    case RESAMPLER_BAD_BUFFER:
        return "sample buffer of odd length or above 65,536 bytes, or queue buffer of odd length";
    case RESAMPLER_BAD_LANES:
        return "lane count 0 or above 16, or samples of input or places of output not a multiple of it";
    case RESAMPLER_BAD_WRITE:
        return "no samples to write, or above 64, or line buffer shorter than the line";
    case RESAMPLER_BAD_SEQUENCE:
        return "sequence number not the next";
    case RESAMPLER_QUEUE_FULL:
        return "samples held and samples offered together more than the queue buffer has";
    default:
        return "unknown refusal";
    }
}

/* Four bytes, and eight, as a number, the low byte first. */
static inline uint32_t resampler_number(const uint8_t *at)
{
    return at[0] | (uint32_t)at[1] << 8 | (uint32_t)at[2] << 16 | (uint32_t)at[3] << 24;
}
static inline uint64_t resampler_long_number(const uint8_t *at)
{
    return resampler_number(at) | (uint64_t)resampler_number(at + 4) << 32;
}

/* What an image says of its converter: the kernel, the samples still needed before the next output, its position modulo
   2^32 in 2^-32 of a sample, and the word. Of an image of lanes it is the same for every lane. */
static inline uint32_t resampler_kernel(const uint8_t *image) { return image[RESAMPLER_AT_KERNEL]; }
static inline uint32_t resampler_needed(const uint8_t *image) { return image[RESAMPLER_AT_NEEDED]; }
static inline uint32_t resampler_register(const uint8_t *image)
{
    return resampler_number(image + RESAMPLER_AT_REGISTER);
}
static inline uint64_t resampler_word(const uint8_t *image) { return resampler_long_number(image + RESAMPLER_AT_WORD); }

/* What the last accepted feed or draw did. Samples and outputs are counted, not bytes. Clips are the sum of both sides,
   high and low. Of an image of lanes samples and outputs are those of each lane, and the clips are those of lane 0. */
static inline uint32_t resampler_taken(const uint8_t *image) { return resampler_number(image + RESAMPLER_AT_TAKEN); }
static inline uint32_t resampler_written(const uint8_t *image) { return resampler_number(image + RESAMPLER_AT_WRITTEN); }
static inline uint32_t resampler_clips(const uint8_t *image) { return resampler_number(image + RESAMPLER_AT_CLIPS); }
static inline uint32_t resampler_end(const uint8_t *image) { return resampler_number(image + RESAMPLER_AT_END); }

/* The clips of a lane, 0 to 15, in the last accepted feed of lanes: the high ones, the low ones, and their sum. Then
   where its window lies in an image of lanes. */
static inline uint32_t resampler_lane_high(const uint8_t *image, size_t lane)
{
    return resampler_number(image + RESAMPLER_AT_LANE_HIGH + RESAMPLER_LANE_CLIPS_BYTES * lane);
}
static inline uint32_t resampler_lane_low(const uint8_t *image, size_t lane)
{
    return resampler_number(image + RESAMPLER_AT_LANE_LOW + RESAMPLER_LANE_CLIPS_BYTES * lane);
}
static inline uint32_t resampler_lane_clips(const uint8_t *image, size_t lane)
{
    return resampler_lane_high(image, lane) + resampler_lane_low(image, lane);
}
static inline size_t resampler_lane_window(size_t lane)
{
    return lane == 0 ? RESAMPLER_AT_WINDOW
                     : RESAMPLER_AT_LANE_WINDOWS + (lane - 1) * RESAMPLER_WINDOW * RESAMPLER_SAMPLE_BYTES;
}

/* How many outputs and samples there will be. What the next four functions answer holds of every image that a feed
   accepts, as long as the word stays, and of an image of lanes for each lane. Whatever they are given, they end and do
   not divide by zero. They are right for up to 2^32 - 2 samples, where a feed takes 32,768 at the most.

   The most outputs of a feed or draw of so many samples at a word, whatever else the image holds: (samples + 1) times
   2^32 / word, rounded up; 0 for the word 0, which no image has. With space for so many it ends HUNGRY. Both are proved
   (laws `most-due` and `enough-due`). */
static inline uint64_t resampler_most_outputs(uint64_t word, uint32_t samples)
{
    return word == 0 ? 0 : ((uint64_t)samples << 32 | 0xFFFFFFFF) / word + 1;
}

/* How far the next output stands past its basepoint, for the three-point kernel past half a sample before it, in 2^-32
   of a sample. */
static inline uint32_t resampler_past(const uint8_t *image)
{
    return resampler_register(image) + (resampler_kernel(image) == RESAMPLER_THREE_POINT ? 0x80000000 : 0);
}

/* The outputs of a feed or draw of so many samples that has space for them all, exactly (proved: law `exactly`). */
static inline uint64_t resampler_outputs_for(const uint8_t *image, uint32_t samples)
{
    uint64_t word = resampler_word(image), needed = resampler_needed(image);
    if (word == 0 || samples < needed)
        return 0;
    return ((samples - needed) << 32 | (0xFFFFFFFF - resampler_past(image))) / word + 1;
}

/* The fewest samples for so many more outputs: none for no output, and the needed count for one. With one sample fewer
   there are fewer outputs (proved: law `samples-for`). */
static inline uint64_t resampler_samples_for(const uint8_t *image, uint32_t outputs)
{
    uint64_t word = resampler_word(image), steps = outputs;
    if (steps-- == 0)
        return 0;
    return resampler_needed(image) + steps * (word >> 32) +
           ((steps * (word & 0xFFFFFFFF) + resampler_past(image)) >> 32);
}

/* How long after its position the next output can be written, where samples come one by one, in 2^-32 of a sample
   period: the last sample that it needs stands R past its basepoint. 0xC0000000 is three quarters of a sample. */
static inline uint64_t resampler_delay(const uint8_t *image)
{
    uint32_t kernel = resampler_kernel(image);
    uint64_t reach = kernel <= RESAMPLER_THREE_POINT ? 1 : 2, half = kernel == RESAMPLER_THREE_POINT ? 0x80000000 : 0;
    return (reach << 32) + half - resampler_past(image);
}

/* Where the oldest sample of a queue lies, and how many samples it holds. */
static inline uint32_t resampler_front(const uint8_t *marks) { return resampler_number(marks + RESAMPLER_MARKS_FRONT); }
static inline uint32_t resampler_held(const uint8_t *marks) { return resampler_number(marks + RESAMPLER_MARKS_HELD); }

/* What a read of a D line left in `frame`, and where the part that follows the line begins. */
static inline uint32_t resampler_sequence(const uint8_t *frame)
{
    return resampler_number(frame + RESAMPLER_AT_SEQUENCE);
}
static inline uint32_t resampler_count(const uint8_t *frame) { return resampler_number(frame + RESAMPLER_AT_COUNT); }
static inline const uint8_t *resampler_after_data(const uint8_t *line, const uint8_t *frame)
{
    return line + RESAMPLER_DATA_LINE_BYTES(resampler_count(frame));
}

/* Clears the count, so that the next read of a D line accepts any number. Take where the line before ends first:
   resampler_after_data needs its count. */
static inline void resampler_any_sequence(uint8_t *frame)
{
    for (size_t i = 0; i < 4; i++)
        frame[RESAMPLER_AT_COUNT + i] = 0;
}

/* What a read of a K line left in `frame`. */
static inline uint32_t resampler_line_kernel(const uint8_t *frame)
{
    return resampler_number(frame + RESAMPLER_AT_START_KERNEL);
}
static inline uint32_t resampler_line_phase(const uint8_t *frame)
{
    return resampler_number(frame + RESAMPLER_AT_START_PHASE);
}
static inline uint64_t resampler_line_word(const uint8_t *frame)
{
    return resampler_long_number(frame + RESAMPLER_AT_START_WORD);
}

/* Sample `place` of a buffer, counted from 0. */
static inline int16_t resampler_sample(const uint8_t *buffer, size_t place)
{
    int32_t bits = buffer[2 * place] | (int32_t)buffer[2 * place + 1] << 8;
    return (int16_t)(bits < 32768 ? bits : bits - 65536);
}

static inline void resampler_put_sample(uint8_t *buffer, size_t place, int16_t sample)
{
    uint16_t bits = (uint16_t)sample;
    buffer[2 * place] = (uint8_t)(bits & 255);
    buffer[2 * place + 1] = (uint8_t)(bits >> 8);
}

#ifdef __cplusplus
}
#endif

#endif
