/* WAV files of 16-bit or float numbers: read with one channel at 44,100 Hz, written with two. Whatever the bytes are,
 * reading them gives samples or says what is wrong. */
#ifndef WAV_H
#define WAV_H

#include <math.h>
#include <stddef.h>
#include <stdint.h>
#include <string.h>

enum { WAV_RATE = 44100, WAV_HEADER = 44, WAV_WHOLE = 1, WAV_FLOAT = 3 };

/* The samples of a file in memory. The format is WAV_WHOLE or WAV_FLOAT. */
struct wav {
    unsigned format;
    const unsigned char *data;
    size_t count;
};

static unsigned wav_word(const unsigned char *at) { return at[0] | (unsigned)at[1] << 8; }

static uint32_t wav_long(const unsigned char *at) { return wav_word(at) | (uint32_t)wav_word(at + 2) << 16; }

static void wav_put(unsigned char *at, uint32_t value, size_t bytes) {
    for (size_t i = 0; i < bytes; i++) at[i] = (unsigned char)(value >> 8 * i);
}

static size_t wav_bytes(unsigned format) { return format == WAV_FLOAT ? 4 : 2; }

/* What is wrong with a fmt chunk, or NULL. An extensible one has its format at the front of its sub-format. */
static const char *wav_format(const unsigned char *chunk, size_t len, unsigned *format) {
    if (len < 16) return "the file's fmt chunk is cut short";
    unsigned tag = wav_word(chunk);
    if (tag == 0xfffe) {
        if (len < 26) return "the file's fmt chunk is cut short";
        tag = wav_word(chunk + 24);
    }
    if (wav_word(chunk + 2) != 1) return "the file has more channels than one";
    if (wav_long(chunk + 4) != WAV_RATE) return "the file's rate is not 44,100 Hz";
    unsigned bits = wav_word(chunk + 14);
    if (!(tag == WAV_WHOLE && bits == 16) && !(tag == WAV_FLOAT && bits == 32))
        return "the file's numbers are neither 16-bit nor float";
    *format = tag;
    return NULL;
}

/* What is wrong with a file of so many bytes, or NULL. */
static const char *wav_read(const unsigned char *bytes, size_t len, struct wav *wav) {
    if (len < 12 || memcmp(bytes, "RIFF", 4) || memcmp(bytes + 8, "WAVE", 4)) return "the file is no WAV";
    wav->format = 0;
    for (size_t at = 12; len - at >= 8;) {
        const unsigned char *name = bytes + at;
        size_t size = wav_long(name + 4);
        at += 8;
        if (len - at < size) return "the file is cut short";
        if (!memcmp(name, "fmt ", 4)) {
            const char *wrong = wav_format(name + 8, size, &wav->format);
            if (wrong) return wrong;
        } else if (!memcmp(name, "data", 4)) {
            if (!wav->format) return "the file has its data before its format";
            if (size % wav_bytes(wav->format)) return "the file ends within a sample";
            wav->data = name + 8;
            wav->count = size / wav_bytes(wav->format);
            return NULL;
        }
        /* a chunk of odd length is padded */
        at += size;
        at += size % 2 && at < len;
    }
    return "the file has no data";
}

/* A sample of the file, as the strip takes it. */
static double wav_sample(const struct wav *wav, size_t i) {
    const unsigned char *at = wav->data + i * wav_bytes(wav->format);
    if (wav->format == WAV_WHOLE) return (int16_t)wav_word(at) / 32768.0;
    uint32_t bits = wav_long(at);
    float sample;
    memcpy(&sample, &bits, sizeof sample);
    return sample;
}

/* A side of a frame, as the file keeps it: the number of bytes. A whole number is the nearest, and a NaN is 0. */
static size_t wav_side(unsigned format, float side, unsigned char *at) {
    if (format == WAV_WHOLE) {
        wav_put(at, side == side ? (uint32_t)(int32_t)floor(side * 32767.0 + 0.5) : 0, 2);
    } else {
        uint32_t bits;
        memcpy(&bits, &side, sizeof bits);
        wav_put(at, bits, 4);
    }
    return wav_bytes(format);
}

/* The front of a file of so many frames. */
static void wav_header(unsigned format, uint32_t frames, unsigned char header[WAV_HEADER]) {
    uint32_t block = 2 * (uint32_t)wav_bytes(format);
    memcpy(header, "RIFF____WAVEfmt ", 16);
    wav_put(header + 4, 36 + frames * block, 4);
    wav_put(header + 16, 16, 4);
    wav_put(header + 20, format, 2);
    wav_put(header + 22, 2, 2);
    wav_put(header + 24, WAV_RATE, 4);
    wav_put(header + 28, WAV_RATE * block, 4);
    wav_put(header + 32, block, 2);
    wav_put(header + 34, 4 * block, 2);
    memcpy(header + 36, "data", 4);
    wav_put(header + 40, frames * block, 4);
}

#endif
