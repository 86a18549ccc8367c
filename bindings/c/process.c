/* process IN.wav OUT.wav: a mono WAV at 44,100 Hz through a strip of the default setup, to a stereo WAV that goes on
 * until the strip rests. Frames stand where their samples stood. */
#include "goqhari.h"
#include "wav.h"

#include <stdio.h>
#include <stdlib.h>

enum { BUFFER = 512 };

static struct goqhari_strip strip;

/* The file that is written. */
static FILE *out;
static unsigned format;
static uint64_t heard;

static int failed(const char *why) {
    fprintf(stderr, "process: %s\n", why);
    return 1;
}

static int refused(uint64_t number) {
    fprintf(stderr, "process: the strip declines by %d, see enum goqhari_answer\n", (int)number);
    return 1;
}

/* Plays up to a buffer of samples and writes what is delivered, but for the first frames, which are late by the
 * look-ahead and come from before the strip's opening. */
static uint64_t played(const double *samples, size_t len) {
    float frames[2 * BUFFER];
    uint64_t gains[BUFFER];
    uint64_t number = goqhari_strip_run(&strip, samples, len, 1, frames, gains);
    if (number) return number;
    unsigned char bytes[8 * BUFFER];
    size_t filled = 0;
    for (size_t i = 0; i < len; i++, heard++) {
        if (heard < GOQHARI_LATENCY) continue;
        filled += wav_side(format, frames[2 * i], bytes + filled);
        filled += wav_side(format, frames[2 * i + 1], bytes + filled);
    }
    fwrite(bytes, 1, filled, out);
    return 0;
}

/* The samples buffer by buffer, then silence until the strip rests, and as much more as waits in the ceiling. */
static uint64_t process(const struct wav *wav) {
    double buffer[BUFFER];
    uint64_t number, rests;
    for (size_t at = 0; at < wav->count;) {
        size_t len = 0;
        while (len < BUFFER && at < wav->count) buffer[len++] = wav_sample(wav, at++);
        if ((number = played(buffer, len))) return number;
    }
    memset(buffer, 0, sizeof buffer);
    for (;;) {
        if ((number = goqhari_strip_rest(&strip, &rests))) return number;
        if (rests) return played(buffer, GOQHARI_LATENCY);
        if ((number = played(buffer, BUFFER))) return number;
    }
}

/* All bytes of a file, or NULL. */
static unsigned char *all_of(const char *path, size_t *len) {
    FILE *in = fopen(path, "rb");
    if (!in) return NULL;
    size_t room = 1 << 16;
    unsigned char *bytes = malloc(room);
    *len = 0;
    while (bytes && (*len += fread(bytes + *len, 1, room - *len, in)) == room) {
        unsigned char *more = realloc(bytes, room *= 2);
        if (!more) free(bytes);
        bytes = more;
    }
    if (ferror(in)) {
        free(bytes);
        bytes = NULL;
    }
    fclose(in);
    return bytes;
}

static int to_file(const struct wav *wav, const char *path) {
    const struct goqhari_setup setup = GOQHARI_SETUP_DEFAULT;
    uint64_t number = goqhari_strip_open(&strip, &setup, NULL, NULL, 0, NULL, 0);
    if (number) return refused(number);
    out = fopen(path, "wb");
    if (!out) return failed("the output can't be opened");
    format = wav->format;
    /* the header is written again when the number of frames is known */
    unsigned char header[WAV_HEADER] = {0};
    fwrite(header, 1, sizeof header, out);
    number = process(wav);
    uint64_t frames = heard < GOQHARI_LATENCY ? 0 : heard - GOQHARI_LATENCY;
    int fits = frames * 2 * wav_bytes(format) <= UINT32_MAX - 36;
    wav_header(format, (uint32_t)frames, header);
    int seeks = !fseek(out, 0, SEEK_SET);
    fwrite(header, 1, sizeof header, out);
    int written = seeks && !ferror(out);
    if (fclose(out)) written = 0;
    if (number) return refused(number);
    if (!fits) return failed("the frames are too many for a WAV");
    return written ? 0 : failed("the output can't be written");
}

int main(int count, char **paths) {
    if (count != 3) {
        fputs("use: process IN.wav OUT.wav\n", stderr);
        return 2;
    }
    size_t len;
    unsigned char *bytes = all_of(paths[1], &len);
    if (!bytes) return failed("the input can't be read");
    struct wav wav;
    const char *wrong = wav_read(bytes, len, &wav);
    int status = wrong ? failed(wrong) : to_file(&wav, paths[2]);
    free(bytes);
    return status;
}
