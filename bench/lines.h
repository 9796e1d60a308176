/* The lines that the programs in C print, gathered and written when a window is full: plain.c and walk.c. */
#ifndef LINES_H
#define LINES_H

#include "twin.h"

#include <string.h>
#include <unistd.h>

#define WINDOW 65536
#define LINE 320 /* no line is longer */

static uint8_t out[WINDOW];
static size_t written;

static void flush(void)
{
    for (size_t done = 0; done < written;) {
        ssize_t put = write(1, out + done, written - done);
        if (put <= 0) _exit(1);
        done += (size_t)put;
    }
    written = 0;
}

static void word(const char *text)
{
    size_t size = strlen(text);
    memcpy(out + written, text, size);
    written += size;
}

static void number(int64_t x)
{
    uint8_t digits[20];
    int count = 0;
    uint64_t left = x < 0 ? 0 - (uint64_t)x : (uint64_t)x;
    do digits[count++] = (uint8_t)('0' + left % 10);
    while (left /= 10);
    if (x < 0) out[written++] = '-';
    while (count > 0) out[written++] = digits[--count];
}

static void pair(const char *text, uint64_t a, uint64_t b)
{
    word(text), number((int64_t)a), word(" "), number((int64_t)b);
}

/* The line of the frame that a marker closes. */
INLINE void frame_line(struct twin *w, const struct rules *r)
{
    int64_t row[ROW];
    row_of(w, r, row);
    if (written + LINE > WINDOW) flush();
    word("frame");
    for (int k = 0; k < ROW; k++) word(" "), number(row[k]);
    word("\n");
}

/* The last line, but for its end. */
static void last_words(const struct twin *w)
{
    static const char *const buffers[] = {"none", "pass", "under ", "over ", "broken "};
    if (written + LINE > WINDOW) flush();
    word("packets "), number((int64_t)w->packets), word(" frames "), number((int64_t)w->closed), word(" peak "), number((int64_t)w->peak);
    word(" network ");
    if (w->burst) pair("burst ", w->burst_first, w->burst_last);
    else word("pass");
    word(" buffer ");
    if (w->buffer > PASS) pair(buffers[w->buffer], w->buffer_frame, w->buffer_place);
    else word(buffers[w->buffer]);
}

#endif
