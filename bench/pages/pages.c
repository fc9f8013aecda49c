// Lays the cells of a book out on pages of 40 cells by 25 lines, plainly, for comparison with desk_brf. Like it, it looks first for a cell
// with dot 7 or 8, and turns cells into Braille ASCII as it lays them.
//   pages CELLS          writes the pages; each line of CELLS is a paragraph, `b` or `h` and its cells in Braille ASCII
//   pages CELLS TIMES    does so again and again into /dev/null, and prints how many pages a second that makes
#include <stdio.h>
#include <stdlib.h>
#include <string.h>
#include <time.h>

enum { WIDTH = 40, TEXT_LINES = 24 };

static const char ASCII[] = " A1B'K2L@CIF/MSP\"E3H9O6R^DJG>NTQ,*5<-U8V.%[$+X!&;:4\\0Z7(_?W]#Y)=";

struct paragraph {
    int heading;
    const unsigned char *cells, *end;
};

static FILE *out;
static char line[WIDTH + 2];
static int used;
static long lines;

static void end_line(void) {
    memcpy(line + used, "\r\n", 2);
    fwrite(line, 1, used + 2, out);
    used = 0;
}

static void put_line(void) {
    end_line();
    if (++lines % TEXT_LINES == 0) {
        char digits[24];
        int count = sprintf(digits, "%ld", lines / TEXT_LINES);
        while (used < WIDTH - count - 1) line[used++] = ' ';
        line[used++] = '#';
        for (int i = 0; i < count; i++) line[used++] = digits[i] == '0' ? 'J' : digits[i] + 16;
        end_line();
        fputc('\f', out);
    }
}

static void put_paragraph(const struct paragraph *paragraph) {
    const unsigned char *cells = paragraph->cells, *end = paragraph->end;
    int indent = paragraph->heading ? 4 : 2;
    while (cells < end && *cells == 0) cells++;
    if (cells == end) return;
    if (paragraph->heading && lines % TEXT_LINES != 0) put_line();
    while (cells < end) {
        memset(line, ' ', used = indent);
        for (int first = 1; cells < end; first = 0) {
            const unsigned char *stop = memchr(cells, 0, end - cells);
            int count = (stop ? stop : end) - cells, room = WIDTH - used - !first;
            if (count > room && !first) break;
            int taken = count > room ? room : count;
            if (!first) line[used++] = ' ';
            char *byte = line + used;
            for (const unsigned char *last = cells + taken; cells < last; cells++) *byte++ = ASCII[*cells];
            used += taken;
            if (taken < count) break;
            while (cells < end && *cells == 0) cells++;
        }
        put_line();
        indent = paragraph->heading ? 4 : 0;
    }
}

static int has_eight_dots(const struct paragraph *paragraph) {
    unsigned char dots = 0;
    for (const unsigned char *cell = paragraph->cells; cell < paragraph->end; cell++) dots |= *cell;
    return dots >= 64;
}

static void put_volume(const struct paragraph *paragraphs, const struct paragraph *end) {
    for (const struct paragraph *it = paragraphs; it < end; it++)
        if (has_eight_dots(it)) exit(1);
    lines = 0;
    for (const struct paragraph *it = paragraphs; it < end; it++) put_paragraph(it);
    while (lines % TEXT_LINES != 0) put_line();
}

static double seconds(void) {
    struct timespec now;
    timespec_get(&now, TIME_UTC);
    return now.tv_sec + now.tv_nsec / 1e9;
}

int main(int argc, char **argv) {
    FILE *in = fopen(argv[1], "rb");
    static unsigned char cells[64 << 20];
    static struct paragraph paragraphs[1 << 20], *end = paragraphs;
    unsigned char *stop = cells + fread(cells, 1, sizeof cells, in);
    for (unsigned char *cell = cells; cell < stop; cell++) {
        end->heading = *cell++ == 'h', end->cells = cell;
        for (; *cell != '\n'; cell++) *cell = strchr(ASCII, *cell) - ASCII;
        end++->end = cell;
    }
    int times = argc > 2 ? atoi(argv[2]) : 0;
    out = times ? fopen("/dev/null", "wb") : stdout;
    setvbuf(out, NULL, _IOFBF, 1 << 16);
    double start = seconds();
    for (int i = 0; i < (times ? times : 1); i++) put_volume(paragraphs, end);
    if (times) printf("%.0f\n", (double)times * (lines / TEXT_LINES) / (seconds() - start));
    return 0;
}
