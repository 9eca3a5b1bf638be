/* The Mandelbrot set in letters, by fixed-point numbers: 12 bits behind the point, so that no floating point is needed.
   The picture is kept whole and written at the end, more bytes than one call takes. */
#include "paged.h"

enum { WIDTH = 76, HEIGHT = 28, POINT = 12, MOST = 60 };

static char picture[HEIGHT * (WIDTH + 1)];

static int steps_of(int real, int imaginary)
{
    int x = 0, y = 0, steps = 0;
    while (steps < MOST && x * x + y * y < 4 << (2 * POINT)) {
        int next = ((x * x - y * y) >> POINT) + real;
        y = ((2 * x * y) >> POINT) + imaginary;
        x = next;
        steps++;
    }
    return steps;
}

int main(void)
{
    static const char shades[] = " .,:;+*%#@";
    char *put = picture;
    for (int row = 0; row < HEIGHT; row++) {
        int imaginary = (row * 2 - (HEIGHT - 1)) * ((12 << POINT) / 10) / (HEIGHT - 1);
        for (int column = 0; column < WIDTH; column++) {
            int real = column * (3 << POINT) / (WIDTH - 1) - (21 << POINT) / 10;
            int steps = steps_of(real, imaginary);
            *put++ = shades[steps == MOST ? 9 : steps / 2 < 8 ? steps / 2 : 8];
        }
        *put++ = '\n';
    }
    write_all(picture, sizeof picture);
    return 0;
}
