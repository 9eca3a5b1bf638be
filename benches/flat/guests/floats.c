/* Floating point in software: gcc's library adds, multiplies and divides by integers. A step of three bodies in doubles. */
#include "guest.h"

enum { STEPS = 9000, BODIES = 3 };

static double place[BODIES][2] = {{0.0, 0.0}, {1.0, 0.0}, {0.0, 1.5}};
static double speed[BODIES][2] = {{0.0, 0.0}, {0.0, 1.0}, {-0.8, 0.0}};
static const double mass[BODIES] = {1.0, 0.001, 0.002};

static void step(double time)
{
    for (int i = 0; i < BODIES; i++) {
        for (int j = 0; j < BODIES; j++) {
            if (i == j)
                continue;
            double x = place[j][0] - place[i][0], y = place[j][1] - place[i][1];
            double square = x * x + y * y + 0.01;
            double pull = mass[j] * time / (square * square);
            speed[i][0] += pull * x;
            speed[i][1] += pull * y;
        }
    }
    for (int i = 0; i < BODIES; i++) {
        place[i][0] += time * speed[i][0];
        place[i][1] += time * speed[i][1];
    }
}

int main(void)
{
    for (int i = 0; i < STEPS; i++)
        step(0.001);
    for (int i = 0; i < BODIES; i++)
        print_number((u32)((place[i][0] + 100.0) * 1000000.0) ^ (u32)((place[i][1] + 100.0) * 1000000.0));
    return 0;
}
