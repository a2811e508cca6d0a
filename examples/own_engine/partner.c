/* A driver and an engine of your own around the unit, in C: the same as partner.py.

    cc -O2 -o partner examples/own_engine/partner.c -lm && egasim partner ./partner CAMPAIGN RUN >record.csv */

#include <math.h>
#include <stdio.h>
#include <string.h>

enum { KT = 2500, TICKS = 100 };

struct drive { int pedal, speed, raise, reset, brake; };
struct shown { int position, load, torque; };

static struct drive driver(int tick)
{
    static const struct drive rows[] = { { 0, 800, 0, 0, 0 }, { 300, 1500, 0, 0, 0 }, { 0, 1200, 0, 0, 0 } };
    return rows[(tick >= 10) + (tick >= 40)];
}

/* One tick. held is -1 unless a fault holds the plate. */
static struct shown step(int speed, int throttle, int ignition, int on, int held)
{
    static double charge = 40;
    (void)speed; /* which doesn't count here */
    int position = held >= 0 ? held : on ? throttle : 0;
    charge += (fmax(40, position) - charge) / 8;
    int load = (int)rint(charge);
    return (struct shown){ position, load, on ? (int)((long long)load * KT * ignition / 1000000) : 0 };
}

int main(void)
{
    char line[512];
    char *header = fgets(line, sizeof line, stdin);
    for (int tick = 0; header && tick < TICKS && fgets(line, sizeof line, stdin); tick++) {
        char *last = line + strlen(line);
        for (int commas = 0; commas < 4; commas += *last == ',')
            last--;
        int throttle, ignition, on, held = -1; /* held is `-` mostly, which leaves it -1 */
        sscanf(last, ",%d,%d,%d,%d", &throttle, &ignition, &on, &held);
        struct drive row = driver(tick);
        throttle = row.reset ? 0 : fmin(throttle, 1000);
        ignition = row.reset ? 0 : fmin(ignition, 1000);
        struct shown shown = step(row.speed, throttle, ignition, on && !row.reset, held);
        printf("%d,%d,%d,%d,%d,", row.pedal, row.speed, row.raise, row.reset, row.brake);
        printf("%d,%d,%d,%d\n", shown.position, shown.load, shown.load, shown.torque);
        fflush(stdout);
    }
    return 0;
}
