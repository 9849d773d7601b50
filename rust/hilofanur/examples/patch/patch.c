/* Field calibration: the gain of a detector stands in an instruction of the loop that sums its samples. For each gain the
 * program writes that instruction anew, executes FENCE.I and sums again. RV64IMC with Zifencei, no libc.
 *
 * Prints a line a calibration; the exit status is the number of those that are off. */
#include "../guest.h"

#define SAMPLES 16
#define CALIBRATIONS 5

static const uint16_t samples[SAMPLES] = {520,  1036, 2072, 3691, 5775, 7853, 9097, 9273,
                                          8564, 6763, 4639, 2736, 1448, 686,  362,  240};

/* In loop.S. */
int64_t area(const uint16_t *samples, long number);
long calibrate(uint32_t gain, uint32_t number);

/* LI of a number below 2,048, which is ADDI from x0. */
enum { T1 = 6, A0 = 10 };
static uint32_t li(uint32_t rd, uint32_t number)
{
    return number << 20 | rd << 7 | 0x13;
}

/* Returns 1 if the area or the calibration's number is off. */
static int report(long number, long gain, int64_t expected)
{
    int64_t before = area(samples, SAMPLES);
    long found = calibrate(li(T1, gain), li(A0, number));
    int64_t after = area(samples, SAMPLES);
    char line[80], *end = put(line, "calibration ");
    end = put_number(end, found, 1);
    end = put(end, ", gain ");
    end = put_number(end, gain, 1);
    end = put(end, ": area ");
    end = put_number(end, before, 1);
    end = put(end, " before, ");
    end = put_number(end, after, 1);
    end = put(end, " after\n");
    call(64, 1, (long)line, end - line); /* write */
    return found != number || after != expected;
}

void _start(void)
{
    int64_t sum = 0;
    for (int i = 0; i < SAMPLES; i++)
        sum += samples[i];
    int off = 0;
    for (long number = 1; number <= CALIBRATIONS; number++)
        off += report(number, number + 1, (number + 1) * sum);
    call(93, off, 0, 0); /* exit */
    __builtin_unreachable();
}
