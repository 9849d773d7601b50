/* The centroids of three lock masses (polysiloxane ions) in fixed point, from sampled intensities. RV64IMC, no libc.
 *
 * Prints a line a peak; the exit status is the number of peaks whose centroid is off by more than 0.0005. */
#include "../guest.h"

#define SAMPLES 32
#define SCANS 16
#define TOLERANCE 5000 /* 0.0005 */

/* m/z in units of 10^-7. */
struct peak {
    int64_t mass;  /* as known */
    int64_t first; /* of the first sample */
    int64_t step;
    uint16_t samples[SAMPLES];
};

static const struct peak peaks[] = {
    {3711012000, 3710850000, 12500,
     {520,  732,  1036, 1467, 2072, 2792, 3691, 4713, 5775, 6848, 7853, 8599, 9097, 9273, 9073, 8564,
      7782, 6763, 5714, 4639, 3626, 2736, 2004, 1448, 1028, 686,  487,  362,  270,  240,  208,  213}},
    {4451200000, 4451000000, 12500,
     {1427,  2081,  3023,  4288,  5951,  8092,  10688, 13823, 17392, 21293, 25420,
      29504, 33323, 36648, 39246, 40884, 41424, 40869, 39223, 36644, 33320, 29510,
      25409, 21299, 17394, 13831, 10709, 8067,  5952,  4278,  3009,  2106}},
    {5191388000, 5191160000, 12500,
     {812,   1069,  1418,  1882,  2444,  3172,  4038,  5051,  6251,  7578,  8959,
      10473, 11962, 13384, 14707, 15856, 16719, 17315, 17550, 17471, 17038, 16308,
      15264, 14032, 12635, 11188, 9694,  8222,  6881,  5634,  4505,  3573}},
};

/* One scan: the samples with the base line taken off and the detector's noise put on. */
static void scan(const struct peak *peak, uint32_t *noise, int32_t *heights)
{
    int32_t base = INT32_MAX;
    for (int i = 0; i < SAMPLES; i++) {
        *noise = *noise * 1103515245 + 12345;
        heights[i] = peak->samples[i] + (int32_t)(*noise >> 16) % 64 - 32;
        if (heights[i] < base)
            base = heights[i];
    }
    for (int i = 0; i < SAMPLES; i++)
        heights[i] -= base;
}

/* The intensity-weighted mean of the samples above half of the highest. */
static int64_t centroid(const struct peak *peak, const int32_t *heights, int64_t *area)
{
    int32_t apex = 0;
    for (int i = 0; i < SAMPLES; i++)
        if (heights[i] > apex)
            apex = heights[i];
    int64_t sum = 0, moment = 0;
    for (int i = 0; i < SAMPLES; i++) {
        if (heights[i] < apex / 2)
            continue;
        sum += heights[i];
        moment += (int64_t)heights[i] * i;
    }
    *area += sum;
    return peak->first + moment * peak->step / sum;
}

/* Returns 1 if the centroid is off. */
static int report(const struct peak *peak, uint32_t *noise)
{
    int32_t heights[SAMPLES];
    int64_t sum = 0, area = 0;
    for (int i = 0; i < SCANS; i++) {
        scan(peak, noise, heights);
        sum += centroid(peak, heights, &area);
    }
    int64_t mass = sum / SCANS, off = mass - peak->mass;
    char line[80], *end = put(line, "centroid m/z ");
    end = put_number(end, mass / 10000000, 1);
    end = put(end, ".");
    end = put_number(end, mass % 10000000, 7);
    end = put(end, ", area ");
    end = put_number(end, area / SCANS, 1);
    end = put(end, off > TOLERANCE || off < -TOLERANCE ? ", off\n" : ", as known to 0.0005\n");
    call(64, 1, (long)line, end - line); /* write */
    return off > TOLERANCE || off < -TOLERANCE;
}

void _start(void)
{
    uint32_t noise = 2;
    int off = 0;
    for (unsigned i = 0; i < sizeof peaks / sizeof *peaks; i++)
        off += report(&peaks[i], &noise);
    call(93, off, 0, 0); /* exit */
    __builtin_unreachable();
}
