/* Hits of a detector with 256 channels, from the big-endian records of a digitizer: counted, walked channel by
 * channel, scaled to one exponent a scan, and checked. RV64GC with Zbb, no libc.
 *
 * Prints a line a scan, then a line for the channel with the most hits and one for all; the exit status is the number
 * of records that do not fit their checksum or their number of hits. */
#include "../guest.h"

#define SCANS 24
#define WORDS 4 /* of a bitmap */
#define CHANNELS (64 * WORDS)
#define LONGEST (1 + WORDS + CHANNELS / 4 + 2)

/* A record, in words of eight bytes, the highest byte first:
 * - scan number (32 bits), the detector's load (16), number of sample words (16);
 * - the bitmap of the channels that were hit, channel 0 the lowest bit of the first word;
 * - a sample for each of these, 16 bits, signed, four to a word, the first the highest;
 * - a byte for each of seven boards, not 0 where it has a fault, and the drift of the base line (8, signed);
 * - the checksum of the words before. */
static uint64_t records[SCANS * LONGEST];

/* Channels that are known to be dead, and those that are watched. */
static const uint64_t dead[WORDS] = {0x8001, 0, UINT64_C(1) << 40, 0};
static const uint64_t watched[WORDS] = {~UINT64_C(0), 0xFFFF, UINT64_C(0xFFFF) << 32, 0xF0F0F0F0F0F0F0F0};

struct channel {
    int64_t lowest, highest;
    uint64_t hits, first, last; /* how many, and the scans of the first and of the last */
};
static struct channel channels[CHANNELS];

struct scan {
    uint64_t number, hits, again, unchanged, faults, board;
    int64_t sum, drift;
    uint32_t load, signature; /* the detector's load without trailing zeros, what the watched channels did */
    int bits, exponent;       /* of the load, and of the highest sample */
};

static uint64_t rotate(uint64_t number, unsigned by)
{
    return number << (by & 63) | number >> (-by & 63);
}

static uint32_t rotate_word(uint32_t number, unsigned by)
{
    return number >> (by & 31) | number << (-by & 31);
}

/* 0xff in each byte that is not 0. */
static uint64_t bytes_set(uint64_t number)
{
    uint64_t set;
    __asm__("orc.b %0, %1" : "=r"(set) : "r"(number));
    return set;
}

/* The checksum with a record's next word. */
static uint64_t checked(uint64_t word, uint64_t sum)
{
    return rotate(sum, 7 + (unsigned)(sum >> 61)) ^ word;
}

/* ---- the digitizer */

static uint64_t noise(uint64_t state[2])
{
    uint64_t a = state[0], b = state[1], drawn = a + b;
    b ^= a;
    state[0] = rotate(a, 24) ^ b ^ b << 16;
    state[1] = rotate(b, 37);
    return drawn;
}

static uint64_t *emit(uint64_t *to, uint64_t word, uint64_t *sum)
{
    *sum = checked(word, *sum);
    *to = __builtin_bswap64(word);
    return to + 1;
}

/* A sample around the base line, in few scans a large one. */
static uint64_t sample(uint64_t drawn)
{
    return ((drawn >> 20 & 15 ? drawn % 1024 : drawn % 30000) - 300) & 0xFFFF;
}

static uint64_t *digitize(uint64_t *to, uint64_t scan, uint64_t state[2])
{
    uint64_t map[WORDS], hits = 0, sum = scan, packed = 0;
    for (int i = 0; i < WORDS; i++) {
        map[i] = noise(state) & noise(state) & noise(state);
        hits += __builtin_popcountll(map[i]);
    }
    to = emit(to, scan << 32 | (noise(state) & 0xFFFF) << 16 | (hits + 3) / 4, &sum);
    for (int i = 0; i < WORDS; i++)
        to = emit(to, map[i], &sum);
    for (uint64_t n = 1; n <= (hits + 3) / 4 * 4; n++) {
        packed = packed << 16 | (n <= hits ? sample(noise(state)) : 0);
        if (n % 4 == 0)
            to = emit(to, packed, &sum);
    }
    to = emit(to, noise(state) & (scan % 5 ? 0xFF : 0x00030001010001FF), &sum);
    *to = __builtin_bswap64(sum);
    return to + 1;
}

/* ---- the reader */

/* One hit: the channel's range and its scans. */
static void take(struct channel *channel, int64_t height, uint64_t scan)
{
    channel->lowest = height < channel->lowest ? height : channel->lowest;
    channel->highest = height > channel->highest ? height : channel->highest;
    channel->first = scan < channel->first ? scan : channel->first;
    channel->last = scan > channel->last ? scan : channel->last;
    channel->hits++;
}

/* The hits of a bitmap, the lowest channel first; the bits of their heights together. Samples are packed. */
static uint64_t walk(struct scan *scan, const uint64_t *map, const uint64_t *samples)
{
    uint64_t together = 0, taken = 0;
    for (int i = 0; i < WORDS; i++)
        for (uint64_t left = map[i]; left; left &= left - 1, taken++) {
            int channel = 64 * i + __builtin_ctzll(left);
            uint64_t packed = __builtin_bswap64(samples[taken / 4]);
            int64_t height = (int16_t)(packed >> (48 - taken % 4 * 16)) - scan->drift;
            take(&channels[channel], height, scan->number);
            scan->sum += height;
            together |= height < 0 ? -height : height;
        }
    return together;
}

/* How many channels were hit again, dead ones apart, how many are as before, and the signature of the watched ones. */
static void beside(struct scan *scan, const uint64_t *map, uint64_t *before)
{
    for (int i = 0; i < WORDS; i++) {
        scan->again += __builtin_popcountll(map[i] & before[i] & ~dead[i]);
        scan->unchanged += __builtin_popcountll(~(map[i] ^ before[i]));
        uint32_t low = (uint32_t)(map[i] | ~watched[i]), high = (uint32_t)(map[i] & watched[i]);
        uint32_t turned = rotate_word(scan->signature, 27);
        scan->signature = turned + __builtin_popcount(low) * __builtin_popcount(high);
        before[i] = map[i];
    }
}

/* Whether a record is as its checksum says. */
static int fits(const uint64_t *record, uint64_t words)
{
    uint64_t sum = __builtin_bswap64(record[0]) >> 32;
    for (uint64_t n = 0; n < words - 1; n++)
        sum = checked(__builtin_bswap64(record[n]), sum);
    return sum == __builtin_bswap64(record[words - 1]);
}

/* The head and the last word: the scan's number, its load, its drift and the boards with a fault. */
static void read_ends(struct scan *scan, uint64_t head, uint64_t status)
{
    uint32_t load = (uint32_t)head >> 16;
    uint64_t faults = bytes_set(status >> 8);
    scan->number = head >> 32;
    scan->load = load >> __builtin_ctz(load | 0x10000);
    scan->bits = 32 - __builtin_clz(load | 1);
    scan->signature = rotate_word(load, scan->number);
    scan->drift = (int8_t)status;
    scan->faults = __builtin_popcountll(faults) / 8;
    scan->board = faults ? __builtin_ctzll(faults) / 8 : 0;
}

/* Reads a record; how many words it has, 0 where it does not fit its checksum or its number of hits. */
static uint64_t read_record(const uint64_t *record, struct scan *scan, uint64_t *before)
{
    uint64_t head = __builtin_bswap64(record[0]), map[WORDS], words = (uint16_t)head;
    read_ends(scan, head, __builtin_bswap64(record[1 + WORDS + words]));
    for (int i = 0; i < WORDS; i++) {
        map[i] = __builtin_bswap64(record[1 + i]);
        scan->hits += __builtin_popcountll(map[i]);
    }
    if (!fits(record, 3 + WORDS + words) || (scan->hits + 3) / 4 != words)
        return 0;
    uint64_t together = walk(scan, map, record + 1 + WORDS);
    scan->exponent = 64 - __builtin_clzll(together | 1);
    beside(scan, map, before);
    return 3 + WORDS + words;
}

/* ---- what is printed */

static char *put_signed(char *to, int64_t number)
{
    if (number < 0)
        *to++ = '-';
    return put_number(to, number < 0 ? -(uint64_t)number : (uint64_t)number, 1);
}

static char *put_field(char *to, const char *name, int64_t number)
{
    return put_signed(put(to, name), number);
}

static void print(const char *line, char *end)
{
    *end++ = '\n';
    call(64, 1, (long)line, end - line); /* write */
}

static void report(const struct scan *scan)
{
    char line[160], *end = put_field(line, "scan ", scan->number);
    end = put_field(end, ": hits ", scan->hits);
    end = put_field(end, ", again ", scan->again);
    end = put_field(end, ", unchanged ", scan->unchanged);
    end = put_field(end, ", sum ", scan->sum);
    end = put_field(end, ", exponent ", scan->exponent);
    end = put_field(end, ", load ", scan->load);
    end = put_field(end, " of ", scan->bits);
    end = put_field(end, " bits, signature ", scan->signature);
    if (scan->faults) {
        end = put_field(end, ", faults ", scan->faults);
        end = put_field(end, " from board ", scan->board);
    }
    print(line, end);
}

/* The channel with the most hits, and the range of all. */
static void summary(uint64_t hits, int wrong)
{
    int most = 0;
    int64_t lowest = INT64_MAX, highest = INT64_MIN;
    for (int i = 0; i < CHANNELS; i++) {
        if (channels[i].hits > channels[most].hits)
            most = i;
        lowest = channels[i].lowest < lowest ? channels[i].lowest : lowest;
        highest = channels[i].highest > highest ? channels[i].highest : highest;
    }
    char line[160], *end = put_field(line, "channel ", most);
    end = put_field(end, ": hits ", channels[most].hits);
    end = put_field(end, ", from scan ", channels[most].first);
    end = put_field(end, " to ", channels[most].last);
    end = put_field(end, ", base line ", channels[most].lowest);
    print(line, put_field(end, ", top ", channels[most].highest));
    end = put_field(line, "all: hits ", hits);
    end = put_field(end, ", base line ", lowest);
    end = put_field(end, ", top ", highest);
    print(line, put_field(end, ", records that do not fit ", wrong));
}

void _start(void)
{
    uint64_t state[2] = {2, 7}, before[WORDS] = {0}, *to = records, hits = 0;
    for (int i = 0; i < CHANNELS; i++)
        channels[i] = (struct channel){INT64_MAX, INT64_MIN, 0, UINT64_MAX, 0};
    for (uint64_t scan = 0; scan < SCANS; scan++)
        to = digitize(to, scan, state);
    int wrong = 0;
    uint64_t words = 1;
    for (const uint64_t *at = records; at < to && words; at += words) {
        struct scan scan = {0};
        words = read_record(at, &scan, before);
        hits += scan.hits;
        wrong += !words;
        report(&scan);
    }
    summary(hits, wrong);
    call(93, wrong, 0, 0); /* exit */
    __builtin_unreachable();
}
