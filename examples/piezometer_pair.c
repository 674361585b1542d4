/* One reading round of a piezometer pair.
 *
 * Two piezometers stand on both sides of the dam's core. The round reads each
 * three times, takes the middle reading, records both, and records an alarm
 * where the head across the core has fallen below its limit: water that should
 * be held back is on its way through. */
#include "logger.h"

enum { UPSTREAM = 0, DOWNSTREAM = 1, ALARM = 9 };
enum { LEAST_HEAD = 250 };

static inline u32 middle(u32 a, u32 b, u32 c)
{
    u32 low = a < b ? a : b;
    u32 high = a < b ? b : a;
    if (c < low)
        return low;
    return c < high ? c : high;
}

static inline u32 read_thrice(u64 channel)
{
    u32 a = next_reading(channel);
    IDLE;
    u32 b = next_reading(channel);
    IDLE;
    u32 c = next_reading(channel);
    return middle(a, b, c);
}

void reading_round(void)
{
    u32 up = read_thrice(UPSTREAM);
    IDLE;
    record(UPSTREAM, up);
    save();
    u32 down = read_thrice(DOWNSTREAM);
    IDLE;
    record(DOWNSTREAM, down);
    if (up < down + LEAST_HEAD) {
        IDLE;
        record(ALARM, (u64)up - down);
    }
}
