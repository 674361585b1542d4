/* One reading round of a V-notch weir.
 *
 * The seepage that the dam's drains collect runs over a 90-degree V-notch, and
 * a sensor reads the head of water above the vertex of the notch, in tenths of
 * a millimetre. The round takes the mean of four readings, since the water is
 * never quite still, works out the flow, records both, and records an alarm
 * where the flow is above its limit. A head past the end of the sensor's range
 * is recorded as a fault, without a flow.
 *
 *     Q = 1.38 h^2.5           Q in m3/s, h in m
 *     Q = 138 h^2.5 / 10^6     Q in ml/s, h in tenths of a millimetre
 *
 * Where the integers err: h^2.5 is h * h * root(h), and the root is taken in
 * 256ths and rounded down, so it is low by less than 1/256. That makes the flow
 * low by less than h * h / 1,855,000 ml/s, which is 0.6 ml/s of 4,364 at a head
 * of 100 mm, and 9.1 ml/s of 148,086 at the largest. The division rounds to the
 * nearest, so half a ml/s either way comes on top: 4 percent of the flow at a
 * head of 10 mm, a quarter of a percent at 30 mm. The coefficient 1.38 itself is
 * good to a percent at best.
 *
 * Nothing overflows: below OUT_OF_RANGE, 138 * h * h * root is below 2^46. */
#include "logger.h"

enum { HEAD = 0, FLOW = 1, FAULT = 8, ALARM = 9 };
enum { OUT_OF_RANGE = 4096 }; /* tenths of a millimetre */
enum { MOST_FLOW = 5000 };    /* ml/s */

static inline u64 mean_of_four(u64 channel)
{
    u64 sum = next_reading(channel);
    IDLE;
    sum += next_reading(channel);
    IDLE;
    sum += next_reading(channel);
    IDLE;
    sum += next_reading(channel);
    return (sum + 2) / 4;
}

/* The square root of a head in 256ths, rounded down: the largest number whose
 * square is at most head * 2^16, found bit by bit. It is below 2^14, since the
 * head is below 2^12. The compiler writes the 14 steps out one after the other:
 * a loop that goes round without a save is refused. */
static inline u32 root(u32 head)
{
    u32 square = head << 16;
    u32 r = 0;
#pragma unroll
    for (u32 bit = 1 << 13; bit != 0; bit >>= 1) {
        u32 next = r + bit;
        if (next * next <= square)
            r = next;
    }
    return r;
}

/* The divisor is 10^6 * 256, since the root is in 256ths. */
static inline u64 flow_of(u64 head)
{
    return (138 * head * head * root(head) + 128000000) / 256000000;
}

void reading_round(void)
{
    u64 head = mean_of_four(HEAD);
    IDLE_AFTER(head);
    if (head >= OUT_OF_RANGE) {
        record(FAULT, head);
        return;
    }
    record(HEAD, head);
    IDLE_AFTER(head);
    u64 flow = flow_of(head);
    IDLE_AFTER(flow);
    record(FLOW, flow);
    if (flow > MOST_FLOW) {
        IDLE;
        record(ALARM, flow);
    }
}
