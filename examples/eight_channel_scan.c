/* One reading round over eight channels.
 *
 * A multiplexer connects eight sensors, one after the other. The first reading
 * after it switches is taken while the line settles, and is thrown away; the
 * second is recorded under the channel's number. When all are read, the round
 * records the largest reading, and a checksum by which whoever collects the log
 * sees whether a record is missing, changed or out of order.
 *
 * The scan is a loop with a save inside: each time round has a full charge, so
 * that eight channels need no larger charge than one. The readings are in
 * memory, which a save keeps like everything else. */
#include "logger.h"

enum { CHANNELS = 8, LARGEST = 100, CHECKSUM = 101 };

static inline u32 settled_reading(u64 channel)
{
    next_reading(channel);
    IDLE;
    return next_reading(channel);
}

void reading_round(void)
{
    u32 readings[CHANNELS];
    u32 largest = 0;
#pragma clang loop unroll(disable)
    for (u32 channel = 0; channel < CHANNELS; channel++) {
        u32 reading = settled_reading(channel);
        IDLE;
        readings[channel] = reading;
        largest = reading > largest ? reading : largest;
        record(channel, reading);
        save();
    }
    record(LARGEST, largest);
    IDLE;

    /* There is no save in this one, so the compiler writes its steps out. */
    u32 checksum = 0;
#pragma unroll
    for (u32 channel = 0; channel < CHANNELS; channel++)
        checksum = 31 * checksum + readings[channel];
    record(CHECKSUM, checksum);
}
