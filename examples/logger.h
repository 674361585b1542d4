/* The logger's helpers, as a reading round calls them. */
#ifndef LOGGER_H
#define LOGGER_H

typedef unsigned int u32;
typedef unsigned long long u64;

/* Keeps the state: after a lost charge the round starts again from here. */
static void (*const save)(void) = (void *)1;

/* The next reading of the sensor on a channel. */
static u64 (*const next_reading)(u64 channel) = (void *)2;

/* Appends a record to the log. */
static u64 (*const record)(u64 sensor, u64 value) = (void *)3;

/* An idle slot: a place where the placer may put a save. It keeps its order with
 * the helpers and other idle slots; arithmetic may be moved across it. */
#define IDLE asm volatile("goto +0")

/* An idle slot that stands after a u64 was worked out and before it is used. */
#define IDLE_AFTER(value) asm volatile("goto +0" : "+r"(value))

#endif
