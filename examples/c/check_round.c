/* Takes a round along the whole way to the borehole, from C: is it lawful, does
 * it fit a charge, which saves have to be placed, and what does it record on a
 * capacitor whose charge is cut on the way? Nothing here allocates.
 *
 *   check_round ROUND TAPE MICROFARADS
 *
 * ROUND is an image, TAPE a text of readings, one a line (other lines are
 * passed over), and the capacitor works between 3 and 1 volts, in units of a microjoule: 4 units a microfarad. */
#include "yatesorrel.h"

#include <inttypes.h>
#include <stdio.h>
#include <stdlib.h>

enum { MOST_BYTES = 8192, MOST_READINGS = 1024, TOP = 3000, BOTTOM = 1000, UNIT = 1000000 };

/* the step before which the supply is cut, and how many are asked for at most */
enum { CUT_AT = 30, MOST_STEPS = 100000 };

static uint8_t image[MOST_BYTES + 1];
static uint32_t tape[MOST_READINGS];
static yatesorrel_worth working[YATESORREL_WORKING_ENTRIES];
static yatesorrel_rig rig;
static yatesorrel_state mains_state;

static const yatesorrel_prices prices = { YATESORREL_OPERAND_PRICES, { 0 } };

static size_t read_image(const char *name)
{
    FILE *file = fopen(name, "rb");
    size_t length;

    if (file == NULL) {
        perror(name);
        exit(2);
    }
    /* one byte more than an image may have, so that a longer file is refused */
    length = fread(image, 1, sizeof image, file);
    fclose(file);
    return length;
}

static size_t read_tape(const char *name)
{
    FILE *file = fopen(name, "r");
    char line[80];
    size_t length = 0;

    if (file == NULL) {
        perror(name);
        exit(2);
    }
    while (length < MOST_READINGS && fgets(line, sizeof line, file) != NULL)
        if (sscanf(line, "%" SCNu32, &tape[length]) == 1)
            length++;
    fclose(file);
    return length;
}

static void print_answer(const char *call, yatesorrel_answer answer)
{
    printf("%s: ", call);
    if (answer.refusal.number == YATESORREL_ACCEPTED) {
        printf("accepted\n");
        return;
    }
    printf("refused %d, slot %d, price %" PRIu64, answer.refusal.number, answer.refusal.slot, answer.refusal.price);
    if (answer.carried.number != 0)
        printf(", with every idle slot a save %d, slot %d, price %" PRIu64, answer.carried.number, answer.carried.slot, answer.carried.price);
    printf("\n");
}

static void print_log(const yatesorrel_state *state)
{
    size_t i;

    for (i = 0; i < state->logged && i < 64; i++)
        printf("record %d: sensor %d, value %" PRIu64 "\n", (int)i, state->log[i].sensor, state->log[i].value);
}

/* Steps the rig to its end, cut once on the way. */
static void rehearse(size_t image_length, size_t tape_length)
{
    int step;

    for (step = 0; step < MOST_STEPS; step++) {
        yatesorrel_attempt attempt;

        if (step == CUT_AT && yatesorrel_rig_cut(&rig).number != 0)
            printf("the cut is refused\n");
        attempt = yatesorrel_rig_step(&rig, &prices, image, image_length, tape, tape_length);
        if (attempt.refusal.number != 0 || attempt.ending != YATESORREL_GOES_ON) {
            printf("step %d: refused %d, said yes %d, ending %d\n", step, attempt.refusal.number, attempt.said_yes, attempt.ending);
            return;
        }
    }
}

static void print_counts(void)
{
    yatesorrel_counts counts = yatesorrel_rig_counts(&rig);

    printf("charges %" PRIu64 ", saves %" PRIu32 ", cuts %" PRIu32 ", attempts %" PRIu32 ", assured %" PRIu64 "\n",
           counts.charges, counts.saves, counts.cuts, counts.attempts, counts.assured);
}

/* Whether the rig left the log of a run that nothing interrupts. */
static int same_log(size_t image_length, size_t tape_length)
{
    uint64_t steps = yatesorrel_run(image, image_length, tape, tape_length, MOST_STEPS, &mains_state);
    size_t i;

    printf("on the mains it takes %" PRIu64 " steps\n", steps);
    if (rig.kept.logged != mains_state.logged)
        return 0;
    for (i = 0; i < mains_state.logged; i++)
        if (rig.kept.log[i].sensor != mains_state.log[i].sensor || rig.kept.log[i].value != mains_state.log[i].value)
            return 0;
    return 1;
}

static int take_to_the_borehole(size_t image_length, size_t tape_length, uint32_t microfarads)
{
    uint64_t budget = (uint64_t)microfarads * 4;
    yatesorrel_answer answer = yatesorrel_lawful(image, image_length);
    yatesorrel_capacity least;
    yatesorrel_supply supply;
    int same;

    print_answer("lawful", answer);
    if (answer.refusal.number != 0)
        return 1;
    answer = yatesorrel_certify(image, image_length, &prices, budget, working, YATESORREL_WORKING_ENTRIES);
    print_answer("certified as it is", answer);
    answer = yatesorrel_place(image, image_length, &prices, budget, working, YATESORREL_WORKING_ENTRIES);
    print_answer("saves placed", answer);
    if (answer.refusal.number != 0)
        return 1;
    printf("its first stretch costs %" PRIu64 " at most\n", working[0].price);
    least = yatesorrel_least_capacity(image, image_length, &prices, TOP, BOTTOM, UNIT, working, YATESORREL_WORKING_ENTRIES);
    print_answer("the least capacitor", least.answer);
    printf("it has %" PRIu32 " microfarads\n", least.microfarads);

    if (yatesorrel_capacitor(microfarads, TOP, BOTTOM, UNIT, &supply).number != 0)
        return 1;
    if (yatesorrel_rig_begin(&rig, &supply).number != 0)
        return 1;
    rehearse(image_length, tape_length);
    print_counts();
    print_log(&rig.kept);
    same = same_log(image_length, tape_length);
    printf(same ? "the logs are alike\n" : "THE LOGS DIFFER\n");
    return !same;
}

int main(int argc, char **argv)
{
    size_t image_length, tape_length;

    if (argc != 4) {
        fprintf(stderr, "check_round ROUND TAPE MICROFARADS\n");
        return 2;
    }
    image_length = read_image(argv[1]);
    tape_length = read_tape(argv[2]);
    return take_to_the_borehole(image_length, tape_length, (uint32_t)strtoul(argv[3], NULL, 10));
}
