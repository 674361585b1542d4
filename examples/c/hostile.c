/* Calls that no careful caller makes: null lists, lists too short, garbage in
 * every struct, numbers at their edges. Each has to return, answer what the
 * header says, and leave what it says. The status is 1 where one does not. */
#include "yatesorrel.h"

#include <stdio.h>
#include <string.h>

#define HOLDS(fact) holds((fact), #fact, __LINE__)

enum { MANY = 1 << 22, FUZZED = 20000 };

static int failed;
static uint32_t long_tape[MANY];
static yatesorrel_worth working[YATESORREL_WORKING_ENTRIES + 1];
static uint64_t seed = 88172645463325252u;

/* r1 = 7; next reading; r2 = r0; idle; record; EXIT */
static const uint8_t six[48] = {
    0xb7, 1, 0, 0, 7, 0, 0, 0, 0x85, 0, 0, 0, 2, 0, 0, 0, 0xbf, 2, 0, 0, 0, 0, 0, 0,
    0x05, 0, 0, 0, 0, 0, 0, 0, 0x85, 0, 0, 0, 3, 0, 0, 0, 0x95, 0, 0, 0, 0, 0, 0, 0,
};

/* a jump to itself */
static const uint8_t loop[8] = { 0x05, 0, 0xff, 0xff, 0, 0, 0, 0 };

static yatesorrel_prices operand;
static yatesorrel_prices tens;

static void holds(int fact, const char *text, int line)
{
    if (!fact) {
        printf("line %d: NOT SO: %s\n", line, text);
        failed = 1;
    }
}

static uint64_t random_bits(void)
{
    seed ^= seed << 13;
    seed ^= seed >> 7;
    seed ^= seed << 17;
    return seed;
}

static void scramble(void *bytes, size_t length)
{
    size_t i;

    for (i = 0; i < length; i++)
        ((uint8_t *)bytes)[i] = (uint8_t)random_bits();
}

static int is_number(int number)
{
    return number <= 13 || (number >= 21 && number <= 24) || (number >= 101 && number <= 103);
}

static void lists_of_nothing(void)
{
    yatesorrel_state state;
    yatesorrel_supply supply;
    yatesorrel_rig rig;

    HOLDS(yatesorrel_lawful(NULL, 0).refusal.number == YATESORREL_LENGTH);
    HOLDS(yatesorrel_certify(NULL, 0, &operand, 1, NULL, 0).refusal.number == YATESORREL_WORKING_LIST);
    HOLDS(yatesorrel_certify(NULL, 0, &operand, 1, working, 1024).refusal.number == YATESORREL_LENGTH);
    HOLDS(yatesorrel_place(NULL, 0, &operand, 1, NULL, 0).refusal.number == YATESORREL_WORKING_LIST);
    HOLDS(yatesorrel_place(NULL, 0, &operand, 1, working, 1024).refusal.number == YATESORREL_LENGTH);
    HOLDS(yatesorrel_least_budget(NULL, 0, &operand, NULL, 0).answer.refusal.number == YATESORREL_WORKING_LIST);
    HOLDS(yatesorrel_least_capacity(NULL, 0, &operand, 0, 0, 0, NULL, 0).answer.refusal.number == YATESORREL_SUPPLY_NUMBERS);
    HOLDS(yatesorrel_run(NULL, 0, NULL, 0, UINT64_MAX, &state) == 1);
    HOLDS(state.ending == YATESORREL_TRAP_BAD_SLOT);
    HOLDS(yatesorrel_run(NULL, 0, NULL, 0, 0, &state) == 0 && state.ending == YATESORREL_GOES_ON);
    HOLDS(yatesorrel_run(six, sizeof six, NULL, 0, 100, &state) == 2 && state.ending == YATESORREL_TRAP_TAPE_FINISHED);
    yatesorrel_state_begin(&state);
    HOLDS(yatesorrel_state_step(&state, NULL, 0, NULL, 0).did == YATESORREL_NO_INSTRUCTION);
    HOLDS(yatesorrel_state_step(&state, NULL, 0, NULL, 0).did == YATESORREL_DID_NOTHING);
    yatesorrel_mains(&supply);
    HOLDS(yatesorrel_rehearse(&supply, &operand, NULL, 0, NULL, 0, NULL, 0, NULL, 0, &rig).number == 0);
    HOLDS(rig.attempts == 0 && rig.supply.charges == 1);
    HOLDS(yatesorrel_rig_step(&rig, &operand, NULL, 0, NULL, 0).ending == YATESORREL_TRAP_BAD_SLOT);
    HOLDS(yatesorrel_rig_step(&rig, &operand, NULL, 0, NULL, 0).refusal.number == YATESORREL_ENDED);
    HOLDS(yatesorrel_rig_cut(&rig).number == YATESORREL_ENDED);
}

static void budgets(void)
{
    HOLDS(yatesorrel_certify(six, sizeof six, &operand, 0, working, 1024).refusal.number == YATESORREL_BUDGET);
    HOLDS(yatesorrel_certify(six, sizeof six, &operand, 100000001, working, 1024).refusal.number == YATESORREL_BUDGET);
    HOLDS(yatesorrel_certify(six, sizeof six, &operand, UINT64_MAX, working, 1024).refusal.number == YATESORREL_BUDGET);
    HOLDS(yatesorrel_certify(six, sizeof six, &operand, 100000000, working, 1024).refusal.number == 0);
    HOLDS(yatesorrel_certify(six, sizeof six, &operand, 258, working, 1024).refusal.number == 0);
    HOLDS(working[0].price == 258 && working[0].slot == 0);
    HOLDS(yatesorrel_certify(six, sizeof six, &operand, 257, working, 1024).refusal.price == 258);
    HOLDS(yatesorrel_certify(loop, sizeof loop, &operand, 257, working, 1024).refusal.number == YATESORREL_LOOP);
    HOLDS(yatesorrel_least_budget(six, sizeof six, &operand, working, 1024).budget == 258);
    HOLDS(yatesorrel_least_budget(loop, sizeof loop, &operand, working, 1024).answer.refusal.number == YATESORREL_LOOP);
    HOLDS(yatesorrel_least_capacity(six, sizeof six, &operand, 3000, 2000, 1000000, working, 1024).microfarads == 104);
    HOLDS(yatesorrel_least_capacity(six, sizeof six, &operand, 11, 10, 1000000, working, 1024).microfarads == 0);
    HOLDS(yatesorrel_least_capacity(six, sizeof six, &operand, 11, 10, 1000000, working, 1024).answer.refusal.number == 0);
}

/* What lies past the lists that are lent stays. */
static void short_lists(void)
{
    uint8_t image[56];
    yatesorrel_worth before;
    yatesorrel_answer answer;

    memset(working, 0xa5, sizeof working);
    before = working[1024];
    HOLDS(yatesorrel_certify(six, sizeof six, &operand, 258, working, 1023).refusal.number == YATESORREL_WORKING_LIST);
    HOLDS(working[0].price == 0xa5a5a5a5a5a5a5a5u);
    HOLDS(yatesorrel_certify(six, sizeof six, &operand, 258, working, 1024).refusal.number == 0);
    HOLDS(memcmp(&before, &working[1024], sizeof before) == 0);
    HOLDS(working[6].price == 0xa5a5a5a5a5a5a5a5u);

    memcpy(image, six, sizeof six);
    memset(image + sizeof six, 0x77, 8);
    answer = yatesorrel_place(image, sizeof six, &tens, 40, working, 1024);
    HOLDS(answer.refusal.number == 0 && image[24] == 0x85 && image[28] == 1);
    HOLDS(image[48] == 0x77 && image[55] == 0x77);
    memcpy(image, six, sizeof six);
    answer = yatesorrel_place(image, sizeof six, &tens, 39, working, 1024);
    HOLDS(answer.refusal.number == YATESORREL_NO_PLACEMENT && answer.carried.number == YATESORREL_OVER_BUDGET);
    HOLDS(memcmp(image, six, sizeof six) == 0);
}

static void no_prices(void)
{
    static const uint32_t kinds[4] = { 2, 3, 0x80000000u, UINT32_MAX };
    uint8_t image[48];
    int i;

    memcpy(image, six, sizeof six);
    for (i = 0; i < 4; i++) {
        yatesorrel_prices prices = tens;
        yatesorrel_supply supply;
        yatesorrel_rig rig, before;

        prices.kind = kinds[i];
        memset(working, 0xa5, sizeof working);
        HOLDS(yatesorrel_certify(NULL, 0, &prices, 0, NULL, 0).refusal.number == YATESORREL_NO_PRICES);
        HOLDS(yatesorrel_place(image, 48, &prices, 40, working, 1024).refusal.number == YATESORREL_NO_PRICES);
        HOLDS(yatesorrel_least_budget(image, 48, &prices, working, 1024).answer.refusal.number == YATESORREL_NO_PRICES);
        HOLDS(yatesorrel_least_capacity(image, 48, &prices, 0, 0, 0, working, 1024).answer.refusal.number == YATESORREL_NO_PRICES);
        HOLDS(memcmp(image, six, 48) == 0 && working[0].price == 0xa5a5a5a5a5a5a5a5u);
        yatesorrel_mains(&supply);
        memset(&rig, 0, sizeof rig);
        HOLDS(yatesorrel_rig_begin(&rig, &supply).number == 0);
        memcpy(&before, &rig, sizeof rig);
        HOLDS(yatesorrel_rig_step(&rig, &prices, six, 48, long_tape, MANY).refusal.number == YATESORREL_NO_PRICES);
        HOLDS(memcmp(&before, &rig, sizeof rig) == 0);
    }
}

static void states(void)
{
    static const int32_t slots[5] = { INT32_MIN, -1, 6, 1024, INT32_MAX };
    yatesorrel_state state, before;
    int i;

    for (i = 6; i < 256; i++) {
        yatesorrel_state_begin(&state);
        state.ending = (uint8_t)i;
        memcpy(&before, &state, sizeof state);
        HOLDS(yatesorrel_state_step(&state, six, 48, long_tape, MANY).refusal.number == YATESORREL_NOT_BEGUN);
        HOLDS(memcmp(&before, &state, sizeof state) == 0);
    }
    for (i = 0; i < 5; i++) {
        yatesorrel_state_begin(&state);
        state.slot = slots[i];
        HOLDS(yatesorrel_state_step(&state, six, 48, long_tape, MANY).did == YATESORREL_NO_INSTRUCTION);
        HOLDS(state.ending == YATESORREL_TRAP_BAD_SLOT && state.slot == slots[i]);
    }
    yatesorrel_state_begin(&state);
    state.slot = 1;
    state.place = SIZE_MAX;
    HOLDS(yatesorrel_state_step(&state, six, 48, long_tape, MANY).did == YATESORREL_DID_END);
    HOLDS(state.ending == YATESORREL_TRAP_TAPE_FINISHED && state.place == SIZE_MAX);
    yatesorrel_state_begin(&state);
    state.slot = 1;
    state.place = MANY - 1;
    HOLDS(yatesorrel_state_step(&state, six, 48, long_tape, MANY).did == YATESORREL_DID_OTHER && state.place == MANY);
    state.slot = 4;
    state.logged = SIZE_MAX;
    HOLDS(yatesorrel_state_step(&state, six, 48, long_tape, MANY).did == YATESORREL_DID_END);
    HOLDS(state.ending == YATESORREL_TRAP_LOG_FULL && state.logged == SIZE_MAX);
    for (i = 0; i < FUZZED; i++) {
        scramble(&state, sizeof state);
        HOLDS(is_number(yatesorrel_state_step(&state, six, 48, long_tape, MANY).refusal.number));
    }
}

static void supplies(void)
{
    yatesorrel_supply supply, before;
    yatesorrel_rig rig;

    memset(&supply, 0xa5, sizeof supply);
    memcpy(&before, &supply, sizeof supply);
    HOLDS(yatesorrel_capacitor(0, 3000, 1000, 1, &supply).number == YATESORREL_SUPPLY_NUMBERS);
    HOLDS(yatesorrel_capacitor(100001, 3000, 1000, 1, &supply).number == YATESORREL_SUPPLY_NUMBERS);
    HOLDS(yatesorrel_capacitor(1, 1000, 1000, 1, &supply).number == YATESORREL_SUPPLY_NUMBERS);
    HOLDS(yatesorrel_capacitor(1, UINT32_MAX, 0, 1, &supply).number == YATESORREL_SUPPLY_NUMBERS);
    HOLDS(yatesorrel_capacitor(1, 1, 0, 0, &supply).number == YATESORREL_SUPPLY_NUMBERS);
    HOLDS(memcmp(&before, &supply, sizeof supply) == 0);
    HOLDS(yatesorrel_rig_begin(&rig, &supply).number == YATESORREL_NOT_BEGUN);
    HOLDS(yatesorrel_capacitor(100000, 10000, 0, 1000000, &supply).number == 0);
    supply.energy = UINT64_MAX;
    HOLDS(yatesorrel_rig_begin(&rig, &supply).number == YATESORREL_NOT_BEGUN);
    supply.energy = 0;
    supply.unit = 0;
    HOLDS(yatesorrel_rig_begin(&rig, &supply).number == YATESORREL_NOT_BEGUN);
    yatesorrel_mains(&supply);
    supply.energy = 1;
    HOLDS(yatesorrel_rig_begin(&rig, &supply).number == YATESORREL_NOT_BEGUN);
    supply.energy = 0;
    supply.asked = supply.charges = UINT64_MAX;
    HOLDS(yatesorrel_rig_begin(&rig, &supply).number == 0);
    HOLDS(yatesorrel_rig_counts(&rig).charges == 1 && rig.supply.charges == 0);
}

/* Every call of a rig, which has to refuse these bytes by 101 and leave them. */
static void is_refused(yatesorrel_rig *rig)
{
    static yatesorrel_rig before;
    static yatesorrel_state state;

    memcpy(&before, rig, sizeof before);
    HOLDS(yatesorrel_rig_step(rig, &tens, six, 48, long_tape, MANY).refusal.number == YATESORREL_NOT_BEGUN);
    HOLDS(yatesorrel_rig_cut(rig).number == YATESORREL_NOT_BEGUN);
    HOLDS(yatesorrel_rig_counts(rig).refusal.number == YATESORREL_NOT_BEGUN);
    HOLDS(yatesorrel_rig_record(rig, 0).refusal.number == YATESORREL_NOT_BEGUN);
    HOLDS(yatesorrel_rig_kept(rig, &state).number == YATESORREL_NOT_BEGUN);
    HOLDS(memcmp(&before, rig, sizeof before) == 0);
}

static void rigs(void)
{
    static yatesorrel_rig rig, good;
    yatesorrel_supply supply;
    int i;

    memset(&rig, 0, sizeof rig);
    is_refused(&rig);
    memset(&rig, 0xff, sizeof rig);
    is_refused(&rig);
    for (i = 0; i < 100; i++) {
        scramble(&rig, sizeof rig);
        is_refused(&rig);
    }
    HOLDS(yatesorrel_capacitor(16, 3000, 2000, 1000000, &supply).number == 0);
    HOLDS(yatesorrel_rig_begin(&good, &supply).number == 0);
    rig = good;
    rig.saves = 1;
    is_refused(&rig);
    rig = good;
    rig.kept.ending = 6;
    is_refused(&rig);
    rig = good;
    rig.supply.kind = 3;
    is_refused(&rig);
    rig = good;
    rig.supply.energy++;
    is_refused(&rig);
    rig = good;
    rig.attempts = 1000000;
    HOLDS(yatesorrel_rig_step(&rig, &tens, six, 48, long_tape, MANY).refusal.number == YATESORREL_ATTEMPTS);
    rig = good;
    rig.cuts = UINT32_MAX;
    HOLDS(yatesorrel_rig_cut(&rig).number == YATESORREL_CUTS);
    HOLDS(yatesorrel_rig_record(&rig, 0).refusal.number == YATESORREL_NO_RECORD);
    HOLDS(yatesorrel_rig_record(&rig, SIZE_MAX).refusal.number == YATESORREL_NO_RECORD);

    /* states of any bytes in a rig that is begun */
    for (i = 0; i < FUZZED; i++) {
        rig = good;
        scramble(&rig.state, sizeof rig.state);
        scramble(&rig.kept, sizeof rig.kept);
        rig.state.ending = (uint8_t)(random_bits() % 6);
        rig.kept.ending = (uint8_t)(random_bits() % 3);
        rig.state.slot = (int32_t)(random_bits() % 7);
        HOLDS(is_number(yatesorrel_rig_step(&rig, &tens, six, 48, long_tape, MANY).refusal.number));
        HOLDS(is_number(yatesorrel_rig_record(&rig, (size_t)(random_bits() % 70)).refusal.number));
        HOLDS(is_number(yatesorrel_rig_cut(&rig).number));
    }
}

enum { CALLS = 18 };

static int same_reply(const yatesorrel_reply *reply, yatesorrel_told told, int said_yes, int ending, uint64_t count)
{
    return reply->refusal.number == told.number && reply->said_yes == said_yes && reply->ending == ending && reply->count == count;
}

/* A script's replies are those of the calls, one by one. */
static void scripts(void)
{
    static const uint32_t kinds[CALLS] = { 2, 0, 0, 1, 0, 0, 0, 0, 0, 6, 0, 3, 0, 4, 5, 2, 1, 6 };
    static yatesorrel_rig stepped, scripted, before;
    static yatesorrel_reply replies[CALLS + 1], untouched;
    static const yatesorrel_told nothing = { 0, 0, 0 };
    yatesorrel_call calls[CALLS];
    yatesorrel_supply supply;
    uint8_t image[48];
    int i;

    memcpy(image, six, 48);
    HOLDS(yatesorrel_place(image, 48, &tens, 40, working, 1024).refusal.number == 0);
    HOLDS(yatesorrel_capacitor(16, 3000, 2000, 1000000, &supply).number == 0);
    for (i = 0; i < CALLS; i++) {
        calls[i].kind = kinds[i];
        calls[i].index = 0;
    }
    memset(replies, 0x5a, sizeof replies);
    memset(&untouched, 0x5a, sizeof untouched);
    HOLDS(yatesorrel_rehearse(&supply, &tens, image, 48, long_tape, MANY, calls, CALLS, replies, CALLS, &scripted).number == 0);
    HOLDS(memcmp(&replies[CALLS], &untouched, sizeof untouched) == 0);
    HOLDS(yatesorrel_rig_begin(&stepped, &supply).number == 0);
    for (i = 0; i < CALLS; i++) {
        yatesorrel_counts counts = yatesorrel_rig_counts(&stepped);
        yatesorrel_attempt attempt;
        yatesorrel_kept_record kept;

        switch (calls[i].kind) {
        case YATESORREL_CALL_STEP:
            attempt = yatesorrel_rig_step(&stepped, &tens, image, 48, long_tape, MANY);
            HOLDS(same_reply(&replies[i], attempt.refusal, attempt.said_yes, attempt.ending, 0));
            break;
        case YATESORREL_CALL_CUT:
            HOLDS(same_reply(&replies[i], yatesorrel_rig_cut(&stepped), 0, 0, 0));
            break;
        case YATESORREL_CALL_CHARGES:
            HOLDS(same_reply(&replies[i], nothing, 0, 0, counts.charges));
            break;
        case YATESORREL_CALL_SAVES:
            HOLDS(same_reply(&replies[i], nothing, 0, 0, counts.saves));
            break;
        case YATESORREL_CALL_CUTS:
            HOLDS(same_reply(&replies[i], nothing, 0, 0, counts.cuts));
            break;
        case YATESORREL_CALL_ATTEMPTS:
            HOLDS(same_reply(&replies[i], nothing, 0, 0, counts.attempts));
            break;
        default:
            kept = yatesorrel_rig_record(&stepped, calls[i].index);
            HOLDS(same_reply(&replies[i], kept.refusal, 0, 0, 0));
            HOLDS(replies[i].record.value == kept.record.value);
        }
    }
    HOLDS(scripted.attempts == stepped.attempts && scripted.cuts == 1 && scripted.saves == stepped.saves);
    HOLDS(scripted.supply.energy == stepped.supply.energy && scripted.kept.ending == YATESORREL_EXIT);
    HOLDS(scripted.kept.logged == 1 && scripted.kept.log[0].sensor == 7);

    /* room for fewer replies, and a call of no kind past the room */
    memset(replies, 0x5a, sizeof replies);
    HOLDS(yatesorrel_rehearse(&supply, &tens, image, 48, long_tape, MANY, calls, CALLS, replies, 3, &scripted).number == 0);
    HOLDS(scripted.attempts == 2 && memcmp(&replies[3], &untouched, sizeof untouched) == 0);
    memset(replies, 0x5a, sizeof replies);
    memcpy(&before, &scripted, sizeof before);
    calls[CALLS - 1].kind = 7;
    HOLDS(yatesorrel_rehearse(&supply, &tens, image, 48, long_tape, MANY, calls, CALLS, replies, 3, &scripted).number == YATESORREL_NO_CALL);
    calls[CALLS - 1].kind = UINT32_MAX;
    HOLDS(yatesorrel_rehearse(&supply, &tens, image, 48, long_tape, MANY, calls, CALLS, replies, 3, &scripted).number == YATESORREL_NO_CALL);
    supply.kind = 0;
    HOLDS(yatesorrel_rehearse(&supply, &tens, image, 48, long_tape, MANY, calls, CALLS, replies, 3, &scripted).number == YATESORREL_NOT_BEGUN);
    HOLDS(memcmp(&before, &scripted, sizeof before) == 0 && memcmp(&replies[0], &untouched, sizeof untouched) == 0);
}

/* Images of any bytes. */
static void images(void)
{
    static uint8_t image[8200];
    size_t length;
    int i;

    for (i = 0; i < 200; i++) {
        length = (size_t)(random_bits() % 8200);
        scramble(image, length);
        HOLDS(is_number(yatesorrel_lawful(image, length).refusal.number));
        HOLDS(is_number(yatesorrel_place(image, length, &operand, random_bits() % 1000, working, 1024).refusal.number));
    }
    /* 1,024 idle slots, and one byte more than an image may have */
    for (length = 0; length < 8192; length++)
        image[length] = length % 8 == 0 ? 5 : 0;
    image[8184] = 0x95;
    HOLDS(yatesorrel_lawful(image, 8192).refusal.number == 0);
    HOLDS(yatesorrel_lawful(image, 8193).refusal.number == YATESORREL_LENGTH);
    HOLDS(yatesorrel_lawful(image, 8200).refusal.number == YATESORREL_LENGTH);
    HOLDS(yatesorrel_place(image, 8192, &tens, 30, working, 1024).refusal.number == 0);
}

int main(void)
{
    size_t i;

    tens.kind = YATESORREL_FLAT_PRICES;
    for (i = 0; i < 257; i++)
        tens.flat[i] = 10;
    for (i = 0; i < MANY; i++)
        long_tape[i] = (uint32_t)i;
    lists_of_nothing();
    budgets();
    short_lists();
    no_prices();
    states();
    supplies();
    rigs();
    scripts();
    images();
    if (!failed)
        printf("every hostile call answered as it should\n");
    return failed;
}
