/* Yatesorrel for C: judge a reading round, place saves in it, and rehearse it
 * on a supply that fails. docs/reference/c-library.md says how to build and
 * link it, and docs/reference what images, prices, supplies and rigs are.
 *
 * What every call keeps, of what its caller owes (the last three lines):
 * - It returns, for any numbers whatever in what it is given, garbage in a
 *   struct included, and says so where it refuses.
 * - It keeps nothing, allocates nothing, and has no state of its own: calls on
 *   different memory may run side by side.
 * - A refusal leaves all that the call may write as it was, unless its comment
 *   says otherwise.
 * - A list is a pointer and the number of its entries. At 0 entries the pointer
 *   may be null. Otherwise it points to so many entries.
 * - A pointer to a struct points to one; null is not allowed.
 * - What a call may write (a pointer that is not const) overlaps nothing else
 *   that the call is given.
 */
#ifndef YATESORREL_H
#define YATESORREL_H

#include <stddef.h>
#include <stdint.h>

#ifdef __cplusplus
extern "C" {
#endif

/* ------------------------------------------------------------- Refusals */

/* Why a call is refused. Numbers 1 to 24 are those of
 * docs/reference/refusals.md; those from 101 on are of the calls from C. */
enum {
    YATESORREL_ACCEPTED = 0,
    YATESORREL_LENGTH = 1,
    YATESORREL_ILLEGAL_OPCODE = 2,
    YATESORREL_NO_REGISTER = 3,
    YATESORREL_FIELD_NOT_ZERO = 4,
    YATESORREL_FRAME_POINTER = 5,
    YATESORREL_NO_HELPER = 6,
    YATESORREL_WAY_OUT = 7,
    YATESORREL_BUDGET = 8,
    YATESORREL_LOOP = 9,
    YATESORREL_OVER_BUDGET = 10,
    YATESORREL_NO_PLACEMENT = 11,
    YATESORREL_WORKING_LIST = 12,
    YATESORREL_SUPPLY_NUMBERS = 13,
    YATESORREL_ENDED = 21,
    YATESORREL_ATTEMPTS = 22,
    YATESORREL_CUTS = 23,
    YATESORREL_NO_RECORD = 24,
    /* the struct holds no state, supply or rig that these calls make */
    YATESORREL_NOT_BEGUN = 101,
    /* the prices are of neither kind */
    YATESORREL_NO_PRICES = 102,
    /* a call of a script is of no kind */
    YATESORREL_NO_CALL = 103
};

/* A refusal in numbers; 0 where it has no slot or no price. All three are 0
 * where nothing is refused. */
typedef struct yatesorrel_told {
    uint8_t number;
    uint16_t slot;
    uint64_t price;
} yatesorrel_told;

/* An answer about an image. A refusal 11 carries a second one, the 9 or 10 that
 * the certifier meets with every idle slot turned into a save; any other answer
 * carries zeros. */
typedef struct yatesorrel_answer {
    yatesorrel_told refusal;
    yatesorrel_told carried;
} yatesorrel_answer;

/* --------------------------------------------------------------- Prices */

enum { YATESORREL_OPERAND_PRICES = 0, YATESORREL_FLAT_PRICES = 1 };

/* What instructions and savings cost: by kind 0 the operand model, whatever
 * stands in the list; by kind 1 the list, a price for each opcode and, last,
 * that of a saving. Every call refuses any other kind by number 102. */
typedef struct yatesorrel_prices {
    uint32_t kind;
    uint16_t flat[257];
} yatesorrel_prices;

/* --------------------------------------------------------------- Images */

/* An entry of a working list: the price of the dearest complete walk from a
 * slot, and that slot. */
typedef struct yatesorrel_worth {
    uint64_t price;
    uint16_t slot;
} yatesorrel_worth;

/* The entries that a working list needs; a shorter one is refused by 12. */
enum { YATESORREL_WORKING_ENTRIES = 1024 };

/* Is the image lawful? Refused by the first rule that it breaks, 1 to 7. */
yatesorrel_answer yatesorrel_lawful(const uint8_t *image, size_t image_length);

/* Does every stretch between saves fit the budget? Refused by 102, 8, 12, 1 to
 * 7, 9 and 10, the first that applies. After acceptance and after 10 the
 * working list has the worths of the image's slots; else it is as it was. */
yatesorrel_answer yatesorrel_certify(
    const uint8_t *image, size_t image_length,
    const yatesorrel_prices *prices, uint64_t budget,
    yatesorrel_worth *working, size_t working_length);

/* Turns idle slots of the image into saves so that it is accepted at the
 * budget, none of which could be left out. Refused by 102, 8, 12, 1 to 7 and 11:
 * the image is as it was then. After acceptance the working list has the worths
 * of the image as it is left, after an 11 that carries a 10 those with every
 * idle slot turned; else it is as it was. */
yatesorrel_answer yatesorrel_place(
    uint8_t *image, size_t image_length,
    const yatesorrel_prices *prices, uint64_t budget,
    yatesorrel_worth *working, size_t working_length);

/* The least budget; 0 where it is refused. */
typedef struct yatesorrel_least {
    yatesorrel_answer answer;
    uint64_t budget;
} yatesorrel_least;

/* The least budget at which an image is accepted: at it and at every larger
 * one, at none below. Refused by 102, and by what the certifier answers at
 * 100,000,000. The working list is left as the certifier leaves it there. */
yatesorrel_least yatesorrel_least_budget(
    const uint8_t *image, size_t image_length,
    const yatesorrel_prices *prices,
    yatesorrel_worth *working, size_t working_length);

/* The least capacity in microfarads; 0 where it is refused, and 0 beside an
 * accepting answer where not even 100,000 suffice. */
typedef struct yatesorrel_capacity {
    yatesorrel_answer answer;
    uint32_t microfarads;
} yatesorrel_capacity;

/* The least capacity whose charge between two voltages, in millivolts, still
 * holds the image, for a unit of so many picojoules. Refused by 102, 13, and
 * as yatesorrel_least_budget. The working list is left as by that. */
yatesorrel_capacity yatesorrel_least_capacity(
    const uint8_t *image, size_t image_length,
    const yatesorrel_prices *prices,
    uint32_t top, uint32_t bottom, uint32_t unit,
    yatesorrel_worth *working, size_t working_length);

/* -------------------------------------------------------- The mains run */

/* A reading in the log. */
typedef struct yatesorrel_record {
    uint8_t sensor;
    uint64_t value;
} yatesorrel_record;

/* How a run ended: 0 while it goes on, a trap by its number, or EXIT. */
enum {
    YATESORREL_GOES_ON = 0,
    YATESORREL_TRAP_BAD_SLOT = 1,
    YATESORREL_TRAP_OUTSIDE_MEMORY = 2,
    YATESORREL_TRAP_TAPE_FINISHED = 3,
    YATESORREL_TRAP_LOG_FULL = 4,
    YATESORREL_EXIT = 5
};

/* The state of a run. Any numbers are a state but for an ending above 5, which
 * is refused by 101. Read it as you like. */
typedef struct yatesorrel_state {
    /* where the next instruction stands; a jump can lead below 0 */
    int32_t slot;
    uint8_t ending;
    uint64_t registers[11];
    uint8_t memory[512];
    /* how many readings of the tape were taken */
    size_t place;
    /* of which the first `logged` count; a run stops at 64, and a greater number
     * is a full log */
    yatesorrel_record log[64];
    size_t logged;
} yatesorrel_state;

/* What a step did: nothing, since the run had ended; found no instruction; or
 * executed a save, an instruction that ended the run, or another. */
enum {
    YATESORREL_DID_NOTHING = 0,
    YATESORREL_NO_INSTRUCTION = 1,
    YATESORREL_DID_SAVE = 2,
    YATESORREL_DID_END = 3,
    YATESORREL_DID_OTHER = 4
};

/* A step: what it did, and the instruction with its two operands from before
 * the step. All are 0 where there was none or the step is refused. */
typedef struct yatesorrel_step {
    yatesorrel_told refusal;
    uint8_t did;
    uint8_t opcode;
    int32_t imm;
    uint64_t a;
    uint64_t b;
} yatesorrel_step;

/* Makes the state at which every run begins. */
void yatesorrel_state_begin(yatesorrel_state *state);

/* Executes one instruction of an image over a tape of readings. A state that
 * has ended stays. Refused by 101. */
yatesorrel_step yatesorrel_state_step(
    yatesorrel_state *state,
    const uint8_t *image, size_t image_length,
    const uint32_t *tape, size_t tape_length);

/* Runs an image from the beginning for at most so many steps, into a state,
 * and returns the steps made. */
uint64_t yatesorrel_run(
    const uint8_t *image, size_t image_length,
    const uint32_t *tape, size_t tape_length,
    uint64_t most, yatesorrel_state *state);

/* ------------------------------------------------------------- Supplies */

enum { YATESORREL_CAPACITOR = 1, YATESORREL_MAINS = 2 };

/* A supply. Make one by the two calls below, copy it and read it as you like.
 * Numbers that no supply has are refused by 101 where one is wanted. */
typedef struct yatesorrel_supply {
    uint32_t kind;
    /* of a capacitor, as it was made; of the mains 0, and its energy too */
    uint32_t microfarads;
    uint32_t top;
    uint32_t bottom;
    uint32_t unit;
    /* twice the energy that it holds, in picojoules */
    uint64_t energy;
    /* all units asked of it, and how often it was charged, modulo 2^64 */
    uint64_t asked;
    uint64_t charges;
} yatesorrel_supply;

/* Makes a capacitor at its bottom voltage: microfarads 1 to 100,000; bottom
 * below top, and top at most 10,000, in millivolts; a unit of charge 1 to
 * 1,000,000 picojoules. Refused by 13. */
yatesorrel_told yatesorrel_capacitor(
    uint32_t microfarads, uint32_t top, uint32_t bottom, uint32_t unit,
    yatesorrel_supply *supply);

/* Makes the mains, a supply that never says no. */
void yatesorrel_mains(yatesorrel_supply *supply);

/* -------------------------------------------------------------- The rig */

/* A round on a supply that may say no. It is begun by yatesorrel_rig_begin, and
 * changed by its calls alone. Copy it and read it as you like. Each call refuses
 * it by 101 where its supply or a state of it would be refused so, or its saves
 * outnumber its attempts. */
typedef struct yatesorrel_rig {
    yatesorrel_supply supply;
    yatesorrel_state state;
    /* what the rig goes back to */
    yatesorrel_state kept;
    /* the supply's count of charges from before beginning */
    uint64_t before;
    uint32_t saves;
    uint32_t cuts;
    uint32_t attempts;
} yatesorrel_rig;

/* An attempt of a step: whether the supply said yes, 1, or no, 0; and how the
 * round ended by it, 0 where it goes on. Both are 0 where it is refused. */
typedef struct yatesorrel_attempt {
    yatesorrel_told refusal;
    uint8_t said_yes;
    uint8_t ending;
} yatesorrel_attempt;

/* What a rig counts: charges begun modulo 2^64, saves passed, cuts, attempts,
 * and the charge that its supply is certain to have. All are 0 where it is
 * refused. */
typedef struct yatesorrel_counts {
    yatesorrel_told refusal;
    uint64_t charges;
    uint64_t assured;
    uint32_t saves;
    uint32_t cuts;
    uint32_t attempts;
} yatesorrel_counts;

/* A record, or why there is none, which leaves zeros. */
typedef struct yatesorrel_kept_record {
    yatesorrel_told refusal;
    yatesorrel_record record;
} yatesorrel_kept_record;

/* Begins a rig on a supply, new or used, which is copied into it and charged.
 * Refused by 101, where the supply holds numbers that no supply has. */
yatesorrel_told yatesorrel_rig_begin(
    yatesorrel_rig *rig, const yatesorrel_supply *supply);

/* Attempts one step. Prices, image and tape are lent for this call alone; what
 * is promised of a rig holds where they are the same at every step. Refused by
 * 101, 102, 21 and 22. */
yatesorrel_attempt yatesorrel_rig_step(
    yatesorrel_rig *rig,
    const yatesorrel_prices *prices,
    const uint8_t *image, size_t image_length,
    const uint32_t *tape, size_t tape_length);

/* Cuts the supply: the kept state returns, and the supply is charged. Refused
 * by 101, 21 and 23. */
yatesorrel_told yatesorrel_rig_cut(yatesorrel_rig *rig);

/* The counts of a rig. Refused by 101. */
yatesorrel_counts yatesorrel_rig_counts(const yatesorrel_rig *rig);

/* A record of the kept log, counted from 0. Refused by 101 and 24. */
yatesorrel_kept_record yatesorrel_rig_record(const yatesorrel_rig *rig, size_t index);

/* Copies the kept state. Refused by 101. */
yatesorrel_told yatesorrel_rig_kept(const yatesorrel_rig *rig, yatesorrel_state *state);

/* -------------------------------------------------------- A whole script */

enum {
    YATESORREL_CALL_STEP = 0,
    YATESORREL_CALL_CUT = 1,
    YATESORREL_CALL_CHARGES = 2,
    YATESORREL_CALL_SAVES = 3,
    YATESORREL_CALL_CUTS = 4,
    YATESORREL_CALL_ATTEMPTS = 5,
    YATESORREL_CALL_RECORD = 6
};

/* A call of a script; the index is read of a call for a record alone. */
typedef struct yatesorrel_call {
    uint32_t kind;
    size_t index;
} yatesorrel_call;

/* The reply to a call: what is refused to a step, a cut or a record; of a step
 * what an attempt tells; the count that was asked for; the record. All that the
 * call did not ask for is 0. */
typedef struct yatesorrel_reply {
    yatesorrel_told refusal;
    uint8_t said_yes;
    uint8_t ending;
    uint64_t count;
    yatesorrel_record record;
} yatesorrel_reply;

/* Begins a rig on a supply, and makes the calls in their order, as many as there
 * is room for in the replies; a reply past them stays as it was. The rig is
 * left as it stands at the end. Refused by 101 (the supply), 102 (the prices) and
 * 103 (some call is of no kind): then no call is made. */
yatesorrel_told yatesorrel_rehearse(
    const yatesorrel_supply *supply,
    const yatesorrel_prices *prices,
    const uint8_t *image, size_t image_length,
    const uint32_t *tape, size_t tape_length,
    const yatesorrel_call *calls, size_t calls_length,
    yatesorrel_reply *replies, size_t replies_length,
    yatesorrel_rig *rig);

/* ------------------------------------------------------------- The layout */

/* The library is built for 64-bit x86 under Linux: its structs are laid out so. */
#if defined(__cplusplus) && __cplusplus >= 201103L
#define YATESORREL_LAYOUT(fact) static_assert(fact, #fact)
#elif defined(__STDC_VERSION__) && __STDC_VERSION__ >= 201112L
#define YATESORREL_LAYOUT(fact) _Static_assert(fact, #fact)
#endif

#ifdef YATESORREL_LAYOUT
YATESORREL_LAYOUT(sizeof(size_t) == 8);
YATESORREL_LAYOUT(sizeof(yatesorrel_told) == 16);
YATESORREL_LAYOUT(offsetof(yatesorrel_told, slot) == 2);
YATESORREL_LAYOUT(offsetof(yatesorrel_told, price) == 8);
YATESORREL_LAYOUT(sizeof(yatesorrel_answer) == 32);
YATESORREL_LAYOUT(offsetof(yatesorrel_answer, carried) == 16);
YATESORREL_LAYOUT(sizeof(yatesorrel_prices) == 520);
YATESORREL_LAYOUT(offsetof(yatesorrel_prices, flat) == 4);
YATESORREL_LAYOUT(sizeof(yatesorrel_worth) == 16);
YATESORREL_LAYOUT(offsetof(yatesorrel_worth, slot) == 8);
YATESORREL_LAYOUT(sizeof(yatesorrel_least) == 40);
YATESORREL_LAYOUT(offsetof(yatesorrel_least, budget) == 32);
YATESORREL_LAYOUT(sizeof(yatesorrel_capacity) == 40);
YATESORREL_LAYOUT(offsetof(yatesorrel_capacity, microfarads) == 32);
YATESORREL_LAYOUT(sizeof(yatesorrel_record) == 16);
YATESORREL_LAYOUT(offsetof(yatesorrel_record, value) == 8);
YATESORREL_LAYOUT(sizeof(yatesorrel_state) == 1648);
YATESORREL_LAYOUT(offsetof(yatesorrel_state, ending) == 4);
YATESORREL_LAYOUT(offsetof(yatesorrel_state, registers) == 8);
YATESORREL_LAYOUT(offsetof(yatesorrel_state, memory) == 96);
YATESORREL_LAYOUT(offsetof(yatesorrel_state, place) == 608);
YATESORREL_LAYOUT(offsetof(yatesorrel_state, log) == 616);
YATESORREL_LAYOUT(offsetof(yatesorrel_state, logged) == 1640);
YATESORREL_LAYOUT(sizeof(yatesorrel_step) == 40);
YATESORREL_LAYOUT(offsetof(yatesorrel_step, did) == 16);
YATESORREL_LAYOUT(offsetof(yatesorrel_step, opcode) == 17);
YATESORREL_LAYOUT(offsetof(yatesorrel_step, imm) == 20);
YATESORREL_LAYOUT(offsetof(yatesorrel_step, a) == 24);
YATESORREL_LAYOUT(offsetof(yatesorrel_step, b) == 32);
YATESORREL_LAYOUT(sizeof(yatesorrel_supply) == 48);
YATESORREL_LAYOUT(offsetof(yatesorrel_supply, microfarads) == 4);
YATESORREL_LAYOUT(offsetof(yatesorrel_supply, energy) == 24);
YATESORREL_LAYOUT(offsetof(yatesorrel_supply, charges) == 40);
YATESORREL_LAYOUT(sizeof(yatesorrel_rig) == 3368);
YATESORREL_LAYOUT(offsetof(yatesorrel_rig, state) == 48);
YATESORREL_LAYOUT(offsetof(yatesorrel_rig, kept) == 1696);
YATESORREL_LAYOUT(offsetof(yatesorrel_rig, before) == 3344);
YATESORREL_LAYOUT(offsetof(yatesorrel_rig, saves) == 3352);
YATESORREL_LAYOUT(offsetof(yatesorrel_rig, attempts) == 3360);
YATESORREL_LAYOUT(sizeof(yatesorrel_attempt) == 24);
YATESORREL_LAYOUT(offsetof(yatesorrel_attempt, ending) == 17);
YATESORREL_LAYOUT(sizeof(yatesorrel_counts) == 48);
YATESORREL_LAYOUT(offsetof(yatesorrel_counts, assured) == 24);
YATESORREL_LAYOUT(offsetof(yatesorrel_counts, saves) == 32);
YATESORREL_LAYOUT(sizeof(yatesorrel_kept_record) == 32);
YATESORREL_LAYOUT(sizeof(yatesorrel_call) == 16);
YATESORREL_LAYOUT(offsetof(yatesorrel_call, index) == 8);
YATESORREL_LAYOUT(sizeof(yatesorrel_reply) == 48);
YATESORREL_LAYOUT(offsetof(yatesorrel_reply, ending) == 17);
YATESORREL_LAYOUT(offsetof(yatesorrel_reply, count) == 24);
YATESORREL_LAYOUT(offsetof(yatesorrel_reply, record) == 32);
#undef YATESORREL_LAYOUT
#endif

#ifdef __cplusplus
}
#endif

#endif
