/* colliding WHAT COUNT BLOCKS TAIL: prints COUNT names, a line each in UTF-8, of 3 * BLOCKS + TAIL code units of three
   bytes each, that a hash table of the toolchain holds all in one chain. WHAT is `names`, or `texts` for the texts in the
   pool of the assembler, whose hash begins otherwise, or `ordinary` for names of this length that don't collide.

   A hash is fed the length and then each code unit, by a multiplication whose product is folded to 64 bits. After two units
   some pairs of states differ only by what a third unit can make up for, and are found by trying many: so a block of three
   units has two forms with the same state behind it, and BLOCKS of them make 2^BLOCKS names of one hash. Where these are
   too few, a TAIL of two units stands behind them, one of those with which the hash is as wanted in what a table of up to
   73,728 names looks at: the group where a search begins, and the tag by which a name there is worth comparing. */
#include <stdint.h>
#include <stdio.h>
#include <stdlib.h>
#include <string.h>

#define MULTIPLIER 0x9e3779b97f4a7c15u
#define SLOTS (1u << 24)
#define TRIES 32
#define MOST_BLOCKS 20
#define MOST_UNITS 80

static uint64_t folded(uint64_t a, uint64_t b) {
    unsigned __int128 product = (unsigned __int128)a * b;
    return (uint64_t)product ^ (uint64_t)(product >> 64);
}

/* The bits that a code unit is read as. */
static uint64_t bits(uint64_t unit) { return unit | unit >> 8 << 16; }

static uint64_t fed(uint64_t state, uint64_t unit) { return folded(state ^ bits(unit), MULTIPLIER ^ 4); }

static uint64_t fed_number(uint64_t state, uint64_t number) { return folded(state ^ number, MULTIPLIER ^ 16); }

/* What no third unit can make up for. */
static uint64_t rest(uint64_t state) { return state >> 24 << 8 | ((state >> 16 ^ state >> 8) & 0xff); }

static int is_unit(uint64_t unit) { return unit >= 0x800 && unit < 0xfff0 && (unit < 0xd800 || unit >= 0xe000); }

static uint32_t slot_of(uint64_t state) { return folded(rest(state), MULTIPLIER) % SLOTS; }

static uint64_t random_state = 1;
static uint64_t any(void) {
    random_state ^= random_state << 13;
    random_state ^= random_state >> 7;
    random_state ^= random_state << 17;
    return random_state * 0x2545f4914f6cdd1du;
}
static uint16_t any_unit(void) {
    uint64_t unit;
    do unit = any() & 0xffff; while (!is_unit(unit));
    return unit;
}

typedef struct { uint16_t one[3], other[3]; } Block;

/* A block with two forms behind the state, which is moved behind it. The tries are made some at a time, so that their
   slots are fetched at once. */
static Block found_block(uint64_t *state) {
    static uint32_t seen[SLOTS];
    uint32_t tried[TRIES];
    uint64_t behind[TRIES];
    memset(seen, 0, sizeof seen);
    for (;;) {
        for (int i = 0; i < TRIES; i++) {
            tried[i] = (uint32_t)any_unit() << 16 | any_unit();
            behind[i] = fed(fed(*state, tried[i] >> 16), tried[i] & 0xffff);
            __builtin_prefetch(&seen[slot_of(behind[i])]);
        }
        for (int i = 0; i < TRIES; i++) {
            uint32_t other = seen[slot_of(behind[i])];
            seen[slot_of(behind[i])] = tried[i];
            uint64_t before = fed(fed(*state, other >> 16), other & 0xffff);
            uint64_t change = (behind[i] ^ before) & 0xffff;
            if (!other || !change || rest(behind[i]) != rest(before)) continue;
            for (uint64_t third = 0x800; third < 0xfff0; third++)
                if (is_unit(third) && is_unit(third ^ change)) {
                    *state = fed(behind[i], third);
                    return (Block){{tried[i] >> 16, tried[i] & 0xffff, third},
                                   {other >> 16, other & 0xffff, third ^ change}};
                }
        }
    }
}

static int blocks, tail, length;
static uint16_t units[MOST_UNITS];
static Block found[MOST_BLOCKS];

static void put(void) {
    for (int i = 0; i < length; i++)
        printf("%c%c%c", 0xe0 | units[i] >> 12, 0x80 | (units[i] >> 6 & 0x3f), 0x80 | (units[i] & 0x3f));
    putchar('\n');
}

/* What chooses the chain: the group where it begins, by the low bits, and the tag, by the high ones: 0 counts as 1. */
static uint32_t chain(uint64_t state) { return (uint32_t)(state ^ state >> 32) & 0xfe001fff; }

/* The names of all forms of the blocks before this tail, as long as some are wanted. */
static void put_forms(long *wanted) {
    for (long form = 0; form < 1l << blocks && *wanted > 0; form++, --*wanted) {
        for (int i = 0; i < blocks; i++) memcpy(units + 3 * i, form >> i & 1 ? found[i].other : found[i].one, 6);
        put();
    }
}

static void put_ordinary(long wanted) {
    for (; wanted > 0; wanted--) {
        for (int i = 0; i < length; i++) units[i] = any_unit();
        put();
    }
}

/* Tries every last unit behind these others, all of which are other ones at each call. */
static void put_tails(uint64_t before, long *wanted) {
    for (uint32_t last = 0x800; last < 0xfff0 && *wanted > 0; last++) {
        if (!is_unit(last) || chain(fed(before, last)) != 0) continue;
        units[length - 1] = last;
        put_forms(wanted);
    }
}

static void put_colliding(uint64_t state, long wanted) {
    state = fed_number(state, length);
    for (int i = 0; i < blocks; i++) found[i] = found_block(&state);
    if (tail == 0) put_forms(&wanted);
    for (uint32_t last_but_one = 0x800; tail == 2 && last_but_one < 0xfff0 && wanted > 0; last_but_one++) {
        if (!is_unit(last_but_one)) continue;
        units[length - 2] = last_but_one;
        put_tails(fed(state, last_but_one), &wanted);
    }
    if (wanted > 0) fputs("there are fewer such names\n", stderr), exit(1);
}

int main(int argc, char **argv) {
    const uint64_t first_state = 0x243f6a8885a308d3u;
    long wanted = argc == 5 ? atol(argv[2]) : 0;
    blocks = argc == 5 ? atoi(argv[3]) : 0, tail = argc == 5 ? atoi(argv[4]) : 0, length = 3 * blocks + tail;
    int is_right = wanted > 0 && blocks >= 0 && blocks <= MOST_BLOCKS && (tail == 0 || tail == 2) && length > 0 && length <= MOST_UNITS;
    if (is_right && strcmp(argv[1], "names") == 0) put_colliding(first_state, wanted);
    else if (is_right && strcmp(argv[1], "texts") == 0) put_colliding(fed_number(first_state, 0), wanted);
    else if (is_right && strcmp(argv[1], "ordinary") == 0) put_ordinary(wanted);
    else return fputs("usage: colliding names|texts|ordinary COUNT BLOCKS TAIL\n", stderr), 2;
    return 0;
}
