/* A host of a room with two members, as a netplay program would be. Both play the same inputs; one makes each advance
 * at once, the other in pieces. After every input their words are the same. Now and then the second is rolled back: its
 * words are copied from an earlier save, and it plays the inputs since then again. Status 1 where the members part. */
#include <stdio.h>
#include <string.h>

#include "../rimjhodek.h"

enum { INPUTS = 4000, BETWEEN_SAVES = 64 };

/* All of a member's state. Saving, comparing and rolling back is copying and comparing these words. */
typedef struct Member {
    uint64_t cop0[RIMJHODEK_COP0_WORDS];
    uint64_t tlb[RIMJHODEK_TLB_WORDS];
} Member;

/* An input that the room agrees on: what is done, and with which numbers. */
typedef struct Input {
    enum { MOVE, ADVANCE, MAP, ACCESS, RETURN, KINDS } kind;
    uint64_t a, b;
} Input;

/* The inputs, from a fixed seed: splitmix64. */
static uint64_t next(uint64_t *seed) {
    uint64_t x = *seed += 0x9E3779B97F4A7C15;
    x = (x ^ x >> 30) * 0xBF58476D1CE4E5B9;
    x = (x ^ x >> 27) * 0x94D049BB133111EB;
    return x ^ x >> 31;
}

static Input input(uint64_t *seed) {
    Input made = {(int)(next(seed) % KINDS), next(seed), next(seed)};
    return made;
}

/* Moves the clock in a number of pieces that make up the whole, and says how many edges there were. */
static uint64_t advance(Member *m, uint64_t counts, uint64_t steps, uint64_t pieces) {
    uint64_t edges = 0;
    for (uint64_t left = pieces; left > 0; left--) {
        uint64_t c = counts / left, s = steps / left;
        edges += rimjhodek_advance(m->cop0, c, s).is;
        counts -= c;
        steps -= s;
    }
    return edges;
}

/* A load or store of a game: a fault is taken, and so is an interrupt that is due. */
static uint64_t touch(Member *m, uint64_t vaddr, bool store) {
    uint8_t asid = (uint8_t)rimjhodek_dmfc0(m->cop0, RIMJHODEK_ENTRY_HI);
    RimjhodekBy kernel = {RIMJHODEK_MODE_KERNEL, false, false};
    RimjhodekLooked found = rimjhodek_translate_via(m->tlb, vaddr, asid, store, kernel);
    RimjhodekExc fault = {RIMJHODEK_EXCEPTION_TLB_REFILL, store, false, 0};
    RimjhodekExc interrupt = {RIMJHODEK_EXCEPTION_INTERRUPT, false, false, 0};
    if (found.error != 0) {
        return rimjhodek_dispatch(m->cop0, fault, vaddr ^ 0x1000, false, vaddr).vector;
    }
    if (rimjhodek_interrupt_pending(m->cop0)) {
        return rimjhodek_dispatch(m->cop0, interrupt, vaddr, true, 0).vector;
    }
    return (uint64_t)found.entry << 32 | found.addr;
}

/* One input, with its answer. */
static uint64_t play(Member *m, Input in, uint64_t pieces) {
    switch (in.kind) {
        case MOVE:
            rimjhodek_dmtc0(m->cop0, (uint32_t)in.a, in.b & 0xFF01);
            return rimjhodek_mfc0(m->cop0, (uint32_t)in.b);
        case ADVANCE:
            return advance(m, in.a % 0x2000, in.b % 100, pieces);
        case MAP:
            rimjhodek_dmtc0(m->cop0, RIMJHODEK_PAGE_MASK, 0);
            rimjhodek_dmtc0(m->cop0, RIMJHODEK_ENTRY_HI, in.a % 32 << 13);
            rimjhodek_dmtc0(m->cop0, RIMJHODEK_ENTRY_LO0, in.b & 0x3FFFFFF);
            rimjhodek_write_entry(m->tlb, in.a % 32, m->cop0);
            return 0;
        case ACCESS:
            return touch(m, in.a % 0x40000, in.b & 1);
        default:
            return rimjhodek_eret(m->cop0);
    }
}

static bool same(const Member *a, const Member *b) {
    return memcmp(a, b, sizeof *a) == 0;
}

int main(void) {
    static Member after[INPUTS]; /* the first member after each input */
    static Input inputs[INPUTS];
    static uint64_t answers[INPUTS];
    uint64_t seed = 0x4300, played = 0, rolled = 0;
    Member whole, cut, save;
    rimjhodek_session_new(whole.cop0, whole.tlb);
    cut = save = whole;
    for (int i = 0; i < INPUTS; i++) {
        inputs[i] = input(&seed);
        answers[i] = play(&whole, inputs[i], 1);
        after[i] = whole;
    }
    for (int i = 0, from = 0; i < INPUTS; i++, played++) {
        uint64_t answer = play(&cut, inputs[i], 1 + next(&seed) % 5);
        if (answer != answers[i] || !same(&cut, &after[i])) {
            printf("the members part at input %d\n", i);
            return 1;
        }
        if (i == from + BETWEEN_SAVES && rolled++ % 2 == 0) {
            cut = save; /* rolled back, to play the inputs since again, cut otherwise */
            i = from - 1;
        } else if (i == from + BETWEEN_SAVES) {
            save = cut;
            from = i + 1;
        }
    }
    printf("C: two members played %d inputs, one in pieces; rolled back %llu times, and the same after each of %llu\n",
           INPUTS, (unsigned long long)(rolled + 1) / 2, (unsigned long long)played);
    return 0;
}
