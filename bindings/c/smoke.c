/* The header against the library, from C: what crosses has the layout that Rattle counts on, and some functions of
 * every kind answer what they should. Status 1 where one does not. */
#include <stdio.h>
#include <string.h>

#include "../rimjhodek.h"

#define SIZE(of, size) _Static_assert(sizeof(Rimjhodek##of) == (size), "the size of " #of)
#define AT(of, field, offset) _Static_assert(offsetof(Rimjhodek##of, field) == (offset), #of "." #field)

SIZE(Flag, 2);
AT(Flag, refused, 0);
AT(Flag, is, 1);
SIZE(Number, 16);
AT(Number, refused, 0);
AT(Number, value, 8);
SIZE(Looked, 8);
AT(Looked, error, 0);
AT(Looked, uncached, 1);
AT(Looked, entry, 2);
AT(Looked, addr, 4);
SIZE(By, 3);
AT(By, mode, 0);
AT(By, wide, 1);
AT(By, erl, 2);
SIZE(Granted, 4);
AT(Granted, refused, 0);
AT(Granted, mode, 1);
AT(Granted, wide, 2);
AT(Granted, erl, 3);
SIZE(Reached, 8);
AT(Reached, refused, 0);
AT(Reached, kind, 1);
AT(Reached, cached, 2);
AT(Reached, addr, 4);
SIZE(Exc, 4);
AT(Exc, number, 0);
AT(Exc, store, 1);
AT(Exc, wide, 2);
AT(Exc, unit, 3);
SIZE(Taken, 16);
AT(Taken, refused, 0);
AT(Taken, stall_cycles, 4);
AT(Taken, vector, 8);
SIZE(Plan, 8);
AT(Plan, refused, 0);
AT(Plan, plan, 1);
AT(Plan, addr, 4);
SIZE(Eviction, 8);
AT(Eviction, refused, 0);
AT(Eviction, evict, 1);
AT(Eviction, addr, 4);
SIZE(DataPlan, 24);
AT(DataPlan, plan, 0);
AT(DataPlan, data, 8);
SIZE(DataLine, 24);
AT(DataLine, eviction, 0);
AT(DataLine, data, 8);
SIZE(InstructionLine, 40);
AT(InstructionLine, eviction, 0);
AT(InstructionLine, data, 8);

static int checks, failures;

/* Each check says what it held, where that is not so. */
#define IS(answer, expected) is((uint64_t)(answer), (uint64_t)(expected), #answer, __LINE__)

static void is(uint64_t answer, uint64_t expected, const char *what, int line) {
    checks++;
    if (answer == expected) {
        return;
    }
    failures++;
    fprintf(stderr, "line %d: %s is %#llx and not %#llx\n", line, what, (unsigned long long)answer,
            (unsigned long long)expected);
}

static void registers(void) {
    uint64_t cop0[RIMJHODEK_COP0_WORDS];
    rimjhodek_cop0_new(cop0);
    IS(rimjhodek_dmfc0(cop0, RIMJHODEK_STATUS), 0x00400004);
    IS(rimjhodek_dmfc0(cop0, RIMJHODEK_CONFIG), 0x7006E460);
    rimjhodek_mtc0(cop0, RIMJHODEK_EPC, 0x80001000);
    IS(rimjhodek_dmfc0(cop0, RIMJHODEK_EPC), 0xFFFFFFFF80001000);
    IS(rimjhodek_mfc0(cop0, 7), 0xFFFFFFFF80001000); /* an unused number reads the latch */
    IS(cop0[RIMJHODEK_WORD_LATCH], 0xFFFFFFFF80001000);
    rimjhodek_dmtc0(cop0, 32 + RIMJHODEK_EPC, 0x1234567890ABCDEF);
    IS(cop0[RIMJHODEK_EPC], 0x1234567890ABCDEF);
    rimjhodek_write(cop0, RIMJHODEK_CAUSE, UINT64_MAX);
    IS(cop0[RIMJHODEK_CAUSE], 0x300);
    IS(cop0[RIMJHODEK_WORD_LATCH], 0x1234567890ABCDEF);
    IS(rimjhodek_is_wide(RIMJHODEK_EPC), 1);
    IS(rimjhodek_is_unused(RIMJHODEK_EPC), 0);
    IS(rimjhodek_from_rs(5).value, RIMJHODEK_FORM_DMTC0);
    IS(rimjhodek_from_rs(16).refused, RIMJHODEK_REFUSED_FORM);
    uint8_t numbers[RIMJHODEK_NAMED_REGISTERS];
    rimjhodek_numbers(numbers);
    IS(numbers[0], RIMJHODEK_INDEX);
    IS(numbers[7], RIMJHODEK_BAD_VADDR);
    IS(numbers[24], RIMJHODEK_ERROR_EPC);
}

static void timer(void) {
    uint64_t cop0[RIMJHODEK_COP0_WORDS];
    rimjhodek_cop0_new(cop0);
    rimjhodek_write(cop0, RIMJHODEK_COUNT, 0xFFFFFFFE);
    rimjhodek_write(cop0, RIMJHODEK_COMPARE, 1);
    IS(rimjhodek_count_ticks_until_timer_match(cop0), 3);
    RimjhodekFlag edge = rimjhodek_advance(cop0, 2, 0);
    IS(edge.refused, 0);
    IS(edge.is, 0);
    IS(rimjhodek_advance(cop0, (uint64_t)1 << 32, 0).refused, RIMJHODEK_REFUSED_COUNTS);
    IS(cop0[RIMJHODEK_WORD_NOW], 2);
    uint64_t asked[RIMJHODEK_COP0_WORDS];
    memcpy(asked, cop0, sizeof asked);
    asked[RIMJHODEK_WORD_NOW] = 3;
    IS(rimjhodek_timer_edge(asked), 1);
    IS(asked[RIMJHODEK_WORD_LAST_COUNT], 1);
    IS(rimjhodek_advance(cop0, 1, 5).is, 1);
    IS(rimjhodek_count(cop0), 1);
    IS(rimjhodek_timer_matches(cop0), 1);
    IS(cop0[RIMJHODEK_RANDOM], 26);
    IS(cop0[RIMJHODEK_CAUSE], 0x8000);
    rimjhodek_set_hardware(cop0, RIMJHODEK_STATUS, 0x8001);
    IS(rimjhodek_interrupt_pending(cop0), 1);
    rimjhodek_set_ip(cop0, 8 + 7, false);
    IS(rimjhodek_interrupt_pending(cop0), 0);
    rimjhodek_tick_random(cop0);
    rimjhodek_tick_random_by(cop0, 5);
    IS(cop0[RIMJHODEK_RANDOM], 20);
}

static void translation(void) {
    uint64_t cop0[RIMJHODEK_COP0_WORDS], tlb[RIMJHODEK_TLB_WORDS];
    rimjhodek_session_new(cop0, tlb);
    IS(tlb[RIMJHODEK_WORD_SLOT0], 32);
    rimjhodek_set_hardware(cop0, RIMJHODEK_ENTRY_HI, 0x12000 | 7);
    rimjhodek_set_hardware(cop0, RIMJHODEK_ENTRY_LO0, (uint64_t)0xABCDE << 6 | 2 << 3 | 6);
    rimjhodek_set_hardware(cop0, RIMJHODEK_ENTRY_LO1, (uint64_t)0x12345 << 6 | 3 << 3 | 2);
    rimjhodek_write_entry(tlb, 5, cop0);
    IS(tlb[4 * 5 + 1], 0x12007);
    rimjhodek_probe(tlb, cop0);
    IS(cop0[RIMJHODEK_INDEX], 5);
    rimjhodek_set_hardware(cop0, RIMJHODEK_ENTRY_HI, 0);
    rimjhodek_read_entry(tlb, 32 + 5, cop0);
    IS(cop0[RIMJHODEK_ENTRY_HI], 0x12007);

    RimjhodekLooked even = rimjhodek_lookup(tlb, 0x12678, 7, true);
    IS(even.error, 0);
    IS(even.uncached, 1);
    IS(even.entry, 5);
    IS(even.addr, 0xABCDE678);
    IS(rimjhodek_lookup(tlb, 0x13678, 7, true).error, RIMJHODEK_FAULT_MODIFIED);
    IS(rimjhodek_lookup(tlb, 0x12678, 8, true).error, RIMJHODEK_FAULT_REFILL);
    IS(rimjhodek_lookup(tlb, 0x12678, 8, true).entry, 0);
    IS(rimjhodek_jtlb_has_match(tlb, 0x12678, 7), 1);
    IS(rimjhodek_page_size(0), 0x1000);
    IS(rimjhodek_pair_size(0x6000), 0x8000);

    RimjhodekBy user = {RIMJHODEK_MODE_USER, false, false};
    IS(rimjhodek_translate_via(tlb, 0x80000000, 7, false, user).error, RIMJHODEK_FAULT_ADDRESS);
    IS(rimjhodek_translate_via(tlb, 0x13678, 7, false, user).addr, 0x12345678);
    IS(rimjhodek_translate_via(tlb, 0x13678, 7, false, user).entry, 5);
    RimjhodekBy kernel = {RIMJHODEK_MODE_KERNEL, true, false};
    IS(rimjhodek_translate_via(tlb, 0xFFFFFFFF80013678, 7, false, kernel).entry, RIMJHODEK_NO_ENTRY);
    RimjhodekReached reached = rimjhodek_segment(0x9000000012345678, kernel);
    IS(reached.addr, 0x12345678);
    IS(reached.kind, RIMJHODEK_REACHED_DIRECT);
    IS(reached.cached, 0);
    RimjhodekBy none = {3, false, false};
    IS(rimjhodek_segment(0, none).refused, RIMJHODEK_REFUSED_NUMBER);
    IS(rimjhodek_translate_via(tlb, 0, 7, false, none).error, RIMJHODEK_REFUSED_NUMBER);
    IS(rimjhodek_from_status(0x18).refused, RIMJHODEK_REFUSED_MODE);
    IS(rimjhodek_from_status(0x48).mode, RIMJHODEK_MODE_SUPERVISOR);
    IS(rimjhodek_from_status(0x48).wide, 1);
    IS(rimjhodek_from_status(0x5C).refused, 0);
    IS(rimjhodek_from_status(0x5C).mode, RIMJHODEK_MODE_KERNEL);
    IS(rimjhodek_from_status(0x5C).wide, 0);
    IS(rimjhodek_from_status(0x9C).wide, 1);
    IS(rimjhodek_from_status(0x9C).erl, 1);

    rimjhodek_itlb_fill(tlb, 0x12000, 7);
    IS(rimjhodek_itlb_probe(tlb, 0x12000, 7), 1);
    IS(tlb[RIMJHODEK_WORD_SLOT0], 5);
    IS(tlb[RIMJHODEK_WORD_SHUTDOWN], 0);
}

static void exceptions(void) {
    uint64_t cop0[RIMJHODEK_COP0_WORDS], before[RIMJHODEK_COP0_WORDS];
    rimjhodek_cop0_new(cop0);
    rimjhodek_set_hardware(cop0, RIMJHODEK_STATUS, 0);
    RimjhodekExc refill = {RIMJHODEK_EXCEPTION_TLB_REFILL, true, true, 0};
    IS(rimjhodek_vector_kind_of(refill).value, RIMJHODEK_VECTOR_XTLB_REFILL);
    IS(rimjhodek_exc_code_of(refill).value, RIMJHODEK_CODE_TLBS);
    IS(rimjhodek_writes_bad_vaddr(refill).is, 1);
    RimjhodekTaken taken = rimjhodek_dispatch(cop0, refill, 0, true, 0x12000);
    IS(taken.refused, 0);
    IS(taken.vector, 0xFFFFFFFF80000080);
    IS(taken.stall_cycles, 2);
    IS(cop0[RIMJHODEK_EPC], 0xFFFFFFFFFFFFFFFC);
    IS(rimjhodek_vector(cop0[RIMJHODEK_STATUS], RIMJHODEK_VECTOR_TLB_REFILL).value, 0xFFFFFFFF80000180);
    IS(rimjhodek_eret(cop0), 0xFFFFFFFFFFFFFFFC);
    memcpy(before, cop0, sizeof before);
    RimjhodekExc unknown = {200, false, false, 0};
    IS(rimjhodek_dispatch(cop0, unknown, 0, false, 0).refused, RIMJHODEK_REFUSED_NUMBER);
    IS(rimjhodek_vector(0, 4).refused, RIMJHODEK_REFUSED_NUMBER);
    IS(memcmp(before, cop0, sizeof before), 0);
    IS(rimjhodek_nmi(cop0, 0x1000).vector, 0xFFFFFFFFBFC00000);
}

/* A cache's parts with their lengths. */
#define LINES lines, sizeof lines
#define TAGS tags, RIMJHODEK_CACHE_TAGS
#define BOTH LINES, TAGS

static void data_cache(void) {
    static uint8_t lines[RIMJHODEK_DCACHE_BYTES];
    static uint32_t tags[RIMJHODEK_CACHE_TAGS];
    uint8_t line[16] = {0, 1, 2, 3, 4, 5, 6, 7, 8, 9, 10, 11, 12, 13, 14, 15};
    IS(rimjhodek_dcache_new(BOTH), 0);
    IS(rimjhodek_dcache_new(lines, RIMJHODEK_DCACHE_BYTES - 1, TAGS), RIMJHODEK_REFUSED_PARTS);
    IS(rimjhodek_dcache_install(BOTH, 0x12345670, line), 0);
    IS(rimjhodek_dcache_hits(TAGS, 0x12345678).is, 1);
    IS(rimjhodek_dcache_hit(tags, 0x12345678), 1);
    IS(rimjhodek_dcache_read(LINES, 0x12345678, 8).value, 0x08090A0B0C0D0E0F);
    IS(rimjhodek_dcache_read(LINES, 0x12345679, 8).refused, RIMJHODEK_REFUSED_OFFSET);
    IS(rimjhodek_dcache_write(BOTH, 0x12345670, 0, 0), RIMJHODEK_REFUSED_LENGTH);
    IS(rimjhodek_dcache_write(BOTH, 0x12345670, 1, 0xAA), 0);
    line[0] = 0xAA;
    RimjhodekDataPlan planned = rimjhodek_dcache_miss_plan(BOTH, 0x1670);
    IS(planned.plan.plan, RIMJHODEK_PLAN_EVICT);
    IS(planned.plan.addr, 0x12345670);
    IS(memcmp(planned.data, line, 16), 0);
    RimjhodekDataLine flushed = rimjhodek_dcache_flush_index(BOTH, 0x1670, true, false);
    IS(flushed.eviction.evict, 1);
    IS(memcmp(flushed.data, line, 16), 0);
    IS(rimjhodek_dcache_hits(TAGS, 0x12345678).is, 0);
    IS(rimjhodek_dcache_store_tag(TAGS, 0x1010, 0x12C0), 0);
    IS(rimjhodek_dcache_load_tag(TAGS, 0x1010).value, 0x12C0);
    IS(rimjhodek_dcache_resident_addr(TAGS, 0x101).value, 0x12010);
}

static void instruction_cache(void) {
    static uint8_t lines[RIMJHODEK_ICACHE_BYTES];
    static uint32_t tags[RIMJHODEK_CACHE_TAGS];
    uint8_t line[32];
    for (int i = 0; i < 32; i++) {
        line[i] = (uint8_t)i;
    }
    IS(rimjhodek_icache_new(BOTH), 0);
    IS(rimjhodek_icache_install(BOTH, 0x12345660, line), 0);
    IS(rimjhodek_icache_read_word(LINES, 0x1234567C).value, 0x1C1D1E1F);
    IS(rimjhodek_icache_read_word(LINES, 0x1234567D).refused, RIMJHODEK_REFUSED_OFFSET);
    RimjhodekInstructionLine flushed = rimjhodek_icache_flush_hit(BOTH, 0x12345678);
    IS(flushed.eviction.evict, 1);
    IS(flushed.eviction.addr, 0x12345660);
    IS(memcmp(flushed.data, line, 32), 0);
    IS(rimjhodek_icache_hit(tags, 0x12345678), 1);
    IS(rimjhodek_icache_hit_invalidate(TAGS, 0x12345678), 0);
    IS(rimjhodek_icache_hits(TAGS, 0x12345678).is, 0);
}

int main(void) {
    registers();
    timer();
    translation();
    exceptions();
    data_cache();
    instruction_cache();
    printf("C: %d checks, %d failed\n", checks, failures);
    return failures != 0;
}
