/* Rimjhodek: the VR4300's system control, proved. The exported functions of Rattle's crate `rimjhodek`, in
 * librimjhodek.a, which `rt lib` in crates/rimjhodek writes for x86-64 Linux.
 *
 * State is plain words that the caller owns and lends: 38 for a register file, 132 for a TLB, a cache's lines and its
 * tags. Nothing is kept between calls, so that any thread may call with state of its own, and a copy of the words is a
 * copy of the state. A lent pointer must not be null, and two that are lent to one call must not overlap. Bits that a
 * word's field does not have are ignored, and are 0 in all words that these functions made. What each function answers
 * is its contract in crates/rimjhodek/src. */
#ifndef RIMJHODEK_H
#define RIMJHODEK_H

#include <stdbool.h>
#include <stddef.h>
#include <stdint.h>

#ifdef __cplusplus
extern "C" {
#endif

/* The lengths of what is lent. */
enum {
    RIMJHODEK_COP0_WORDS = 38,
    RIMJHODEK_TLB_WORDS = 132,
    RIMJHODEK_DCACHE_BYTES = 8192,
    RIMJHODEK_DCACHE_LINE = 16,
    RIMJHODEK_ICACHE_BYTES = 16384,
    RIMJHODEK_ICACHE_LINE = 32,
    RIMJHODEK_CACHE_TAGS = 512,
    RIMJHODEK_NAMED_REGISTERS = 25
};

/* What is turned away. Nothing is changed then. */
enum {
    RIMJHODEK_REFUSED_PARTS = 1,   /* a cache's lines or tags have the wrong length */
    RIMJHODEK_REFUSED_LENGTH = 2,  /* a data access of 0 bytes, or over 8 */
    RIMJHODEK_REFUSED_OFFSET = 3,  /* an access past the end of its line */
    RIMJHODEK_REFUSED_MODE = 4,    /* Status.KSU is 3, and EXL and ERL are 0 */
    RIMJHODEK_REFUSED_COUNTS = 5,  /* an advance by 2^32 counts or more */
    RIMJHODEK_REFUSED_FORM = 6,    /* an rs field that names no access form */
    RIMJHODEK_REFUSED_NUMBER = 255 /* a number that names no mode, exception or vector */
};

/* An answer is a number, or a struct whose first field is the refusal, 0 for none; all else of it is 0 where there is
 * one. */
typedef struct RimjhodekFlag {
    uint8_t refused;
    bool is;
} RimjhodekFlag;

typedef struct RimjhodekNumber {
    uint8_t refused;
    uint64_t value;
} RimjhodekNumber;

/* ---- The register file ------------------------------------------------------------------------------------------ */

/* Words 0 to 31 are the registers as stored; those that have a name: */
enum {
    RIMJHODEK_INDEX = 0,
    RIMJHODEK_RANDOM = 1,
    RIMJHODEK_ENTRY_LO0 = 2,
    RIMJHODEK_ENTRY_LO1 = 3,
    RIMJHODEK_CONTEXT = 4,
    RIMJHODEK_PAGE_MASK = 5,
    RIMJHODEK_WIRED = 6,
    RIMJHODEK_BAD_VADDR = 8,
    RIMJHODEK_COUNT = 9,
    RIMJHODEK_ENTRY_HI = 10,
    RIMJHODEK_COMPARE = 11,
    RIMJHODEK_STATUS = 12,
    RIMJHODEK_CAUSE = 13,
    RIMJHODEK_EPC = 14,
    RIMJHODEK_PRID = 15,
    RIMJHODEK_CONFIG = 16,
    RIMJHODEK_LL_ADDR = 17,
    RIMJHODEK_WATCH_LO = 18,
    RIMJHODEK_WATCH_HI = 19,
    RIMJHODEK_XCONTEXT = 20,
    RIMJHODEK_PERR = 26,
    RIMJHODEK_CACHE_ERR = 27,
    RIMJHODEK_TAG_LO = 28,
    RIMJHODEK_TAG_HI = 29,
    RIMJHODEK_ERROR_EPC = 30
};

/* The words after the registers. */
enum {
    RIMJHODEK_WORD_NOW = 32,         /* the clock's position, which a host may read and set */
    RIMJHODEK_WORD_EPOCH_COUNT = 33, /* Count at its epoch: 32 bits */
    RIMJHODEK_WORD_EPOCH_NOW = 34,   /* the position at that epoch */
    RIMJHODEK_WORD_LAST_COUNT = 35,  /* Count when the timer was last asked: 32 bits */
    RIMJHODEK_WORD_EC = 36,          /* Config.EC: 8 bits */
    RIMJHODEK_WORD_LATCH = 37        /* the last MTC0 or DMTC0, which the unused registers read */
};

/* The access forms, as rimjhodek_from_rs numbers them. */
enum { RIMJHODEK_FORM_MFC0 = 0, RIMJHODEK_FORM_DMFC0 = 1, RIMJHODEK_FORM_MTC0 = 2, RIMJHODEK_FORM_DMTC0 = 3 };

/* The registers as at cold reset. */
void rimjhodek_cop0_new(uint64_t cop0[RIMJHODEK_COP0_WORDS]);
/* Register numbers are taken modulo 32. DMFC0 reads a register as it is. */
uint64_t rimjhodek_mfc0(const uint64_t cop0[RIMJHODEK_COP0_WORDS], uint32_t n);
uint64_t rimjhodek_dmfc0(const uint64_t cop0[RIMJHODEK_COP0_WORDS], uint32_t n);
void rimjhodek_mtc0(uint64_t cop0[RIMJHODEK_COP0_WORDS], uint32_t n, uint64_t value);
void rimjhodek_dmtc0(uint64_t cop0[RIMJHODEK_COP0_WORDS], uint32_t n, uint64_t value);
/* As DMTC0, and the latch stays. */
void rimjhodek_write(uint64_t cop0[RIMJHODEK_COP0_WORDS], uint32_t n, uint64_t value);
/* As the hardware writes: every bit that the register has. */
void rimjhodek_set_hardware(uint64_t cop0[RIMJHODEK_COP0_WORDS], uint32_t n, uint64_t value);
bool rimjhodek_is_unused(uint32_t n);
bool rimjhodek_is_wide(uint32_t n);
/* The access form that an rs field names. */
RimjhodekNumber rimjhodek_from_rs(uint32_t rs);
/* The numbers of the registers that have a name, in the order above. */
void rimjhodek_numbers(uint8_t out[RIMJHODEK_NAMED_REGISTERS]);

/* ---- Count, Compare, the timer, and the advance ------------------------------------------------------------------ */

uint32_t rimjhodek_count(const uint64_t cop0[RIMJHODEK_COP0_WORDS]);
bool rimjhodek_timer_matches(const uint64_t cop0[RIMJHODEK_COP0_WORDS]);
bool rimjhodek_timer_edge(uint64_t cop0[RIMJHODEK_COP0_WORDS]);
uint64_t rimjhodek_count_ticks_until_timer_match(const uint64_t cop0[RIMJHODEK_COP0_WORDS]);
/* Moves the clock and Random, asks the timer, and sets pending bit 7 on an edge; says whether there was one. */
RimjhodekFlag rimjhodek_advance(uint64_t cop0[RIMJHODEK_COP0_WORDS], uint64_t counts, uint64_t steps);

/* ---- Interrupts and Random --------------------------------------------------------------------------------------- */

/* Pending bits are taken modulo 8. */
void rimjhodek_set_ip(uint64_t cop0[RIMJHODEK_COP0_WORDS], uint32_t bit, bool on);
bool rimjhodek_interrupt_pending(const uint64_t cop0[RIMJHODEK_COP0_WORDS]);
void rimjhodek_tick_random(uint64_t cop0[RIMJHODEK_COP0_WORDS]);
void rimjhodek_tick_random_by(uint64_t cop0[RIMJHODEK_COP0_WORDS], uint64_t n);

/* ---- The TLB ----------------------------------------------------------------------------------------------------- */

/* Words 4i to 4i + 3 are entry i, in the form of PageMask, EntryHi, EntryLo0 and EntryLo1. After the entries: */
enum {
    RIMJHODEK_WORD_SLOT0 = 128,   /* the micro-TLB's slots: an entry's number, or from 32 up nothing */
    RIMJHODEK_WORD_SLOT1 = 129,
    RIMJHODEK_WORD_NEXT = 130,    /* the slot that is filled next */
    RIMJHODEK_WORD_SHUTDOWN = 131 /* bit 0: two entries matched once */
};

/* Why an address leads nowhere; or RIMJHODEK_REFUSED_NUMBER, of a mode. */
enum {
    RIMJHODEK_FAULT_REFILL = 1,
    RIMJHODEK_FAULT_INVALID = 2,
    RIMJHODEK_FAULT_MODIFIED = 3,
    RIMJHODEK_FAULT_ADDRESS = 4 /* of rimjhodek_translate_via alone */
};

/* The entry of an address in a direct segment, which no entry gave. */
enum {
    RIMJHODEK_NO_ENTRY = 32
};

typedef struct RimjhodekLooked {
    uint8_t error; /* 0, or why */
    bool uncached;
    uint8_t entry; /* the number of the entry that gave the address, the only one that matches; or RIMJHODEK_NO_ENTRY */
    uint32_t addr;
} RimjhodekLooked;

/* Entry numbers are taken modulo 32. */
void rimjhodek_tlb_new(uint64_t tlb[RIMJHODEK_TLB_WORDS]);
RimjhodekLooked rimjhodek_lookup(uint64_t tlb[RIMJHODEK_TLB_WORDS], uint64_t vaddr, uint8_t asid, bool store);
void rimjhodek_write_entry(uint64_t tlb[RIMJHODEK_TLB_WORDS], size_t index,
                           const uint64_t cop0[RIMJHODEK_COP0_WORDS]);
void rimjhodek_read_entry(const uint64_t tlb[RIMJHODEK_TLB_WORDS], size_t index,
                          uint64_t cop0[RIMJHODEK_COP0_WORDS]);
void rimjhodek_probe(const uint64_t tlb[RIMJHODEK_TLB_WORDS], uint64_t cop0[RIMJHODEK_COP0_WORDS]);
bool rimjhodek_jtlb_has_match(const uint64_t tlb[RIMJHODEK_TLB_WORDS], uint64_t vaddr, uint8_t asid);
bool rimjhodek_itlb_probe(uint64_t tlb[RIMJHODEK_TLB_WORDS], uint64_t vaddr, uint8_t asid);
void rimjhodek_itlb_fill(uint64_t tlb[RIMJHODEK_TLB_WORDS], uint64_t vaddr, uint8_t asid);
uint64_t rimjhodek_page_size(uint32_t mask);
uint64_t rimjhodek_pair_size(uint32_t mask);

/* ---- Modes, segments and translation ----------------------------------------------------------------------------- */

enum { RIMJHODEK_MODE_KERNEL = 0, RIMJHODEK_MODE_SUPERVISOR = 1, RIMJHODEK_MODE_USER = 2 };

typedef struct RimjhodekBy {
    uint8_t mode;
    bool wide; /* 64-bit addressing */
    bool erl;  /* Status.ERL */
} RimjhodekBy;

typedef struct RimjhodekGranted {
    uint8_t refused;
    uint8_t mode;
    bool wide;
    bool erl;
} RimjhodekGranted;

enum { RIMJHODEK_REACHED_DIRECT = 0, RIMJHODEK_REACHED_MAPPED = 1, RIMJHODEK_REACHED_NOT_AT_ALL = 2 };

typedef struct RimjhodekReached {
    uint8_t refused;
    uint8_t kind;
    bool cached; /* of RIMJHODEK_REACHED_DIRECT alone, as is the address */
    uint32_t addr;
} RimjhodekReached;

/* The access that Status asks for: by the kernel where EXL or ERL is 1 or KSU is 0, and KX is its width then. */
RimjhodekGranted rimjhodek_from_status(uint64_t status);
RimjhodekReached rimjhodek_segment(uint64_t vaddr, RimjhodekBy access);
RimjhodekLooked rimjhodek_translate_via(uint64_t tlb[RIMJHODEK_TLB_WORDS], uint64_t vaddr, uint8_t asid, bool store,
                                        RimjhodekBy access);

/* ---- Exceptions -------------------------------------------------------------------------------------------------- */

enum {
    RIMJHODEK_EXCEPTION_INTERRUPT = 0,
    RIMJHODEK_EXCEPTION_ADDRESS_ERROR = 1, /* store */
    RIMJHODEK_EXCEPTION_OVERFLOW = 2,
    RIMJHODEK_EXCEPTION_SYSCALL = 3,
    RIMJHODEK_EXCEPTION_BREAKPOINT = 4,
    RIMJHODEK_EXCEPTION_TRAP = 5,
    RIMJHODEK_EXCEPTION_RESERVED_INSTRUCTION = 6,
    RIMJHODEK_EXCEPTION_COPROCESSOR_RESERVED = 7, /* unit */
    RIMJHODEK_EXCEPTION_COPROCESSOR_UNUSABLE = 8, /* unit */
    RIMJHODEK_EXCEPTION_NMI = 9,
    RIMJHODEK_EXCEPTION_TLB_REFILL = 10,  /* store, wide */
    RIMJHODEK_EXCEPTION_TLB_INVALID = 11, /* store */
    RIMJHODEK_EXCEPTION_TLB_MODIFIED = 12,
    RIMJHODEK_EXCEPTION_FLOATING_POINT = 13
};

/* An exception by its number, with the values that some of them hold. */
typedef struct RimjhodekExc {
    uint8_t number;
    bool store;
    bool wide;
    uint8_t unit;
} RimjhodekExc;

typedef struct RimjhodekTaken {
    uint8_t refused;
    uint32_t stall_cycles;
    uint64_t vector;
} RimjhodekTaken;

/* The values of Cause.ExcCode. */
enum {
    RIMJHODEK_CODE_INT = 0,
    RIMJHODEK_CODE_MOD = 1,
    RIMJHODEK_CODE_TLBL = 2,
    RIMJHODEK_CODE_TLBS = 3,
    RIMJHODEK_CODE_ADEL = 4,
    RIMJHODEK_CODE_ADES = 5,
    RIMJHODEK_CODE_IBE = 6,
    RIMJHODEK_CODE_DBE = 7,
    RIMJHODEK_CODE_SYS = 8,
    RIMJHODEK_CODE_BP = 9,
    RIMJHODEK_CODE_RI = 10,
    RIMJHODEK_CODE_CPU = 11,
    RIMJHODEK_CODE_OV = 12,
    RIMJHODEK_CODE_TR = 13,
    RIMJHODEK_CODE_FPE = 15,
    RIMJHODEK_CODE_WATCH = 23
};

enum {
    RIMJHODEK_VECTOR_GENERAL = 0,
    RIMJHODEK_VECTOR_TLB_REFILL = 1,
    RIMJHODEK_VECTOR_XTLB_REFILL = 2,
    RIMJHODEK_VECTOR_RESET = 3
};

/* `pc` is the address of the instruction that faulted. */
RimjhodekTaken rimjhodek_dispatch(uint64_t cop0[RIMJHODEK_COP0_WORDS], RimjhodekExc exc, uint64_t pc,
                                  bool in_delay_slot, uint64_t bad_vaddr);
RimjhodekTaken rimjhodek_nmi(uint64_t cop0[RIMJHODEK_COP0_WORDS], uint64_t pc);
/* Where to resume. */
uint64_t rimjhodek_eret(uint64_t cop0[RIMJHODEK_COP0_WORDS]);
RimjhodekNumber rimjhodek_vector(uint64_t status, uint8_t kind);
RimjhodekNumber rimjhodek_exc_code_of(RimjhodekExc exc);
RimjhodekNumber rimjhodek_vector_kind_of(RimjhodekExc exc);
RimjhodekFlag rimjhodek_writes_bad_vaddr(RimjhodekExc exc);

/* ---- A session --------------------------------------------------------------------------------------------------- */

/* A member of a room at its start: fresh registers and a fresh TLB. Each operation of a session is a function above. */
void rimjhodek_session_new(uint64_t cop0[RIMJHODEK_COP0_WORDS], uint64_t tlb[RIMJHODEK_TLB_WORDS]);

/* ---- The caches -------------------------------------------------------------------------------------------------- */

/* A function that answers no more than its refusal hands the number back. */

/* What an access must do first. */
enum { RIMJHODEK_PLAN_HIT = 0, RIMJHODEK_PLAN_FILL = 1, RIMJHODEK_PLAN_EVICT = 2 };

typedef struct RimjhodekPlan {
    uint8_t refused;
    uint8_t plan;
    uint32_t addr; /* of RIMJHODEK_PLAN_EVICT: where the line is written back to, before the fill */
} RimjhodekPlan;

/* Whether a line is to be written back, and where to. */
typedef struct RimjhodekEviction {
    uint8_t refused;
    bool evict;
    uint32_t addr;
} RimjhodekEviction;

typedef struct RimjhodekDataPlan {
    RimjhodekPlan plan;
    uint8_t data[RIMJHODEK_DCACHE_LINE]; /* the evicted line, or zero */
} RimjhodekDataPlan;

typedef struct RimjhodekDataLine {
    RimjhodekEviction eviction;
    uint8_t data[RIMJHODEK_DCACHE_LINE]; /* the line, or zero */
} RimjhodekDataLine;

typedef struct RimjhodekInstructionLine {
    RimjhodekEviction eviction;
    uint8_t data[RIMJHODEK_ICACHE_LINE]; /* the line, or zero */
} RimjhodekInstructionLine;

/* The data cache: 8,192 bytes of lines and 512 tag words. Bits 19..0 of a word are the tag, bit 20 is valid, bit 21
 * is dirty. */
uint8_t rimjhodek_dcache_new(uint8_t *lines, size_t lines_len, uint32_t *tags, size_t tags_len);
RimjhodekFlag rimjhodek_dcache_hits(const uint32_t *tags, size_t tags_len, uint32_t addr);
/* The same of as many tags as there are, which nothing refuses. */
bool rimjhodek_dcache_hit(const uint32_t tags[RIMJHODEK_CACHE_TAGS], uint32_t addr);
RimjhodekDataPlan rimjhodek_dcache_miss_plan(const uint8_t *lines, size_t lines_len, const uint32_t *tags,
                                             size_t tags_len, uint32_t addr);
uint8_t rimjhodek_dcache_install(uint8_t *lines, size_t lines_len, uint32_t *tags, size_t tags_len, uint32_t addr,
                                 const uint8_t line[RIMJHODEK_DCACHE_LINE]);
RimjhodekNumber rimjhodek_dcache_read(const uint8_t *lines, size_t lines_len, uint32_t addr, size_t len);
uint8_t rimjhodek_dcache_write(uint8_t *lines, size_t lines_len, uint32_t *tags, size_t tags_len, uint32_t addr,
                               size_t len, uint64_t value);
RimjhodekNumber rimjhodek_dcache_load_tag(const uint32_t *tags, size_t tags_len, uint32_t addr);
uint8_t rimjhodek_dcache_store_tag(uint32_t *tags, size_t tags_len, uint32_t addr, uint32_t tag_lo);
RimjhodekDataLine rimjhodek_dcache_flush_index(const uint8_t *lines, size_t lines_len, uint32_t *tags, size_t tags_len,
                                               uint32_t addr, bool invalidate, bool clean);
RimjhodekDataLine rimjhodek_dcache_create_dirty_exclusive(const uint8_t *lines, size_t lines_len, uint32_t *tags,
                                                          size_t tags_len, uint32_t addr);
RimjhodekNumber rimjhodek_dcache_resident_addr(const uint32_t *tags, size_t tags_len, size_t index);

/* The instruction cache: 16,384 bytes of lines and 512 tag words, which have no dirty bit. */
uint8_t rimjhodek_icache_new(uint8_t *lines, size_t lines_len, uint32_t *tags, size_t tags_len);
RimjhodekFlag rimjhodek_icache_hits(const uint32_t *tags, size_t tags_len, uint32_t addr);
bool rimjhodek_icache_hit(const uint32_t tags[RIMJHODEK_CACHE_TAGS], uint32_t addr);
RimjhodekNumber rimjhodek_icache_read_word(const uint8_t *lines, size_t lines_len, uint32_t addr);
uint8_t rimjhodek_icache_install(uint8_t *lines, size_t lines_len, uint32_t *tags, size_t tags_len, uint32_t addr,
                                 const uint8_t line[RIMJHODEK_ICACHE_LINE]);
RimjhodekNumber rimjhodek_icache_load_tag(const uint32_t *tags, size_t tags_len, uint32_t addr);
uint8_t rimjhodek_icache_store_tag(uint32_t *tags, size_t tags_len, uint32_t addr, uint32_t tag_lo);
uint8_t rimjhodek_icache_invalidate_index(uint32_t *tags, size_t tags_len, uint32_t addr);
uint8_t rimjhodek_icache_hit_invalidate(uint32_t *tags, size_t tags_len, uint32_t addr);
RimjhodekInstructionLine rimjhodek_icache_flush_hit(const uint8_t *lines, size_t lines_len, const uint32_t *tags,
                                                    size_t tags_len, uint32_t addr);
RimjhodekNumber rimjhodek_icache_resident_addr(const uint32_t *tags, size_t tags_len, size_t index);

#ifdef __cplusplus
}
#endif

#endif
