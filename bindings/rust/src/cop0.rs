//! The register file: its numbers and masks, reads and writes, Count and Compare, Random,
//! interrupts.

use crate::Refusal;
use crate::ffi::{self, COP0_WORDS};

/// Register numbers, by name.
pub mod reg {
    /// The TLB entry that `TLBR` and `TLBWI` use.
    pub const INDEX: u8 = 0;
    /// The TLB's replacement counter.
    pub const RANDOM: u8 = 1;
    /// The even page of a TLB entry.
    pub const ENTRY_LO0: u8 = 2;
    /// The odd page of a TLB entry.
    pub const ENTRY_LO1: u8 = 3;
    /// Page-table base and faulting VPN2, for a 32-bit refill.
    pub const CONTEXT: u8 = 4;
    /// The TLB's page size.
    pub const PAGE_MASK: u8 = 5;
    /// How many TLB entries are not replaced.
    pub const WIRED: u8 = 6;
    /// The faulting address.
    pub const BAD_VADDR: u8 = 8;
    /// The free-running counter, at half the pipeline's clock.
    pub const COUNT: u8 = 9;
    /// VPN2 and ASID of a TLB entry.
    pub const ENTRY_HI: u8 = 10;
    /// What Count is compared with, for the timer.
    pub const COMPARE: u8 = 11;
    /// Status and mode.
    pub const STATUS: u8 = 12;
    /// The cause of the last exception.
    pub const CAUSE: u8 = 13;
    /// Where an exception returns to.
    pub const EPC: u8 = 14;
    /// The processor's revision.
    pub const PRID: u8 = 15;
    /// Clock ratio, endianness and the cache attribute of KSEG0.
    pub const CONFIG: u8 = 16;
    /// The physical address of the last `LL`.
    pub const LL_ADDR: u8 = 17;
    /// The watchpoint, low.
    pub const WATCH_LO: u8 = 18;
    /// The watchpoint, high.
    pub const WATCH_HI: u8 = 19;
    /// Page-table base and faulting VPN2, for a 64-bit refill.
    pub const XCONTEXT: u8 = 20;
    /// Parity error; the VR4300's hardware does not use it.
    pub const PERR: u8 = 26;
    /// Cache error; the VR4300's hardware does not use it.
    pub const CACHE_ERR: u8 = 27;
    /// A cache's tag, low.
    pub const TAG_LO: u8 = 28;
    /// A cache's tag, high.
    pub const TAG_HI: u8 = 29;
    /// Where an error exception returns to.
    pub const ERROR_EPC: u8 = 30;
}

/// The eight registers that are 64 bits wide, a bit for each number.
pub const WIDE: u32 = (1 << reg::ENTRY_LO0)
    | (1 << reg::ENTRY_LO1)
    | (1 << reg::CONTEXT)
    | (1 << reg::BAD_VADDR)
    | (1 << reg::ENTRY_HI)
    | (1 << reg::EPC)
    | (1 << reg::XCONTEXT)
    | (1 << reg::ERROR_EPC);

/// Is register `n` 64 bits wide?
#[must_use]
pub fn is_wide(n: u8) -> bool {
    ffi::rimjhodek_is_wide(n.into())
}

/// The bits of each register that software can write.
///
/// No export hands the masks out, so this table and [`ARCH_MASK`] are written again;
/// `tests/tables.rs` holds both to what the library does.
pub const WRITE_MASK: [u64; 32] = {
    let mut m = [0; 32];
    m[reg::INDEX as usize] = 0x8000_003F;
    m[reg::ENTRY_LO0 as usize] = 0x3FFF_FFFF;
    m[reg::ENTRY_LO1 as usize] = 0x3FFF_FFFF;
    m[reg::CONTEXT as usize] = 0xFFFF_FFFF_FF80_0000;
    m[reg::PAGE_MASK as usize] = 0x01FF_E000;
    m[reg::WIRED as usize] = 0x3F;
    m[reg::COUNT as usize] = 0xFFFF_FFFF;
    m[reg::ENTRY_HI as usize] = 0xC000_00FF_FFFF_E0FF;
    m[reg::COMPARE as usize] = 0xFFFF_FFFF;
    m[reg::STATUS as usize] = 0xFF57_FFFF;
    m[reg::CAUSE as usize] = 0x0000_0300;
    m[reg::EPC as usize] = u64::MAX;
    m[reg::CONFIG as usize] = 0x0F00_800F;
    m[reg::LL_ADDR as usize] = 0xFFFF_FFFF;
    m[reg::WATCH_LO as usize] = 0xFFFF_FFFB;
    m[reg::WATCH_HI as usize] = 0xF;
    m[reg::XCONTEXT as usize] = 0xFFFF_FFFE_0000_0000;
    m[reg::PERR as usize] = 0xFF;
    m[reg::TAG_LO as usize] = 0x0FFF_FFC0;
    m[reg::ERROR_EPC as usize] = u64::MAX;
    m
};

/// The bits that each register has. `Config` has others that are wired, which a read joins.
pub const ARCH_MASK: [u64; 32] = {
    let mut m = WRITE_MASK;
    m[reg::RANDOM as usize] = 0x3F;
    m[reg::CONTEXT as usize] = 0xFFFF_FFFF_FFFF_FFF0;
    m[reg::BAD_VADDR as usize] = u64::MAX;
    m[reg::STATUS as usize] = 0xFF77_FFFF;
    m[reg::CAUSE as usize] = 0xB000_FF7C;
    m[reg::PRID as usize] = 0xFFFF;
    m[reg::XCONTEXT as usize] = 0xFFFF_FFFF_FFFF_FFF0;
    m
};

/// The places of a register file's words after the 32 registers.
pub mod word {
    /// The clock's position.
    pub const NOW: usize = 32;
    /// Count at its epoch: 32 bits.
    pub const EPOCH_COUNT: usize = 33;
    /// The position at that epoch.
    pub const EPOCH_NOW: usize = 34;
    /// Count when the timer was last asked: 32 bits.
    pub const LAST_COUNT: usize = 35;
    /// `Config.EC`: 8 bits.
    pub const EC: usize = 36;
    /// The last `MTC0` or `DMTC0`, which the unused registers read.
    pub const LATCH: usize = 37;
}

/// The register file.
#[derive(Clone, Debug, Eq, PartialEq)]
#[cfg_attr(feature = "serde", derive(serde::Serialize, serde::Deserialize))]
pub struct Cop0 {
    /// The registers as stored, and then what [`word`] names. These are all of the state: what is
    /// the same in them is the same, and a copy of them goes on as this one.
    #[cfg_attr(feature = "serde", serde(with = "crate::arrays"))]
    pub words: [u64; COP0_WORDS],
}

impl Default for Cop0 {
    fn default() -> Self {
        Self::new()
    }
}

impl Cop0 {
    /// The register numbers that are reserved, and read the value of the last `MTC0` or `DMTC0` to
    /// any register.
    pub const UNUSED: [u8; 7] = [7, 21, 22, 23, 24, 25, 31];

    /// Is this one of [`Cop0::UNUSED`]?
    #[must_use]
    #[inline(always)]
    pub fn is_unused(n: u8) -> bool {
        ffi::rimjhodek_is_unused(n.into())
    }

    /// The registers as at cold reset.
    #[must_use]
    pub fn new() -> Self {
        let mut words = [0; COP0_WORDS];
        ffi::rimjhodek_cop0_new(&mut words);
        Self { words }
    }

    /// Reads a register.
    #[must_use]
    #[inline(always)]
    pub fn read(&self, n: u8) -> u64 {
        ffi::rimjhodek_dmfc0(&self.words, n.into())
    }

    /// Writes the bits of a register that [`WRITE_MASK`] has.
    #[inline(always)]
    pub fn write(&mut self, n: u8, value: u64) {
        ffi::rimjhodek_write(&mut self.words, n.into(), value);
    }

    /// Writes a register as the hardware does: the bits that [`ARCH_MASK`] has.
    #[inline(always)]
    pub fn set_hardware(&mut self, n: u8, value: u64) {
        ffi::rimjhodek_set_hardware(&mut self.words, n.into(), value);
    }

    /// `MFC0 rt, rd`: the low 32 bits, sign-extended.
    #[must_use]
    #[inline(always)]
    pub fn mfc0(&self, n: u8) -> u64 {
        ffi::rimjhodek_mfc0(&self.words, n.into())
    }

    /// `DMFC0 rt, rd`: all 64 bits.
    #[must_use]
    #[inline(always)]
    pub fn dmfc0(&self, n: u8) -> u64 {
        ffi::rimjhodek_dmfc0(&self.words, n.into())
    }

    /// `MTC0 rd, rt`: the low 32 bits, sign-extended for a register of 64 bits.
    #[inline(always)]
    pub fn mtc0(&mut self, n: u8, value: u64) {
        ffi::rimjhodek_mtc0(&mut self.words, n.into(), value);
    }

    /// `DMTC0 rd, rt`: all 64 bits.
    #[inline(always)]
    pub fn dmtc0(&mut self, n: u8, value: u64) {
        ffi::rimjhodek_dmtc0(&mut self.words, n.into(), value);
    }

    /// Sets the clock's position. It is set and not moved, so a call dropped or repeated does no
    /// harm.
    pub const fn set_now(&mut self, now: u64) {
        self.words[word::NOW] = now;
    }

    /// The clock's position.
    #[must_use]
    pub const fn count_now(&self) -> u64 {
        self.words[word::NOW]
    }

    /// Count.
    #[must_use]
    #[inline(always)]
    pub fn count(&self) -> u32 {
        ffi::rimjhodek_count(&self.words)
    }

    /// Is Count equal to Compare?
    #[must_use]
    #[inline(always)]
    pub fn timer_matches(&self) -> bool {
        ffi::rimjhodek_timer_matches(&self.words)
    }

    /// Has Count come to Compare since the timer was last asked?
    #[inline(always)]
    pub fn timer_edge(&mut self) -> bool {
        ffi::rimjhodek_timer_edge(&mut self.words)
    }

    /// How many counts may pass until the timer's next edge.
    #[must_use]
    #[inline(always)]
    pub fn count_ticks_until_timer_match(&self) -> u64 {
        ffi::rimjhodek_count_ticks_until_timer_match(&self.words)
    }

    /// Moves the clock by `counts` and Random by `steps`, asks the timer and sets pending bit 7 on
    /// an edge: what a scheduler otherwise does in four calls. Says whether there was an edge.
    ///
    /// # Errors
    ///
    /// [`Refusal::Counts`] from 2^32 counts on; nothing has moved then.
    #[inline(always)]
    pub fn advance(&mut self, counts: u64, steps: u64) -> Result<bool, Refusal> {
        let edge = ffi::rimjhodek_advance(&mut self.words, counts, steps);
        if edge.refused == 0 {
            return Ok(edge.is);
        }
        Err(Refusal::numbered(edge.refused))
    }

    /// The hardware sets or clears a pending bit of Cause.
    #[inline(always)]
    pub fn set_ip(&mut self, bit: u8, on: bool) {
        ffi::rimjhodek_set_ip(&mut self.words, bit.into(), on);
    }

    /// Is an interrupt taken now?
    #[must_use]
    #[inline(always)]
    pub fn interrupt_pending(&self) -> bool {
        ffi::rimjhodek_interrupt_pending(&self.words)
    }

    /// One step of Random.
    #[inline(always)]
    pub fn tick_random(&mut self) {
        ffi::rimjhodek_tick_random(&mut self.words);
    }

    /// `n` steps of Random.
    #[inline(always)]
    pub fn tick_random_by(&mut self, n: u64) {
        ffi::rimjhodek_tick_random_by(&mut self.words, n);
    }
}

/// The access forms.
#[derive(Clone, Copy, Debug, Eq, PartialEq)]
#[cfg_attr(feature = "serde", derive(serde::Serialize, serde::Deserialize))]
pub enum Cop0Op {
    /// `MFC0 rt, rd`: a 32-bit read.
    Mfc0,
    /// `DMFC0 rt, rd`: a 64-bit read.
    Dmfc0,
    /// `MTC0 rd, rt`: a 32-bit write.
    Mtc0,
    /// `DMTC0 rd, rt`: a 64-bit write.
    Dmtc0,
}

impl Cop0Op {
    /// The access form that the rs field of a COP0 instruction names, if it names one.
    #[must_use]
    pub fn from_rs(rs: u8) -> Option<Self> {
        let form = ffi::rimjhodek_from_rs(rs.into());
        match (form.refused, form.value) {
            (0, 0) => Some(Self::Mfc0),
            (0, 1) => Some(Self::Dmfc0),
            (0, 2) => Some(Self::Mtc0),
            (0, 3) => Some(Self::Dmtc0),
            _ => None,
        }
    }
}
