//! The two sides behind one trait.
//!
//! Paths, names and signatures of the binding are the original's, so one macro writes both. Every method is one call, or
//! the calls that an emulator would make, and its answer as a number.

/// One side's registers, TLB and caches, with the operations that are measured.
pub trait Side {
    fn new() -> Self;
    fn mfc0(&self, n: u8) -> u64;
    fn dmfc0(&self, n: u8) -> u64;
    fn mtc0(&mut self, n: u8, value: u64);
    fn dmtc0(&mut self, n: u8, value: u64);
    fn interrupt_pending(&self) -> bool;
    fn advance(&mut self, counts: u64, steps: u64) -> bool;
    fn access(&self) -> u64;
    fn lookup(&mut self, vaddr: u64, store: bool) -> u64;
    fn translate(&mut self, vaddr: u64, store: bool) -> u64;
    fn write_entry(&mut self, index: usize);
    fn read_entry(&mut self, index: usize);
    fn itlb_probe(&mut self, vaddr: u64) -> bool;
    fn itlb_fill(&mut self, vaddr: u64);
    fn refill(&mut self, pc: u64, bad_vaddr: u64) -> u64;
    fn eret(&mut self) -> u64;
    fn d_hits(&self, addr: u32) -> bool;
    fn d_install(&mut self, addr: u32, data: [u8; 16]);
    fn d_read(&self, addr: u32, len: usize) -> u64;
    fn d_write(&mut self, addr: u32, len: usize, value: u64);
    fn d_load_tag(&self, addr: u32) -> u32;
    fn i_hits(&self, addr: u32) -> bool;
    fn i_install(&mut self, addr: u32, data: [u8; 32]);
    fn i_read_word(&self, addr: u32) -> u32;
}

/// The address space of the table's entries and of every access.
pub const ASID: u8 = 0x5A;

/// The timer's pending bit.
const TIMER: u8 = 7;

/// The scope's clock advance, which the original leaves to its scheduler: four calls, as the oracle makes them.
fn advance_in_four(cop0: &mut original::cop0::Cop0, counts: u64, steps: u64) -> bool {
    cop0.set_now(cop0.count_now().wrapping_add(counts));
    cop0.tick_random_by(steps);
    let edge = cop0.timer_edge();
    if edge {
        cop0.set_ip(TIMER, true);
    }
    edge
}

fn advance_in_one(cop0: &mut rimjhodek::cop0::Cop0, counts: u64, steps: u64) -> bool {
    cop0.advance(counts, steps).expect("the inputs are below 2^32 counts")
}

/// The access that Status asks for; of the original it is its pipeline's own.
fn access_from_status(cop0: &rimjhodek::cop0::Cop0) -> rimjhodek::addr::Access {
    use rimjhodek::cop0::reg;
    rimjhodek::addr::Access::from_status(cop0.read(reg::STATUS)).expect("KSU is not 3")
}

macro_rules! side {
    ($side:ident, $library:ident, $exception:ty, $advance:path, $access:path) => {
        pub struct $side {
            cop0: $library::cop0::Cop0,
            tlb: $library::tlb::Tlb,
            dcache: $library::cache::Dcache,
            icache: $library::cache::Icache,
            // Operands that an emulator has from its state. They are held here and not written into the calls, so that
            // no call is compiled for the one value.
            asid: u8,
            access: $library::addr::Access,
            exc: $exception,
            in_delay_slot: bool,
        }

        impl Side for $side {
            fn new() -> Self {
                type Exception = $exception;
                Self {
                    cop0: $library::cop0::Cop0::new(),
                    tlb: $library::tlb::Tlb::new(),
                    dcache: $library::cache::Dcache::new(),
                    icache: $library::cache::Icache::new(),
                    asid: ASID,
                    access: $library::addr::Access::kernel(),
                    exc: Exception::TlbRefill { store: false, wide: false },
                    in_delay_slot: false,
                }
            }

            #[inline(always)]
            fn mfc0(&self, n: u8) -> u64 {
                self.cop0.mfc0(n)
            }

            #[inline(always)]
            fn dmfc0(&self, n: u8) -> u64 {
                self.cop0.dmfc0(n)
            }

            #[inline(always)]
            fn mtc0(&mut self, n: u8, value: u64) {
                self.cop0.mtc0(n, value);
            }

            #[inline(always)]
            fn dmtc0(&mut self, n: u8, value: u64) {
                self.cop0.dmtc0(n, value);
            }

            #[inline(always)]
            fn interrupt_pending(&self) -> bool {
                self.cop0.interrupt_pending()
            }

            #[inline(always)]
            fn advance(&mut self, counts: u64, steps: u64) -> bool {
                $advance(&mut self.cop0, counts, steps)
            }

            #[inline(always)]
            fn access(&self) -> u64 {
                let access = $access(&self.cop0);
                access.mode as u64 | u64::from(access.wide) << 2 | u64::from(access.erl) << 3
            }

            #[inline(always)]
            fn lookup(&mut self, vaddr: u64, store: bool) -> u64 {
                use $library::tlb::TlbFault;
                match self.tlb.lookup(vaddr, self.asid, store) {
                    Ok(to) => u64::from(to.addr) | u64::from(to.uncached) << 32,
                    Err(TlbFault::Refill) => 1 << 33,
                    Err(TlbFault::Invalid) => 2 << 33,
                    Err(TlbFault::Modified) => 3 << 33,
                }
            }

            #[inline(always)]
            fn translate(&mut self, vaddr: u64, store: bool) -> u64 {
                use $library::addr::{Cached, TranslateError, translate_via};
                match translate_via(&mut self.tlb, vaddr, self.asid, store, self.access) {
                    Ok(to) => u64::from(to.addr) | u64::from(to.cached == Cached::No) << 32,
                    Err(TranslateError::Address) => 1 << 33,
                    Err(TranslateError::Tlb(_)) => 2 << 33,
                }
            }

            #[inline(always)]
            fn write_entry(&mut self, index: usize) {
                self.tlb.write_entry(index, &self.cop0);
            }

            #[inline(always)]
            fn read_entry(&mut self, index: usize) {
                self.tlb.read_entry(index, &mut self.cop0);
            }

            #[inline(always)]
            fn itlb_probe(&mut self, vaddr: u64) -> bool {
                self.tlb.itlb_probe(vaddr, self.asid)
            }

            #[inline(always)]
            fn itlb_fill(&mut self, vaddr: u64) {
                self.tlb.itlb_fill(vaddr, self.asid);
            }

            #[inline(always)]
            fn refill(&mut self, pc: u64, bad_vaddr: u64) -> u64 {
                use $library::exception::dispatch;
                let (exc, in_delay_slot) = (self.exc, self.in_delay_slot);
                let taken = dispatch(&mut self.cop0, exc, pc, in_delay_slot, bad_vaddr);
                taken.vector ^ u64::from(taken.stall_cycles)
            }

            #[inline(always)]
            fn eret(&mut self) -> u64 {
                $library::exception::eret(&mut self.cop0)
            }

            #[inline(always)]
            fn d_hits(&self, addr: u32) -> bool {
                self.dcache.hits(addr)
            }

            #[inline(always)]
            fn d_install(&mut self, addr: u32, data: [u8; 16]) {
                self.dcache.install(addr, data);
            }

            #[inline(always)]
            fn d_read(&self, addr: u32, len: usize) -> u64 {
                self.dcache.read(addr, len)
            }

            #[inline(always)]
            fn d_write(&mut self, addr: u32, len: usize, value: u64) {
                self.dcache.write(addr, len, value);
            }

            #[inline(always)]
            fn d_load_tag(&self, addr: u32) -> u32 {
                self.dcache.load_tag(addr)
            }

            #[inline(always)]
            fn i_hits(&self, addr: u32) -> bool {
                self.icache.hits(addr)
            }

            #[inline(always)]
            fn i_install(&mut self, addr: u32, data: [u8; 32]) {
                self.icache.install(addr, data);
            }

            #[inline(always)]
            fn i_read_word(&self, addr: u32) -> u32 {
                self.icache.read_word(addr)
            }
        }
    };
}

side!(
    Original,
    original,
    original::pipeline::Exception,
    advance_in_four,
    original::pipeline::access_mode
);
side!(Ours, rimjhodek, rimjhodek::exception::Exception, advance_in_one, access_from_status);
