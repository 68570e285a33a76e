//! What the original derives of serde is derived here too: state goes out and comes back.

use rimjhodek::addr::{self, Access, Cached, Mode, Physical, Segment, TranslateError};
use rimjhodek::cache::{Dcache, Icache, Writeback};
use rimjhodek::cop0::{Cop0, Cop0Op, reg};
use rimjhodek::exception::{Dispatch, Exception, VectorKind};
use rimjhodek::tlb::{Entry, PageEntry, Tlb, TlbFault, Translated};
use serde::de::DeserializeOwned;
use serde::{Deserialize, Serialize};

/// As RustyN64's `Pipeline` is declared over these types.
#[derive(Clone, Debug, Default, Serialize, Deserialize)]
struct Pipeline {
    tlb: Tlb,
    icache: Icache,
    dcache: Dcache,
    cop0: Cop0,
    pending: Option<Exception>,
}

/// A value after it went out and came back, which must be as it was.
fn goes_and_comes<T: Clone + PartialEq + std::fmt::Debug + Serialize + DeserializeOwned>(value: T) {
    let text = serde_json::to_string(&value).unwrap();
    let back: T = serde_json::from_str(&text).unwrap();
    assert_eq!(back, value, "{text}");
}

#[test]
fn a_pipeline_goes_on_where_it_was() {
    let mut pipeline = Pipeline::default();
    (0..32).for_each(|n| pipeline.cop0.dmtc0(n, 0x0123_4567_89AB_CDEF << (n % 8)));
    pipeline.tlb.write_entry(31, &pipeline.cop0);
    pipeline.dcache.install(0x1FF0, std::array::from_fn(|i| i as u8 + 1));
    pipeline.dcache.write(0x1FFF, 1, 0xAA);
    pipeline.icache.install(0x3FE0, std::array::from_fn(|i| i as u8 + 2));
    pipeline.pending = Some(Exception::TlbRefill { store: true, wide: false });

    let text = serde_json::to_string(&pipeline).unwrap();
    let mut back: Pipeline = serde_json::from_str(&text).unwrap();
    assert_eq!(back.cop0, pipeline.cop0);
    assert_eq!(back.tlb, pipeline.tlb);
    assert_eq!(back.dcache, pipeline.dcache);
    assert_eq!(back.icache, pipeline.icache);
    assert_eq!(back.pending, pipeline.pending);
    assert_eq!(back.cop0.advance(1 << 31, 77), pipeline.cop0.advance(1 << 31, 77));
    assert_eq!(back.cop0, pipeline.cop0);
}

#[test]
fn words_are_written_one_after_another() {
    let text = serde_json::to_string(&Cop0::new()).unwrap();
    assert!(text.starts_with("{\"words\":[0,31,0,0,"), "{text}");
    assert_eq!(text.matches(',').count(), 37);
}

#[test]
fn too_few_words_are_no_state() {
    let text = serde_json::to_string(&Cop0::new()).unwrap();
    let short = text.replace(",0]}", "]}");
    let error = serde_json::from_str::<Cop0>(&short).unwrap_err().to_string();
    assert!(error.starts_with("invalid length 37, expected 38 numbers"), "{error}");
    let long = text.replace("]}", ",0]}");
    assert!(serde_json::from_str::<Cop0>(&long).is_err());
}

#[test]
fn all_that_the_original_derives_it_for() {
    let access = Access { mode: Mode::Supervisor, wide: true, erl: false };
    let mut tlb = Tlb::new();
    goes_and_comes(access);
    goes_and_comes(addr::segment(0xFFFF_FFFF_8000_1000, Access::kernel()));
    goes_and_comes(Segment::Mapped);
    goes_and_comes(Physical { addr: 0x1234, cached: Cached::No, entry: Some(31) });
    goes_and_comes(Physical { addr: 0x1234, cached: Cached::Yes, entry: None });
    goes_and_comes(TranslateError::Tlb(TlbFault::Modified));
    goes_and_comes(TranslateError::Address);
    goes_and_comes(Translated { addr: 0x1234, uncached: true, entry: 31 });
    goes_and_comes(Writeback { addr: 0x1230, data: [7; 16] });
    goes_and_comes(Writeback { addr: 0x1220, data: [7; 32] });
    goes_and_comes(Dispatch { vector: u64::MAX, stall_cycles: 2 });
    goes_and_comes(VectorKind::XtlbRefill);
    goes_and_comes(Cop0Op::Dmtc0);
    goes_and_comes(Exception::CoprocessorUnusable { unit: 2 });
    goes_and_comes(PageEntry { pfn: 0xABCDE, c: 5, dirty: true, valid: false });
    goes_and_comes(Entry { vpn2: 0x12_3456_7000, ..tlb.entry(4) });
    tlb.words[usize::from(reg::STATUS)] = u64::MAX;
    goes_and_comes(tlb);
}
