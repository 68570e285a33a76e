//! Empty stand-ins for the modules of RustyN64's CPU crate that are not among the sources: types without a field or a
//! method, with the derives that the pipeline's own derives ask for.

pub trait Bus {}

macro_rules! empty {
    ($($name:ident),*) => {$(
        #[derive(Clone, Copy, Debug, Default, Eq, PartialEq, serde::Serialize, serde::Deserialize)]
        pub struct $name;
    )*};
}

pub mod alu {
    empty!(HiLo);
}

pub mod cop1 {
    empty!(Cop1Control);
}

pub mod decode {
    empty!(Decoded, Op);

    pub fn decode() {}
}

pub mod exec {
    empty!(Cop0Access, Cop1Access, MemOp, Redirect, TlbOp, WriteBack);

    pub fn execute() {}
}

pub mod fpr {
    empty!(Fpr);
}

pub mod fpu {}

pub mod mem {}

pub mod regs {
    empty!(Regs);
}

pub mod softfloat {}
