//! Arrays of any length for serde, which has them up to 32: one element after another, without a
//! length.

use std::fmt;
use std::marker::PhantomData;

use serde::de::{Deserialize, Deserializer, Error, SeqAccess, Visitor};
use serde::ser::{Serialize, SerializeTuple, Serializer};

pub fn serialize<S, T, const N: usize>(array: &[T; N], to: S) -> Result<S::Ok, S::Error>
where
    S: Serializer,
    T: Serialize,
{
    let mut tuple = to.serialize_tuple(N)?;
    for element in array {
        tuple.serialize_element(element)?;
    }
    tuple.end()
}

pub fn deserialize<'de, D, T, const N: usize>(from: D) -> Result<[T; N], D::Error>
where
    D: Deserializer<'de>,
    T: Deserialize<'de> + Copy + Default,
{
    from.deserialize_tuple(N, Elements(PhantomData))
}

/// Takes `N` elements, and no more.
struct Elements<T, const N: usize>(PhantomData<T>);

impl<'de, T, const N: usize> Visitor<'de> for Elements<T, N>
where
    T: Deserialize<'de> + Copy + Default,
{
    type Value = [T; N];

    fn expecting(&self, f: &mut fmt::Formatter<'_>) -> fmt::Result {
        write!(f, "{N} numbers")
    }

    fn visit_seq<A: SeqAccess<'de>>(self, mut from: A) -> Result<[T; N], A::Error> {
        let mut array = [T::default(); N];
        for (at, element) in array.iter_mut().enumerate() {
            *element = from.next_element()?.ok_or_else(|| Error::invalid_length(at, &self))?;
        }
        Ok(array)
    }
}
