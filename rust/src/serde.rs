//! Sequences, bytes and texts for serde, in the original's forms.

use crate::{EcoVec, SmallBytes, SmallText};
use ::serde::de::{Deserialize, Deserializer, Error, SeqAccess, Unexpected, Visitor};
use ::serde::ser::{Serialize, Serializer};
use core::fmt::{self, Formatter};
use core::marker::PhantomData;

/// Reads a value of that type. A length that the input claims reserves nothing, and refused memory is an error.
struct Read<V>(PhantomData<V>);

impl<T: Serialize> Serialize for EcoVec<T> {
    fn serialize<S: Serializer>(&self, serializer: S) -> Result<S::Ok, S::Error> {
        serializer.collect_seq(self)
    }
}

impl<'de, T: Clone + Deserialize<'de>> Deserialize<'de> for EcoVec<T> {
    fn deserialize<D: Deserializer<'de>>(deserializer: D) -> Result<Self, D::Error> {
        deserializer.deserialize_seq(Read(PhantomData::<Self>))
    }
}

impl<'de, T: Clone + Deserialize<'de>> Visitor<'de> for Read<EcoVec<T>> {
    type Value = EcoVec<T>;

    fn expecting(&self, f: &mut Formatter<'_>) -> fmt::Result {
        f.write_str("a sequence")
    }

    fn visit_seq<A: SeqAccess<'de>>(self, mut items: A) -> Result<EcoVec<T>, A::Error> {
        let mut vec = EcoVec::new();
        while let Some(item) = items.next_element()? {
            vec.try_push(item).map_err(A::Error::custom)?;
        }
        Ok(vec)
    }
}

impl<const N: usize> Serialize for SmallBytes<N> {
    fn serialize<S: Serializer>(&self, serializer: S) -> Result<S::Ok, S::Error> {
        serializer.serialize_bytes(self)
    }
}

impl<'de, const N: usize> Deserialize<'de> for SmallBytes<N> {
    fn deserialize<D: Deserializer<'de>>(deserializer: D) -> Result<Self, D::Error> {
        deserializer.deserialize_bytes(Read(PhantomData::<Self>))
    }
}

impl<'de, const N: usize> Visitor<'de> for Read<SmallBytes<N>> {
    type Value = SmallBytes<N>;

    fn expecting(&self, f: &mut Formatter<'_>) -> fmt::Result {
        f.write_str("bytes")
    }

    fn visit_bytes<E: Error>(self, bytes: &[u8]) -> Result<SmallBytes<N>, E> {
        SmallBytes::try_from_slice(bytes).map_err(E::custom)
    }

    fn visit_str<E: Error>(self, text: &str) -> Result<SmallBytes<N>, E> {
        self.visit_bytes(text.as_bytes())
    }

    /// A format without bytes writes a sequence of numbers.
    fn visit_seq<A: SeqAccess<'de>>(self, mut items: A) -> Result<SmallBytes<N>, A::Error> {
        let mut bytes = SmallBytes::new();
        while let Some(byte) = items.next_element()? {
            bytes.try_push(byte).map_err(A::Error::custom)?;
        }
        Ok(bytes)
    }
}

impl<const N: usize> Serialize for SmallText<N> {
    fn serialize<S: Serializer>(&self, serializer: S) -> Result<S::Ok, S::Error> {
        serializer.serialize_str(self)
    }
}

impl<'de, const N: usize> Deserialize<'de> for SmallText<N> {
    fn deserialize<D: Deserializer<'de>>(deserializer: D) -> Result<Self, D::Error> {
        deserializer.deserialize_str(Read(PhantomData::<Self>))
    }
}

impl<const N: usize> Visitor<'_> for Read<SmallText<N>> {
    type Value = SmallText<N>;

    fn expecting(&self, f: &mut Formatter<'_>) -> fmt::Result {
        f.write_str("a string")
    }

    fn visit_str<E: Error>(self, text: &str) -> Result<SmallText<N>, E> {
        SmallText::try_from_str(text).map_err(E::custom)
    }

    fn visit_bytes<E: Error>(self, bytes: &[u8]) -> Result<SmallText<N>, E> {
        match core::str::from_utf8(bytes) {
            Ok(text) => self.visit_str(text),
            Err(_) => Err(E::invalid_value(Unexpected::Bytes(bytes), &self)),
        }
    }
}
