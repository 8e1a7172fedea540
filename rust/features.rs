//! The traits of `num-traits` and `serde`, each behind the feature of its name. Written by hand, and so not proved; all
//! computations here call proved functions.

#[cfg(feature = "num-traits")]
mod numbers {
    use crate::{ModularInteger, ReducedInt, Reducer};
    use num_traits::{Inv, One, Pow, Zero};

    const NO_INVERSE: &str = "the integer must have an inverse modulo m";

    impl<T, R: Reducer<T>> Inv for ReducedInt<T, R> {
        type Output = Self;

        /// The inverse.
        ///
        /// # Panics
        ///
        /// Panics unless the integer has one: the method `inv` of `ReducedInt` returns `None` there.
        #[track_caller]
        fn inv(self) -> Self {
            ReducedInt::inv(self).expect(NO_INVERSE)
        }
    }

    impl<T: PartialEq + Clone, R: Reducer<T> + Clone> Inv for &ReducedInt<T, R> {
        type Output = ReducedInt<T, R>;

        #[track_caller]
        fn inv(self) -> ReducedInt<T, R> {
            ReducedInt::inv(self.clone()).expect(NO_INVERSE)
        }
    }

    impl<T, R: Reducer<T>> Pow<T> for ReducedInt<T, R> {
        type Output = Self;

        fn pow(self, exp: T) -> Self {
            ReducedInt::pow(self, &exp)
        }
    }

    impl<T, R: Reducer<T>> Pow<&T> for ReducedInt<T, R> {
        type Output = Self;

        fn pow(self, exp: &T) -> Self {
            ReducedInt::pow(self, exp)
        }
    }

    impl<T: PartialEq + Clone, R: Reducer<T> + Clone> Pow<T> for &ReducedInt<T, R> {
        type Output = ReducedInt<T, R>;

        fn pow(self, exp: T) -> ReducedInt<T, R> {
            ReducedInt::pow(self.clone(), &exp)
        }
    }

    impl<T: PartialEq + Clone, R: Reducer<T> + Clone> Pow<&T> for &ReducedInt<T, R> {
        type Output = ReducedInt<T, R>;

        fn pow(self, exp: &T) -> ReducedInt<T, R> {
            ReducedInt::pow(self.clone(), exp)
        }
    }

    // 0 and 1 need a modulus that the type knows.
    macro_rules! constants {
        ($($ring:ident $integer:ident<$(const $parameter:ident: $kind:ty),*> $word:ty;)*) => {$(
            impl<$(const $parameter: $kind),*> Zero for crate::$integer<$($parameter),*> {
                fn zero() -> Self {
                    Self::new(0, &crate::$ring::<$($parameter),*>::MODULUS)
                }

                fn is_zero(&self) -> bool {
                    ModularInteger::is_zero(self)
                }
            }

            impl<$(const $parameter: $kind),*> One for crate::$integer<$($parameter),*> {
                fn one() -> Self {
                    Self::new(1, &crate::$ring::<$($parameter),*>::MODULUS)
                }
            }
        )*};
    }

    fixed!(constants);
}

#[cfg(feature = "serde")]
mod serial {
    use crate::families::{FoldRing, OddRing};
    use crate::{
        FixedMersenne, ModularInteger, Montgomery, OddMontgomery, PlainWord, PreMulInv2by1, ReducedInt, Reducer, RingWord,
        Vanilla,
    };
    use core::fmt;
    use core::marker::PhantomData;
    use serde::de::{Error, MapAccess, SeqAccess, Visitor};
    use serde::ser::SerializeStruct;
    use serde::{Deserialize, Deserializer, Serialize, Serializer};

    // A reducer is its modulus.
    macro_rules! written {
        ($($ring:ty, <$($parameter:ident: $bound:path),*>;)*) => {$(
            impl<$($parameter: $bound + Serialize),*> Serialize for $ring {
                /// The modulus.
                fn serialize<S: Serializer>(&self, serializer: S) -> Result<S::Ok, S::Error> {
                    Reducer::modulus(self).serialize(serializer)
                }
            }
        )*};
    }

    written! {
        Vanilla<T>, <T: PlainWord>;
        Montgomery<T>, <T: PlainWord>;
        PreMulInv2by1<T>, <T: PlainWord>;
    }

    impl<T: RingWord + Serialize, M> Serialize for OddRing<T, M>
    where
        Self: Reducer<T>,
    {
        /// The modulus.
        fn serialize<S: Serializer>(&self, serializer: S) -> Result<S::Ok, S::Error> {
            Reducer::modulus(self).serialize(serializer)
        }
    }

    impl<T: RingWord + Serialize, M> Serialize for FoldRing<T, M>
    where
        Self: Reducer<T>,
    {
        /// The modulus.
        fn serialize<S: Serializer>(&self, serializer: S) -> Result<S::Ok, S::Error> {
            Reducer::modulus(self).serialize(serializer)
        }
    }

    impl<const P: u8, const K: u64> Serialize for FixedMersenne<P, K> {
        /// The modulus.
        fn serialize<S: Serializer>(&self, serializer: S) -> Result<S::Ok, S::Error> {
            Reducer::modulus(self).serialize(serializer)
        }
    }

    macro_rules! read {
        ($($ring:ident)*) => {$(
            impl<'de, T: PlainWord + Deserialize<'de>> Deserialize<'de> for $ring<T>
            where
                Self: Reducer<T>,
            {
                /// The reducer of a modulus, which must be at least 1.
                fn deserialize<D: Deserializer<'de>>(deserializer: D) -> Result<Self, D::Error> {
                    let m = T::deserialize(deserializer)?;
                    if m.is_zero_word() {
                        return Err(D::Error::custom("the modulus must be at least 1"));
                    }
                    Ok(<Self as Reducer<T>>::new(&m))
                }
            }
        )*};
    }

    read!(Vanilla Montgomery PreMulInv2by1);

    impl<'de, T: PlainWord + Deserialize<'de>> Deserialize<'de> for OddMontgomery<T> {
        /// The reducer of a modulus, which must be odd.
        fn deserialize<D: Deserializer<'de>>(deserializer: D) -> Result<Self, D::Error> {
            OddMontgomery::checked_new(T::deserialize(deserializer)?).ok_or_else(|| D::Error::custom("the modulus must be odd"))
        }
    }

    macro_rules! read_fixed {
        ($($ring:ident $integer:ident<$(const $parameter:ident: $kind:ty),*> $word:ty;)*) => {$(
            impl<'de, $(const $parameter: $kind),*> Deserialize<'de> for crate::$ring<$($parameter),*> {
                /// The reducer, from its modulus.
                fn deserialize<D: Deserializer<'de>>(deserializer: D) -> Result<Self, D::Error> {
                    if <$word>::deserialize(deserializer)? != Self::MODULUS {
                        return Err(D::Error::custom("the modulus must be that of the parameters"));
                    }
                    Ok(Self::RING)
                }
            }
        )*};
    }

    fixed!(read_fixed);

    const FIELDS: &[&str] = &["modulus", "residue"];

    impl<T: PartialEq + Clone + Serialize, R: Reducer<T> + Clone> Serialize for ReducedInt<T, R> {
        /// The fields `modulus` and `residue`.
        fn serialize<S: Serializer>(&self, serializer: S) -> Result<S::Ok, S::Error> {
            let mut fields = serializer.serialize_struct("ReducedInt", 2)?;
            fields.serialize_field("modulus", &self.modulus())?;
            fields.serialize_field("residue", &self.residue())?;
            fields.end()
        }
    }

    impl<'de, T, R> Deserialize<'de> for ReducedInt<T, R>
    where
        T: RingWord + Deserialize<'de>,
        R: Reducer<T> + Copy + Deserialize<'de>,
    {
        /// An integer from its modulus, which the reducer must admit, and its residue, which must be below the modulus.
        fn deserialize<D: Deserializer<'de>>(deserializer: D) -> Result<Self, D::Error> {
            deserializer.deserialize_struct("ReducedInt", FIELDS, Fields(PhantomData))
        }
    }

    struct Fields<T, R>(PhantomData<(T, R)>);

    impl<T: RingWord, R: Reducer<T> + Copy> Fields<T, R> {
        fn integer<E: Error>(ring: R, residue: T) -> Result<ReducedInt<T, R>, E> {
            let found = ReducedInt::<T, R>::new(residue, &ring.modulus());
            if found.residue() == residue {
                Ok(found)
            } else {
                Err(E::custom("the residue must be below the modulus"))
            }
        }
    }

    impl<'de, T, R> Visitor<'de> for Fields<T, R>
    where
        T: RingWord + Deserialize<'de>,
        R: Reducer<T> + Copy + Deserialize<'de>,
    {
        type Value = ReducedInt<T, R>;

        fn expecting(&self, f: &mut fmt::Formatter) -> fmt::Result {
            f.write_str("a modulus and a residue")
        }

        fn visit_seq<A: SeqAccess<'de>>(self, mut items: A) -> Result<Self::Value, A::Error> {
            let ring = items.next_element()?.ok_or_else(|| A::Error::invalid_length(0, &self))?;
            let residue = items.next_element()?.ok_or_else(|| A::Error::invalid_length(1, &self))?;
            Self::integer(ring, residue)
        }

        fn visit_map<A: MapAccess<'de>>(self, mut items: A) -> Result<Self::Value, A::Error> {
            let (mut ring, mut residue) = (None, None);
            while let Some(name) = items.next_key::<Name>()? {
                match name {
                    Name::Modulus if ring.is_some() => return Err(A::Error::duplicate_field("modulus")),
                    Name::Modulus => ring = Some(items.next_value()?),
                    Name::Residue if residue.is_some() => return Err(A::Error::duplicate_field("residue")),
                    Name::Residue => residue = Some(items.next_value()?),
                }
            }
            let ring = ring.ok_or_else(|| A::Error::missing_field("modulus"))?;
            Self::integer(ring, residue.ok_or_else(|| A::Error::missing_field("residue"))?)
        }
    }

    enum Name {
        Modulus,
        Residue,
    }

    impl<'de> Deserialize<'de> for Name {
        fn deserialize<D: Deserializer<'de>>(deserializer: D) -> Result<Self, D::Error> {
            deserializer.deserialize_identifier(Names)
        }
    }

    struct Names;

    impl<'de> Visitor<'de> for Names {
        type Value = Name;

        fn expecting(&self, f: &mut fmt::Formatter) -> fmt::Result {
            f.write_str("`modulus` or `residue`")
        }

        fn visit_u64<E: Error>(self, place: u64) -> Result<Name, E> {
            match place {
                0 => Ok(Name::Modulus),
                1 => Ok(Name::Residue),
                _ => Err(E::custom("there are two fields")),
            }
        }

        fn visit_str<E: Error>(self, name: &str) -> Result<Name, E> {
            match name {
                "modulus" => Ok(Name::Modulus),
                "residue" => Ok(Name::Residue),
                _ => Err(E::unknown_field(name, FIELDS)),
            }
        }
    }
}
