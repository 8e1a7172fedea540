//! The traits of the features `num-traits` and `serde`.

#[cfg(feature = "num-traits")]
mod numbers {
    use num_modular::{FixedMersenneInt, FixedMontgomeryInt32, ModularInteger, MontgomeryInt, ReducedInt, Reducer, RingWord};
    use num_traits::{Inv, One, Pow, Zero};

    fn quotient<T: RingWord, R: Reducer<T> + Copy>(x: ReducedInt<T, R>, y: ReducedInt<T, R>) -> T {
        (x * Inv::inv(y)).residue()
    }

    fn horner<I: Zero + One + Copy>(digits: &[u8], base: I) -> I {
        digits.iter().fold(I::zero(), |sum, digit| (0..*digit).fold(sum * base, |sum, _| sum + I::one()))
    }

    #[test]
    fn inverses_and_powers() {
        let x = MontgomeryInt::<u64>::new(10, &97);
        assert_eq!(quotient(x.convert(1), x), 68);
        assert_eq!((&x).inv(), Inv::inv(x));
        assert_eq!((Pow::pow(x, 96u64).residue(), Pow::pow(&x, 2u64).residue(), Pow::pow(x, &3u64).residue()), (1, 3, 30));
        assert_eq!(Pow::pow(&x, &3u64).residue(), 30);
    }

    #[test]
    #[should_panic(expected = "the integer must have an inverse modulo m")]
    fn an_inverse_that_is_not_there() {
        let _ = Inv::inv(MontgomeryInt::<u64>::new(3, &21));
    }

    #[test]
    fn sums_and_products_of_none() {
        type Int = FixedMersenneInt<61, 1>;
        assert_eq!((Int::zero().residue(), Int::one().residue(), Int::one().is_one()), (0, 1, true));
        assert!(Zero::is_zero(&(Int::zero() * Int::one())));
        let ten = Int::one().convert(10);
        assert_eq!(horner(&[1, 2, 3], ten).residue(), 123);
        assert_eq!(FixedMontgomeryInt32::<1>::one().residue(), 0);
    }
}

#[cfg(feature = "serde")]
mod serial {
    use num_modular::{
        FixedMersenne, FixedMersenneInt64, FixedProth32, FixedTrinomialSolinas64, ModularInteger, Montgomery, MontgomeryInt,
        OddMontgomery, PreMulInv2by1, Reducer, Vanilla, VanillaInt,
    };
    use serde::de::value::{MapDeserializer, SeqDeserializer, U128Deserializer, U64Deserializer, U8Deserializer};
    use serde::de::{Deserialize, IntoDeserializer};
    use serde::ser::{Impossible, Serialize, SerializeStruct, Serializer};
    use std::fmt::{self, Display};

    /// What was wrong.
    #[derive(Debug, PartialEq)]
    struct Error(String);

    impl Display for Error {
        fn fmt(&self, f: &mut fmt::Formatter) -> fmt::Result {
            f.write_str(&self.0)
        }
    }

    impl serde::de::StdError for Error {}

    impl serde::de::Error for Error {
        fn custom<T: Display>(words: T) -> Self {
            Error(words.to_string())
        }
    }

    impl serde::ser::Error for Error {
        fn custom<T: Display>(words: T) -> Self {
            Error(words.to_string())
        }
    }

    /// Writes numbers, and structs of numbers.
    #[derive(Default)]
    struct Text(String);

    macro_rules! numbers {
        ($($name:ident $word:ty)*) => {$(
            fn $name(self, x: $word) -> Result<String, Error> {
                Ok(x.to_string())
            }
        )*};
    }

    macro_rules! nothing {
        ($($name:ident($($kind:ty),*) -> $end:ty;)*) => {$(
            fn $name(self, $(_: $kind),*) -> Result<$end, Error> {
                Err(Error("neither a number nor a struct".to_string()))
            }
        )*};
    }

    type No = Impossible<String, Error>;

    impl Serializer for Text {
        type Ok = String;
        type Error = Error;
        type SerializeSeq = No;
        type SerializeTuple = No;
        type SerializeTupleStruct = No;
        type SerializeTupleVariant = No;
        type SerializeMap = No;
        type SerializeStruct = Text;
        type SerializeStructVariant = No;

        numbers!(serialize_u8 u8 serialize_u16 u16 serialize_u32 u32 serialize_u64 u64 serialize_u128 u128);
        nothing! {
            serialize_bool(bool) -> String;
            serialize_i8(i8) -> String;
            serialize_i16(i16) -> String;
            serialize_i32(i32) -> String;
            serialize_i64(i64) -> String;
            serialize_f32(f32) -> String;
            serialize_f64(f64) -> String;
            serialize_char(char) -> String;
            serialize_str(&str) -> String;
            serialize_bytes(&[u8]) -> String;
            serialize_none() -> String;
            serialize_unit() -> String;
            serialize_unit_struct(&'static str) -> String;
            serialize_unit_variant(&'static str, u32, &'static str) -> String;
            serialize_seq(Option<usize>) -> No;
            serialize_tuple(usize) -> No;
            serialize_tuple_struct(&'static str, usize) -> No;
            serialize_tuple_variant(&'static str, u32, &'static str, usize) -> No;
            serialize_map(Option<usize>) -> No;
            serialize_struct_variant(&'static str, u32, &'static str, usize) -> No;
        }

        fn collect_str<T: ?Sized + Display>(self, value: &T) -> Result<String, Error> {
            Ok(value.to_string())
        }

        fn serialize_some<T: ?Sized + Serialize>(self, _: &T) -> Result<String, Error> {
            Err(Error("an option".to_string()))
        }

        fn serialize_newtype_struct<T: ?Sized + Serialize>(self, _: &'static str, _: &T) -> Result<String, Error> {
            Err(Error("a struct without names".to_string()))
        }

        fn serialize_newtype_variant<T: ?Sized + Serialize>(
            self,
            _: &'static str,
            _: u32,
            _: &'static str,
            _: &T,
        ) -> Result<String, Error> {
            Err(Error("a variant".to_string()))
        }

        fn serialize_struct(self, name: &'static str, _: usize) -> Result<Text, Error> {
            Ok(Text(name.to_string()))
        }
    }

    impl SerializeStruct for Text {
        type Ok = String;
        type Error = Error;

        fn serialize_field<T: ?Sized + Serialize>(&mut self, name: &'static str, value: &T) -> Result<(), Error> {
            self.0 += &format!(" {name}={}", value.serialize(Text::default())?);
            Ok(())
        }

        fn end(self) -> Result<String, Error> {
            Ok(self.0)
        }
    }

    fn written<T: Serialize>(value: T) -> String {
        value.serialize(Text::default()).unwrap()
    }

    fn number<T: for<'de> Deserialize<'de>>(n: u64) -> Result<T, String> {
        let number: U64Deserializer<Error> = n.into_deserializer();
        T::deserialize(number).map_err(|it| it.to_string())
    }

    fn fields<T: for<'de> Deserialize<'de>>(fields: &[(&'static str, u64)]) -> Result<T, String> {
        let items: MapDeserializer<_, Error> = MapDeserializer::new(fields.iter().copied());
        T::deserialize(items).map_err(|it| it.to_string())
    }

    fn places<T: for<'de> Deserialize<'de>>(places: &[u64]) -> Result<T, String> {
        let items: SeqDeserializer<_, Error> = SeqDeserializer::new(places.iter().copied());
        T::deserialize(items).map_err(|it| it.to_string())
    }

    #[test]
    fn reducers_are_their_moduli() {
        assert_eq!(written(Montgomery::<u64>::new(97)), "97");
        assert_eq!(written(FixedProth32::<4, 1>::RING), "17");
        assert_eq!(written(FixedTrinomialSolinas64::<64, 32, 1>::RING), "18446744069414584321");
        assert_eq!(written(FixedMersenne::<64, 1>::RING), "18446744073709551615");
        assert_eq!(number::<Montgomery<u64>>(97).map(|it| it.modulus()), Ok(97));
        let eight: U8Deserializer<Error> = 8u8.into_deserializer();
        assert_eq!(Vanilla::<u8>::deserialize(eight).map(|it| it.modulus()), Ok(8));
        let wide: U128Deserializer<Error> = ((1u128 << 61) - 1).into_deserializer();
        assert_eq!(FixedMersenne::<61, 1>::deserialize(wide).map(|it| it.modulus()), Ok((1 << 61) - 1));
    }

    #[test]
    fn moduli_are_tested() {
        let least = "the modulus must be at least 1";
        assert_eq!(number::<Montgomery<u64>>(0).map(|_| ()), Err(least.to_string()));
        assert_eq!(number::<PreMulInv2by1<u8>>(0).map(|_| ()), Err(least.to_string()));
        assert!(number::<PreMulInv2by1<u8>>(256).is_err());
        assert_eq!(number::<OddMontgomery<u64>>(97).map(|it| it.modulus()), Ok(97));
        assert_eq!(number::<OddMontgomery<u64>>(96).map(|_| ()), Err("the modulus must be odd".to_string()));
        let other = "the modulus must be that of the parameters";
        assert_eq!(number::<FixedProth32<4, 1>>(19).map(|_| ()), Err(other.to_string()));
    }

    #[test]
    fn integers_are_two_numbers() {
        let x = MontgomeryInt::<u64>::new(110, &97);
        assert_eq!(written(x), "ReducedInt modulus=97 residue=13");
        assert_eq!(fields(&[("modulus", 97), ("residue", 13)]), Ok(x));
        assert_eq!(fields(&[("residue", 13), ("modulus", 97)]), Ok(x));
        assert_eq!(places(&[97, 13]), Ok(x));
        assert_eq!(places::<VanillaInt<u8>>(&[97, 13]).map(|it| (it.modulus(), it.residue())), Ok((97, 13)));
    }

    #[test]
    fn parts_of_integers_are_tested() {
        type Int = MontgomeryInt<u64>;
        let fault = |found: Result<Int, String>| found.unwrap_err();
        assert_eq!(fault(places(&[97, 97])), "the residue must be below the modulus");
        assert_eq!(fault(places(&[0, 0])), "the modulus must be at least 1");
        assert_eq!(fault(fields(&[("residue", 98), ("modulus", 97)])), "the residue must be below the modulus");
        assert_eq!(fault(fields(&[("modulus", 97)])), "missing field `residue`");
        assert_eq!(fault(fields(&[("residue", 1)])), "missing field `modulus`");
        assert_eq!(fault(fields(&[("modulus", 97), ("modulus", 97)])), "duplicate field `modulus`");
        assert!(fault(fields(&[("form", 1)])).starts_with("unknown field `form`"));
        assert!(fault(places(&[97])).starts_with("invalid length 1"));
        assert!(places::<FixedMersenneInt64<61, 1>>(&[97, 13]).is_err());
    }
}
