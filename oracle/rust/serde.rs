//! Stands in for the crate serde: just the names that geop-core-math's scalars/mod.rs mentions, so that it compiles
//! as it stands. Nothing here is called.

pub trait Serialize {}
impl Serialize for f64 {}

pub trait Serializer: Sized {
    type Ok;
    type Error;
    type SerializeSeq: ser::SerializeSeq<Ok = Self::Ok, Error = Self::Error>;
    fn serialize_f64(self, v: f64) -> Result<Self::Ok, Self::Error>;
    fn serialize_some<T: Serialize>(self, v: &T) -> Result<Self::Ok, Self::Error>;
    fn serialize_none(self) -> Result<Self::Ok, Self::Error>;
    fn serialize_seq(self, len: Option<usize>) -> Result<Self::SerializeSeq, Self::Error>;
}

pub mod ser {
    pub trait SerializeSeq {
        type Ok;
        type Error;
        fn serialize_element<T: super::Serialize>(&mut self, v: &T) -> Result<(), Self::Error>;
        fn end(self) -> Result<Self::Ok, Self::Error>;
    }
}

pub trait Deserializer<'de>: Sized {
    type Error;
    fn refuse(self) -> Self::Error;
}

pub trait Deserialize<'de>: Sized {
    fn deserialize<D: Deserializer<'de>>(deserializer: D) -> Result<Self, D::Error> {
        Err(deserializer.refuse())
    }
}
impl Deserialize<'_> for f64 {}
impl Deserialize<'_> for Vec<f64> {}
impl Deserialize<'_> for Option<f64> {}
