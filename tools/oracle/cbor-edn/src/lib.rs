//! The one call that defmt-decoder makes of cbor-edn. Document 01's grammar has no hint that leads to it.

pub struct Sequence;

impl Sequence {
    pub fn from_cbor(_bytes: &[u8]) -> Result<Sequence, String> {
        Err("CBOR is not taken".to_owned())
    }

    pub fn serialize(&self) -> String {
        String::new()
    }
}
