//! Stand-in for the crate siphasher: names.rs needs it for from_str only, which the
//! oracle never calls.

pub mod sip {
    pub struct SipHasher13;
    impl SipHasher13 {
        pub fn new_with_keys(_: u64, _: u64) -> Self {
            unreachable!("names are taken by place")
        }
    }
    impl std::hash::Hasher for SipHasher13 {
        fn finish(&self) -> u64 {
            unreachable!()
        }
        fn write(&mut self, _: &[u8]) {
            unreachable!()
        }
    }
}
