//! Stand-in for hypermath. The sources take one thing from it that is not
//! geometry: `num_traits::Euclid::div_rem_euclid`, which Debian's num-traits
//! is too old to have.
pub mod num {
    pub trait Euclid: Sized {
        fn div_rem_euclid(&self, v: &Self) -> (Self, Self);
    }
    impl Euclid for u32 {
        #[inline]
        fn div_rem_euclid(&self, v: &u32) -> (u32, u32) {
            (self.div_euclid(*v), self.rem_euclid(*v))
        }
    }
}
