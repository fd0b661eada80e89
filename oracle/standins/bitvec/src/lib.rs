//! A bool for each bit, with the one way in that `DeleteVector::apply_to` takes.
pub mod prelude {
    pub struct BitVec(pub Vec<bool>);

    pub struct BitRef<'a>(&'a mut bool);

    impl BitRef<'_> {
        pub fn set(&mut self, value: bool) {
            *self.0 = value;
        }
    }

    impl BitVec {
        pub fn iter_mut(&mut self) -> impl Iterator<Item = BitRef<'_>> {
            self.0.iter_mut().map(BitRef)
        }
    }
}
