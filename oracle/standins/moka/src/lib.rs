//! A cache that keeps nothing: the files taken make it and hand it on.
pub mod future {
    use std::marker::PhantomData;

    pub struct Cache<K, V>(PhantomData<fn() -> (K, V)>);

    impl<K, V> Cache<K, V> {
        pub fn new(_entries: u64) -> Self {
            Cache(PhantomData)
        }
    }

    impl<K, V> Clone for Cache<K, V> {
        fn clone(&self) -> Self {
            Cache(PhantomData)
        }
    }
}
