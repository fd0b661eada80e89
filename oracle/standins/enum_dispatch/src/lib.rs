//! Hands each item on as it is. The conversions that the real one would add stand in merge_iterator.rs.
use proc_macro::TokenStream;

#[proc_macro_attribute]
pub fn enum_dispatch(_: TokenStream, item: TokenStream) -> TokenStream {
    item
}
