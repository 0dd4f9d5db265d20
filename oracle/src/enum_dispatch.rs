//! Stand-in for the attribute of the same name: it leaves its item as it is.
//! What the real one would add for `Mode` is written out in
//! appended/mode.rs.

use proc_macro::TokenStream;

#[proc_macro_attribute]
pub fn enum_dispatch(_arguments: TokenStream, item: TokenStream) -> TokenStream {
    item
}
