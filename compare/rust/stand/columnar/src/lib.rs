//! Stand-in for columnar: the derive alone, and it expands to nothing.
use proc_macro::TokenStream;

#[proc_macro_derive(Columnar, attributes(columnar))]
pub fn columnar(_: TokenStream) -> TokenStream {
    TokenStream::new()
}
