//! Stand-in: both derives give nothing (nothing here has a byte layout).
use proc_macro::TokenStream;

#[proc_macro_derive(SchemaWrite, attributes(wincode))]
pub fn schema_write(_: TokenStream) -> TokenStream {
    TokenStream::new()
}

#[proc_macro_derive(SchemaRead, attributes(wincode))]
pub fn schema_read(_: TokenStream) -> TokenStream {
    TokenStream::new()
}
