//! A stand-in for the crate of this name. Its two derives give error variants
//! their names as text, which no kind answer reads, so they expand to nothing.
use proc_macro::TokenStream;

#[proc_macro_derive(IntoStaticStr)]
pub fn into_static_str(_: TokenStream) -> TokenStream {
    TokenStream::new()
}

#[proc_macro_derive(VariantNames)]
pub fn variant_names(_: TokenStream) -> TokenStream {
    TokenStream::new()
}
