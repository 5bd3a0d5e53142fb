//! Stands for the macros of serde, detect and pgrx that the Rust's files use. It is ours, and no evidence about those
//! crates.
use proc_macro::TokenStream;

/// Makes nothing.
#[proc_macro_derive(Serialize, attributes(serde))]
pub fn derive_serialize(_: TokenStream) -> TokenStream {
    TokenStream::new()
}

/// Makes nothing.
#[proc_macro_derive(Deserialize, attributes(serde))]
pub fn derive_deserialize(_: TokenStream) -> TokenStream {
    TokenStream::new()
}

/// Leaves the function as it is written.
#[proc_macro_attribute]
pub fn multiversion(_: TokenStream, item: TokenStream) -> TokenStream {
    item
}

/// Drops a version that is written for one kind of processor, AVX-512.
#[proc_macro_attribute]
pub fn target_cpu(_: TokenStream, _: TokenStream) -> TokenStream {
    TokenStream::new()
}

/// Leaves the function as it is written; no SQL is made.
#[proc_macro_attribute]
pub fn pg_extern(_: TokenStream, item: TokenStream) -> TokenStream {
    item
}
