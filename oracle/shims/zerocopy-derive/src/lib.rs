//! The derive macros of the zerocopy shim: each marks a struct with the trait of its name.

use proc_macro::{TokenStream, TokenTree};

/// The name after the word `struct`.
fn struct_name(input: TokenStream) -> String {
    let mut after_struct = false;
    for token in input {
        if let TokenTree::Ident(word) = token {
            if after_struct {
                return word.to_string();
            }
            after_struct = word.to_string() == "struct";
        }
    }
    panic!("the shim derives for structs only");
}

fn mark(input: TokenStream, marker: &str) -> TokenStream {
    let name = struct_name(input);
    format!("unsafe impl ::zerocopy::{marker} for {name} {{}}").parse().expect("an impl block")
}

#[proc_macro_derive(IntoBytes)]
pub fn into_bytes(input: TokenStream) -> TokenStream {
    mark(input, "IntoBytes")
}

#[proc_macro_derive(FromBytes)]
pub fn from_bytes(input: TokenStream) -> TokenStream {
    mark(input, "FromBytes")
}

#[proc_macro_derive(KnownLayout)]
pub fn known_layout(input: TokenStream) -> TokenStream {
    mark(input, "KnownLayout")
}

#[proc_macro_derive(Immutable)]
pub fn immutable(input: TokenStream) -> TokenStream {
    mark(input, "Immutable")
}
