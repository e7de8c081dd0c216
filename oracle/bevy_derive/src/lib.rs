//! The entity framework's derives, which only register a type with the framework: here they write nothing.

use proc_macro::TokenStream;

#[proc_macro_derive(Component, attributes(component))]
pub fn component(_: TokenStream) -> TokenStream {
    TokenStream::new()
}

#[proc_macro_derive(Resource)]
pub fn resource(_: TokenStream) -> TokenStream {
    TokenStream::new()
}

#[proc_macro_derive(SystemSet)]
pub fn system_set(_: TokenStream) -> TokenStream {
    TokenStream::new()
}

#[proc_macro_derive(Reflect, attributes(reflect))]
pub fn reflect(_: TokenStream) -> TokenStream {
    TokenStream::new()
}

#[proc_macro_derive(Deref)]
pub fn deref(_: TokenStream) -> TokenStream {
    TokenStream::new()
}
