//! Two attributes, for the test alone.
use proc_macro::{Delimiter, Group, TokenStream, TokenTree};

/// Leaves an impl as it is: a trait may have `async fn` since Rust 1.75.
#[proc_macro_attribute]
pub fn async_trait(_: TokenStream, item: TokenStream) -> TokenStream {
    item
}

/// Makes of `async fn main() { .. }` a function that polls the block to its end.
#[proc_macro_attribute]
pub fn main(_: TokenStream, item: TokenStream) -> TokenStream {
    let is_async = |token: &TokenTree| matches!(token, TokenTree::Ident(name) if name.to_string() == "async");
    let whole = |token| match token {
        TokenTree::Group(block) if block.delimiter() == Delimiter::Brace => {
            let call: TokenStream = format!("::tokio::block_on(async {block})").parse().unwrap();
            TokenTree::Group(Group::new(Delimiter::Brace, call))
        }
        token => token,
    };
    item.into_iter().filter(|token| !is_async(token)).map(whole).collect()
}
