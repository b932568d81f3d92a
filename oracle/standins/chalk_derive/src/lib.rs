//! Stand-in for chalk_derive (and for the attribute of tracing, which has to live in such a crate too).
//! Book terms hold no variables, so folding gives a value back as it is and the other derives give nothing.

use proc_macro::{TokenStream, TokenTree};

/// The name that follows `struct` or `enum`.
fn name_of(item: TokenStream) -> String {
    let mut tokens = item.into_iter();
    while let Some(token) = tokens.next() {
        if let TokenTree::Ident(word) = &token {
            let word = word.to_string();
            if word == "struct" || word == "enum" {
                if let Some(TokenTree::Ident(name)) = tokens.next() {
                    return name.to_string();
                }
            }
        }
    }
    panic!("neither a struct nor an enum");
}

#[proc_macro_derive(TypeFoldable)]
pub fn type_foldable(item: TokenStream) -> TokenStream {
    let name = name_of(item);
    format!(
        "impl<I: chalk_ir::interner::Interner> chalk_ir::fold::TypeFoldable<I> for {name}<I> {{
            fn try_fold_with<E>(
                self,
                _folder: &mut dyn chalk_ir::fold::FallibleTypeFolder<I, Error = E>,
                _outer_binder: chalk_ir::DebruijnIndex,
            ) -> Result<Self, E> {{
                Ok(self)
            }}
        }}"
    )
    .parse()
    .unwrap()
}

#[proc_macro_derive(TypeVisitable)]
pub fn type_visitable(_item: TokenStream) -> TokenStream {
    TokenStream::new()
}

#[proc_macro_derive(HasInterner)]
pub fn has_interner(_item: TokenStream) -> TokenStream {
    TokenStream::new()
}

#[proc_macro_attribute]
pub fn instrument(_arguments: TokenStream, item: TokenStream) -> TokenStream {
    item
}
