//! Stand-in for the crate `num-derive`: `#[derive(FromPrimitive)]` on a fieldless enum.
extern crate proc_macro;
use proc_macro::{Delimiter, TokenStream, TokenTree};

/// The name of an enum, and what stands between its braces.
fn parse(input: TokenStream) -> (String, TokenStream) {
    let mut name = String::new();
    let mut tokens = input.into_iter();
    while let Some(token) = tokens.next() {
        match token {
            TokenTree::Ident(word) if word.to_string() == "enum" => {
                name = tokens.next().expect("a name").to_string();
            }
            TokenTree::Group(group) if group.delimiter() == Delimiter::Brace && !name.is_empty() => {
                return (name, group.stream());
            }
            _ => (),
        }
    }
    panic!("no enum");
}

/// The variants: the first word, and each first word behind a comma.
fn variants(body: TokenStream) -> Vec<String> {
    let mut names = Vec::new();
    let mut at_start = true;
    for token in body {
        match token {
            TokenTree::Ident(word) if at_start => {
                names.push(word.to_string());
                at_start = false;
            }
            TokenTree::Punct(punct) if punct.as_char() == ',' => at_start = true,
            _ => (),
        }
    }
    names
}

#[proc_macro_derive(FromPrimitive)]
pub fn from_primitive(input: TokenStream) -> TokenStream {
    let (name, body) = parse(input);
    let arm = |v: &String| format!("if n == {name}::{v} as u64 {{ return Some({name}::{v}); }}\n");
    let arms: String = variants(body).iter().map(arm).collect();
    format!(
        "impl ::num_traits::FromPrimitive for {name} {{
            fn from_i64(n: i64) -> Option<Self> {{
                if n < 0 {{ None }} else {{ <Self as ::num_traits::FromPrimitive>::from_u64(n as u64) }}
            }}
            fn from_u64(n: u64) -> Option<Self> {{ {arms} None }}
        }}"
    )
    .parse()
    .unwrap()
}
