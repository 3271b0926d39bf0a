//! Stand-in for the crate `rs-matter-macros`: `#[derive(FromTLV)]` and `#[derive(ToTLV)]` on a
//! struct with named fields and no generics (all that scenes.rs asks for: `CurrentScene`).
//!
//! The struct is a TLV structure, field number i (from 0) stands under context tag i. It is read with its members in
//! any order, or with `--ordered` in the order of their tags: the published derive is not at hand.
extern crate proc_macro;
use proc_macro::{Delimiter, TokenStream, TokenTree};

fn parse(input: TokenStream) -> (String, Vec<(String, String)>) {
    let mut name = String::new();
    let mut body = None;
    let mut it = input.into_iter().peekable();
    while let Some(tt) = it.next() {
        match tt {
            TokenTree::Ident(ref i) if i.to_string() == "struct" => {
                if let Some(TokenTree::Ident(n)) = it.next() {
                    name = n.to_string();
                }
            }
            TokenTree::Group(g) if g.delimiter() == Delimiter::Brace && !name.is_empty() => {
                body = Some(g.stream());
            }
            _ => (),
        }
    }
    let mut fields = Vec::new();
    let mut cur: Vec<TokenTree> = Vec::new();
    let mut flush = |cur: &mut Vec<TokenTree>| {
        if let Some(at) = cur.iter().position(|t| matches!(t, TokenTree::Punct(p) if p.as_char() == ':')) {
            let field = cur[at - 1].to_string();
            let ty = cur[at + 1..].iter().map(|t| t.to_string()).collect::<String>();
            fields.push((field, ty));
        }
        cur.clear();
    };
    for tt in body.expect("struct body") {
        match tt {
            TokenTree::Punct(ref p) if p.as_char() == ',' => flush(&mut cur),
            other => cur.push(other),
        }
    }
    flush(&mut cur);
    (name, fields)
}

#[proc_macro_derive(FromTLV, attributes(tlvargs, tagval))]
pub fn from_tlv(input: TokenStream) -> TokenStream {
    let (name, fields) = parse(input);
    let mut inits = String::new();
    for (tag, (f, ty)) in fields.iter().enumerate() {
        inits.push_str(&format!(
            "{f}: <{ty} as ::rs_matter_tlv::FromTLV<'__a>>::from_tlv(
                &member(&mut seq, {tag}u8)?)?,\n"
        ));
    }
    format!(
        "impl<'__a> ::rs_matter_tlv::FromTLV<'__a> for {name} {{
            fn from_tlv(element: &::rs_matter_tlv::TLVElement<'__a>)
                -> Result<Self, ::rs_matter_tlv::__private::Error> {{
                fn member<'__b>(seq: &mut ::rs_matter_tlv::TLVSequence<'__b>, tag: u8)
                    -> Result<::rs_matter_tlv::TLVElement<'__b>, ::rs_matter_tlv::__private::Error> {{
                    if ::rs_matter_tlv::oracle::is_read_in_order() {{
                        seq.scan_ctx(tag)
                    }} else {{
                        seq.find_ctx(tag)
                    }}
                }}
                let mut seq = element.r#struct()?;
                Ok(Self {{ {inits} }})
            }}
        }}"
    )
    .parse()
    .unwrap()
}

#[proc_macro_derive(ToTLV, attributes(tlvargs, tagval))]
pub fn to_tlv(input: TokenStream) -> TokenStream {
    let (name, fields) = parse(input);
    let mut writes = String::new();
    for (tag, (f, _)) in fields.iter().enumerate() {
        writes.push_str(&format!(
            "::rs_matter_tlv::ToTLV::to_tlv(&self.{f}, &::rs_matter_tlv::TLVTag::Context({tag}u8), &mut tw)?;\n"
        ));
    }
    format!(
        "impl ::rs_matter_tlv::ToTLV for {name} {{
            fn to_tlv<W: ::rs_matter_tlv::TLVWrite>(&self, tag: &::rs_matter_tlv::TLVTag, mut tw: W)
                -> Result<(), ::rs_matter_tlv::__private::Error> {{
                tw.start_struct(tag)?;
                {writes}
                tw.end_container()
            }}
            fn tlv_iter(&self, _tag: ::rs_matter_tlv::TLVTag)
                -> impl Iterator<Item = Result<::rs_matter_tlv::TLV<'_>, ::rs_matter_tlv::__private::Error>> {{
                core::iter::empty()
            }}
        }}"
    )
    .parse()
    .unwrap()
}
