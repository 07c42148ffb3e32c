//! `#[derive(Sequence)]` for enums whose variants hold no data.
use proc_macro::{Delimiter, TokenStream, TokenTree};

#[proc_macro_derive(Sequence)]
pub fn sequence(input: TokenStream) -> TokenStream {
    let mut name = None;
    let mut variants: Vec<String> = Vec::new();
    let mut it = input.into_iter();
    while let Some(t) = it.next() {
        if let TokenTree::Ident(i) = &t {
            if i.to_string() == "enum" {
                name = Some(it.next().expect("enum name").to_string());
                for t in it.by_ref() {
                    if let TokenTree::Group(g) = t {
                        assert_eq!(g.delimiter(), Delimiter::Brace, "generics not supported");
                        for t in g.stream() {
                            match t {
                                TokenTree::Ident(i) => variants.push(i.to_string()),
                                TokenTree::Punct(p) if p.as_char() == ',' || p.as_char() == '#' => {
                                }
                                // the body of an attribute, as `[doc = ..]`
                                TokenTree::Group(g) if g.delimiter() == Delimiter::Bracket => {}
                                other => panic!("unit variants only, got {other}"),
                            }
                        }
                        break;
                    }
                }
            }
        }
    }
    let name = name.expect("an enum");
    let list: Vec<String> = variants.iter().map(|v| format!("{name}::{v}")).collect();
    format!(
        "impl ::enum_iterator::Sequence for {name} {{ const LIST: &'static [Self] = &[{}]; }}",
        list.join(", ")
    )
    .parse()
    .unwrap()
}
