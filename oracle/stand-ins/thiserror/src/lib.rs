//! Stands for the crate `thiserror`, from which the sources derive `Display`, `Error` and `From` for their errors.
//! Answers name an error by its variant and never print one, so of all this only `From` runs, which wraps a value.
//! It takes enums without generics whose variants are plain names or tuples, as hex.rs and error.rs have them.

use proc_macro::{Delimiter, Group, TokenStream, TokenTree};

/// A field of a tuple: its type, and whether it is marked `#[from]`.
struct Field {
    ty: String,
    from: bool,
}

/// A variant: its name, what stands in its `#[error(..)]`, and its fields.
struct Variant {
    name: String,
    error: String,
    fields: Vec<Field>,
}

/// Derives `Display`, `Error` and `From`.
#[proc_macro_derive(Error, attributes(error, from))]
pub fn derive_error(input: TokenStream) -> TokenStream {
    let (name, body) = head(input);
    let variants: Vec<Variant> = split_at_commas(body).into_iter().map(variant).collect();
    let shown: String = variants.iter().map(display_arm).collect();
    let wrapped: String = variants.iter().map(|v| from_impl(&name, v)).collect();
    format!(
        "impl ::std::fmt::Display for {name} {{
            fn fmt(&self, f: &mut ::std::fmt::Formatter<'_>) -> ::std::fmt::Result {{
                match self {{ {shown} }}
            }}
        }}
        impl ::std::error::Error for {name} {{}}
        {wrapped}"
    )
    .parse()
    .expect("the text above is Rust")
}

/// The enum's name and what stands in its braces.
fn head(input: TokenStream) -> (String, TokenStream) {
    let mut tokens = input.into_iter().skip_while(|t| t.to_string() != "enum").skip(1);
    let name = tokens.next().expect("the enum's name").to_string();
    match tokens.next() {
        Some(TokenTree::Group(body)) if body.delimiter() == Delimiter::Brace => (name, body.stream()),
        _ => panic!("an enum without generics is wanted"),
    }
}

/// The parts between commas, without an empty last one. A comma in a group parts nothing.
fn split_at_commas(tokens: TokenStream) -> Vec<Vec<TokenTree>> {
    let mut parts = vec![Vec::new()];
    for token in tokens {
        if token.to_string() == "," {
            parts.push(Vec::new());
        } else {
            parts.last_mut().expect("one part at least").push(token);
        }
    }
    parts.retain(|part| !part.is_empty());
    parts
}

/// Takes the attributes off the front: the content of each pair of square brackets.
fn attributes(tokens: Vec<TokenTree>) -> (Vec<TokenStream>, Vec<TokenTree>) {
    let mut found = Vec::new();
    let mut rest = tokens.into_iter().peekable();
    while rest.next_if(|t| t.to_string() == "#").is_some() {
        match rest.next() {
            Some(TokenTree::Group(group)) => found.push(group.stream()),
            _ => panic!("an attribute is wanted behind #"),
        }
    }
    (found, rest.collect())
}

/// The group behind a word at the start of an attribute, `error(..)`.
fn argument_of(attribute: &TokenStream, word: &str) -> Option<Group> {
    let mut tokens = attribute.clone().into_iter();
    if tokens.next()?.to_string() != word {
        return None;
    }
    match tokens.next()? {
        TokenTree::Group(group) => Some(group),
        _ => None,
    }
}

fn variant(tokens: Vec<TokenTree>) -> Variant {
    let (attributes, rest) = attributes(tokens);
    let error = attributes
        .iter()
        .find_map(|a| argument_of(a, "error"))
        .expect("each variant has #[error(..)]")
        .stream()
        .to_string();
    let name = rest.first().expect("the variant's name").to_string();
    let fields = match rest.get(1) {
        Some(TokenTree::Group(group)) if group.delimiter() == Delimiter::Parenthesis => {
            split_at_commas(group.stream()).into_iter().map(field).collect()
        }
        _ => Vec::new(),
    };
    Variant { name, error, fields }
}

fn field(tokens: Vec<TokenTree>) -> Field {
    let (attributes, rest) = attributes(tokens);
    Field {
        ty: rest.into_iter().collect::<TokenStream>().to_string(),
        from: attributes.iter().any(|a| a.to_string() == "from"),
    }
}

/// The arm that shows a variant: by its only field where it is transparent, else by its text.
fn display_arm(variant: &Variant) -> String {
    let Variant { name, error, fields } = variant;
    let names: Vec<String> = (0..fields.len()).map(|i| format!("field{i}")).collect();
    let names = names.join(", ");
    match (error.as_str(), fields.len()) {
        ("transparent", _) => format!("Self::{name}(field0) => ::std::fmt::Display::fmt(field0, f),"),
        (_, 0) => format!("Self::{name} => ::std::write!(f, {error}),"),
        (_, _) => format!("Self::{name}({names}) => ::std::write!(f, {error}, {names}),"),
    }
}

/// The conversion from the type of a field marked `#[from]`.
fn from_impl(of: &str, variant: &Variant) -> String {
    let name = &variant.name;
    match variant.fields.as_slice() {
        [Field { ty, from: true }] => {
            format!("impl From<{ty}> for {of} {{ fn from(value: {ty}) -> Self {{ Self::{name}(value) }} }}")
        }
        _ => String::new(),
    }
}
