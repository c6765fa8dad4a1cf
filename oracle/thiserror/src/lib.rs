//! A stand-in for the published crate `thiserror`, as far as the six files of
//! the Rust circuit module use it: `#[derive(thiserror::Error)]` on an enum
//! without type parameters, an `#[error("..")]` on every variant, and `#[from]`
//! on the field of a one-field tuple variant. It writes `Display`, `Error`
//! and that `From`. (The published macro also writes `Error::source`; nothing
//! here asks for it.)

use proc_macro::{Delimiter, Group, TokenStream, TokenTree};

/// One variant of the enum, as text ready to be put into the generated code.
struct Variant {
    name: String,
    /// The format string's literal, quotes included.
    message: String,
    /// The pattern's part after the name, such as `{ a, b }` or `(_0)`.
    fields: String,
    /// The type of the field marked `#[from]`.
    from: Option<String>,
}

/// Derives `Display`, `Error` and the `From` of a field marked `#[from]`.
#[proc_macro_derive(Error, attributes(error, from))]
pub fn derive_error(item: TokenStream) -> TokenStream {
    let (name, body) = enum_name_and_body(item);
    let variants = split_at_commas(body).into_iter().map(read_variant);

    let mut arms = String::new();
    let mut conversions = String::new();
    for variant in variants {
        arms += &format!(
            "Self::{}{} => ::core::write!(formatter, {}),\n",
            variant.name, variant.fields, variant.message
        );
        if let Some(from) = variant.from {
            conversions += &format!(
                "impl ::core::convert::From<{from}> for {name} {{
                    fn from(inner: {from}) -> Self {{ Self::{}(inner) }}
                }}\n",
                variant.name
            );
        }
    }
    format!(
        "impl ::core::fmt::Display for {name} {{
            #[allow(unused_variables)]
            fn fmt(&self, formatter: &mut ::core::fmt::Formatter<'_>) -> ::core::fmt::Result {{
                match self {{ {arms} }}
            }}
        }}
        impl ::core::error::Error for {name} {{}}
        {conversions}"
    )
    .parse()
    .expect("the generated code is Rust")
}

/// The name after `enum`, and what stands between the braces.
fn enum_name_and_body(item: TokenStream) -> (String, TokenStream) {
    let mut tokens = item
        .into_iter()
        .skip_while(|token| !is_ident(token, "enum"));
    match (tokens.next(), tokens.next(), tokens.next()) {
        (Some(_), Some(TokenTree::Ident(name)), Some(TokenTree::Group(body))) => {
            (name.to_string(), body.stream())
        }
        _ => panic!("this stand-in derives Error for plain enums only"),
    }
}

/// A variant: attributes, a name, and perhaps its fields.
fn read_variant(tokens: Vec<TokenTree>) -> Variant {
    let (attributes, rest) = split_attributes(tokens);
    let message = attributes
        .into_iter()
        .find_map(|attribute| attribute_text(&attribute, "error"))
        .expect("every variant has #[error(\"..\")]");
    let mut rest = rest.into_iter();
    let name = rest.next().expect("a variant has a name").to_string();
    let mut variant = Variant {
        name,
        message,
        fields: String::new(),
        from: None,
    };
    if let Some(TokenTree::Group(group)) = rest.next() {
        let fields = split_at_commas(group.stream())
            .into_iter()
            .map(split_attributes);
        if group.delimiter() == Delimiter::Brace {
            let names: Vec<String> = fields.map(|(_, field)| field_name(&field)).collect();
            variant.fields = format!("{{ {} }}", names.join(", "));
        } else {
            let mut names = Vec::new();
            for (position, (attributes, ty)) in fields.enumerate() {
                // `{0}` in the message names the field, as `{_0}` does here.
                variant.message = variant
                    .message
                    .replace(&format!("{{{position}}}"), &format!("{{_{position}}}"));
                names.push(format!("_{position}"));
                if attributes.iter().any(|group| starts_with(group, "from")) {
                    variant.from = Some(ty.into_iter().collect::<TokenStream>().to_string());
                }
            }
            variant.fields = format!("({})", names.join(", "));
        }
    }
    variant
}

/// The name of a field: the word before the colon.
fn field_name(field: &[TokenTree]) -> String {
    let colon = field
        .iter()
        .position(|token| matches!(token, TokenTree::Punct(punct) if punct.as_char() == ':'))
        .expect("a named field has a colon");
    field[colon - 1].to_string()
}

/// The tokens in parts, cut at the commas outside of any group.
fn split_at_commas(stream: TokenStream) -> Vec<Vec<TokenTree>> {
    let mut parts = vec![Vec::new()];
    for token in stream {
        if matches!(&token, TokenTree::Punct(punct) if punct.as_char() == ',') {
            parts.push(Vec::new());
        } else if let Some(part) = parts.last_mut() {
            part.push(token);
        }
    }
    parts.retain(|part| !part.is_empty());
    parts
}

/// The leading `#[..]` groups, and the tokens after them.
fn split_attributes(tokens: Vec<TokenTree>) -> (Vec<Group>, Vec<TokenTree>) {
    let mut attributes = Vec::new();
    let mut tokens = tokens.into_iter().peekable();
    while matches!(tokens.peek(), Some(TokenTree::Punct(punct)) if punct.as_char() == '#') {
        tokens.next();
        if let Some(TokenTree::Group(group)) = tokens.next() {
            attributes.push(group);
        }
    }
    (attributes, tokens.collect())
}

/// What stands in the parentheses of the attribute called `name`.
fn attribute_text(attribute: &Group, name: &str) -> Option<String> {
    match attribute.stream().into_iter().nth(1) {
        Some(TokenTree::Group(inner)) if starts_with(attribute, name) => {
            Some(inner.stream().to_string())
        }
        _ => None,
    }
}

fn starts_with(attribute: &Group, name: &str) -> bool {
    attribute
        .stream()
        .into_iter()
        .next()
        .is_some_and(|token| is_ident(&token, name))
}

fn is_ident(token: &TokenTree, name: &str) -> bool {
    matches!(token, TokenTree::Ident(ident) if ident.to_string() == name)
}
