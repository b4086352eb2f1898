//! What the sources use of `thiserror`: `derive(Error)`, with `#[error("text")]`, in which a field
//! stands in braces by its number or its name, and `#[error(transparent)]`.
use proc_macro::{Delimiter, Group, TokenStream, TokenTree};
use std::iter::Peekable;

type Tokens = Peekable<proc_macro::token_stream::IntoIter>;

/// An `error` type, or one of its cases: its name, what its attribute says, and its fields.
struct Case {
    name: String,
    text: Option<String>,
    fields: Option<Group>,
}

/// What the attribute `error` says; none of another attribute.
fn text_of(attribute: &Group) -> Option<String> {
    let mut tokens = attribute.stream().into_iter();
    match (tokens.next()?, tokens.next()?) {
        (TokenTree::Ident(name), TokenTree::Group(text)) if name.to_string() == "error" => {
            Some(text.stream().to_string())
        }
        _ => None,
    }
}

fn is_mark(token: Option<&TokenTree>, mark: char) -> bool {
    matches!(token, Some(TokenTree::Punct(found)) if found.as_char() == mark)
}

/// Reads attributes, and answers what that of the error says.
fn attributes(tokens: &mut Tokens) -> Option<String> {
    let mut text = None;
    while is_mark(tokens.peek(), '#') {
        tokens.next();
        if let Some(TokenTree::Group(attribute)) = tokens.next() {
            text = text_of(&attribute).or(text);
        }
    }
    text
}

/// The next group, if it comes at once.
fn group(tokens: &mut Tokens) -> Option<Group> {
    match tokens.peek() {
        Some(TokenTree::Group(_)) => match tokens.next() {
            Some(TokenTree::Group(group)) => Some(group),
            _ => None,
        },
        _ => None,
    }
}

/// The cases of an enumeration.
fn cases(body: &Group) -> Vec<Case> {
    let mut tokens = body.stream().into_iter().peekable();
    let mut found = Vec::new();
    loop {
        let text = attributes(&mut tokens);
        let Some(name) = tokens.next() else {
            return found;
        };
        let fields = group(&mut tokens);
        found.push(Case {
            name: name.to_string(),
            text,
            fields,
        });
        tokens.next();
    }
}

/// The names of fields in braces.
fn named_fields(fields: &Group) -> Vec<String> {
    let tokens: Vec<TokenTree> = fields.stream().into_iter().collect();
    let is_name =
        |pair: &&[TokenTree]| is_mark(pair.get(1), ':') && matches!(pair[0], TokenTree::Ident(_));
    tokens
        .windows(2)
        .filter(is_name)
        .map(|pair| pair[0].to_string())
        .collect()
}

/// The most fields of a case whose fields have numbers.
const MOST_FIELDS: usize = 4;

/// A pattern of a case, and how its text is written.
fn arm(path: &str, case: &Case) -> String {
    let Some(text) = &case.text else {
        panic!("{path} has no attribute 'error'");
    };
    if text == "transparent" {
        return format!("{path}(inner) => ::core::fmt::Display::fmt(inner, f),");
    }
    match &case.fields {
        None => format!("{path} => ::core::write!(f, {text}),"),
        Some(fields) if fields.delimiter() == Delimiter::Brace => {
            let used: Vec<String> = named_fields(fields)
                .into_iter()
                .filter(|field| text.contains(&format!("{{{field}")))
                .collect();
            let used: String = used.iter().map(|field| format!("{field}, ")).collect();
            format!("{path} {{ {used}.. }} => ::core::write!(f, {text}),")
        }
        Some(_) => {
            let used = (0..MOST_FIELDS).take_while(|k| text.contains(&format!("{{{k}")));
            let names: String = used.clone().map(|k| format!("field_{k}, ")).collect();
            let text = used.fold(text.clone(), |text, k| {
                text.replace(&format!("{{{k}"), &format!("{{field_{k}"))
            });
            format!("{path}({names}..) => ::core::write!(f, {text}),")
        }
    }
}

/// The parameters between `<` and `>`: as they are declared, without defaults, and their names.
fn parameters(tokens: &mut Tokens) -> (String, String) {
    if !is_mark(tokens.peek(), '<') {
        return (String::new(), String::new());
    }
    let mut depth = 0;
    let mut words = Vec::new();
    for token in tokens.by_ref() {
        depth += i32::from(is_mark(Some(&token), '<')) - i32::from(is_mark(Some(&token), '>'));
        words.push(token.to_string());
        if depth == 0 {
            break;
        }
    }
    let inner = words[1..words.len() - 1].join(" ");
    let declared: Vec<&str> = inner
        .split(',')
        .map(|one| one.split('=').next().unwrap_or(""))
        .collect();
    let names: Vec<&str> = declared
        .iter()
        .map(|one| one.split(':').next().unwrap_or(""))
        .collect();
    (
        format!("<{}>", declared.join(",")),
        format!("<{}>", names.join(",")),
    )
}

/// `Display`, by the texts of the attributes, and `Error`.
#[proc_macro_derive(Error, attributes(error))]
pub fn derive(item: TokenStream) -> TokenStream {
    let mut tokens = item.into_iter().peekable();
    let text = attributes(&mut tokens);
    let is_enum = loop {
        match tokens.next() {
            Some(TokenTree::Ident(word)) if word.to_string() == "enum" => break true,
            Some(TokenTree::Ident(word)) if word.to_string() == "struct" => break false,
            Some(_) => {}
            None => panic!("an error is an enum or a struct"),
        }
    };
    let name = tokens.next().map_or(String::new(), |name| name.to_string());
    let (declared, names) = parameters(&mut tokens);
    let body = group(&mut tokens);
    let arms: String = if is_enum {
        let all = body.as_ref().map(cases).unwrap_or_default();
        all.iter()
            .map(|case| arm(&format!("{name}::{}", case.name), case))
            .collect()
    } else {
        let case = Case {
            name: name.clone(),
            text,
            fields: body,
        };
        arm(&name, &case)
    };
    format!(
        "impl {declared} ::core::fmt::Display for {name} {names} {{
            fn fmt(&self, f: &mut ::core::fmt::Formatter<'_>) -> ::core::fmt::Result {{
                match self {{ {arms} }}
            }}
        }}
        impl {declared} ::core::error::Error for {name} {names} where Self: ::core::fmt::Debug {{}}"
    )
    .parse()
    .expect("an implementation")
}
