//! The interface's functions as two texts declare them: the header for C, and the one file that does for Rust.

use std::fs;

use trails_tests::programs::project;

#[derive(Clone, Debug, PartialEq, Eq)]
pub struct Parameter {
    pub name: String,
    /// its type, in Rust's words
    pub kind: String,
}

#[derive(Clone, Debug, PartialEq, Eq)]
pub struct Function {
    pub name: String,
    pub parameters: Vec<Parameter>,
    /// the answer's type, in Rust's words
    pub answer: String,
}

fn text(path: &str) -> String {
    fs::read_to_string(project().join(path)).unwrap_or_else(|error| panic!("{path}: {error}"))
}

// ---- the header

/// Nor what the compiler never sees, like a macro that takes parameters, over however many lines.
fn without_comments(text: &str) -> String {
    let parts = text.split("/*").enumerate();
    let code = parts.map(|(k, part)| match part.split_once("*/") {
        Some((_, code)) if k > 0 => code,
        _ => part,
    });
    let code: String = code.collect::<String>().replace("\\\n", " ");
    let lines = code.lines().filter(|line| !line.starts_with('#'));
    lines.collect::<Vec<_>>().join("\n")
}

/// A struct's name in Rust: of `anchor_state`, `AnchorState`.
pub fn struct_name(c: &str) -> String {
    let word = |word: &str| word[..1].to_uppercase() + &word[1..];
    c.split('_').map(word).collect()
}

/// A C type in Rust's words: `const uint8_t *` is `*const u8`, and `struct trails_head` is `Head`.
fn kind(c: &str) -> String {
    let word = c.replace("const ", "").replace('*', "");
    let word = word.trim();
    let kind = match word.strip_prefix("struct trails_") {
        Some(name) => struct_name(name),
        None if word == "size_t" => "usize".to_string(),
        None if word == "float" => "f32".to_string(),
        None => {
            let bits = word.trim_end_matches("_t");
            bits.replace("uint", "u").replace("int", "i")
        }
    };
    match (c.contains('*'), c.contains("const ")) {
        (false, _) => kind,
        (true, true) => format!("*const {kind}"),
        (true, false) => format!("*mut {kind}"),
    }
}

/// A type and a name, of which an array has its length after it.
fn c_parameter(text: &str) -> Parameter {
    let (text, length) = text.trim().split_once('[').unwrap_or((text.trim(), ""));
    let at = text.rfind([' ', '*']).expect("a type stands before a name") + 1;
    let (c, name) = text.split_at(at);
    let kind = match length {
        "" => kind(c),
        "TRAILS_TEXT]" => format!("*mut [{}; LONGEST_TEXT]", kind(c)),
        other => panic!("no array has the length {other}"),
    };
    Parameter {
        name: name.to_string(),
        kind,
    }
}

fn c_function(declaration: &str) -> Option<Function> {
    // a list in braces may have a macro with its parameters in it
    let plain = Some(declaration).filter(|text| !text.contains('{'));
    let (before, after) = plain?.split_once('(')?;
    let Parameter { name, kind: answer } = c_parameter(before);
    Some(Function {
        name,
        parameters: after
            .trim_end_matches(')')
            .split(',')
            .filter(|parameter| *parameter != "void")
            .map(c_parameter)
            .collect(),
        answer,
    })
}

/// The proved functions: those of which no answer is a text. The others aren't in the archive, and Rust has their texts.
pub fn in_header() -> Vec<Function> {
    let text = without_comments(&text("include/trails.h"));
    let all = text.split(';').filter_map(c_function);
    all.filter(|function| function.answer != "*const char")
        .collect()
}

// ---- Rust

fn rust_function(declaration: &str) -> Option<Function> {
    let (name, after) = declaration.split_once('(')?;
    let (parameters, answer) = after.split_once(") -> ")?;
    let parameter = |text: &str| {
        let (name, kind) = text.trim().split_once(": ")?;
        Some(Parameter {
            name: name.to_string(),
            kind: kind.to_string(),
        })
    };
    Some(Function {
        name: name.to_string(),
        parameters: parameters.split(',').filter_map(parameter).collect(),
        answer: answer.trim().trim_end_matches(';').to_string(),
    })
}

pub fn in_rust() -> Vec<Function> {
    let text = text("rust/trails/src/interface.rs");
    let (_, after) = text
        .split_once("extern \"C\" {")
        .expect("it declares functions");
    let (declared, _) = after.split_once("\n}").expect("the declarations end");
    declared
        .split("fn ")
        .skip(1)
        .map(|declaration| rust_function(declaration).expect("a function with an answer"))
        .collect()
}
