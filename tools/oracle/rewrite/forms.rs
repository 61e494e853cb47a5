//! The three forms of a file of the Rust: plain, ruled and checked, each by a rewriting of tokens.
//! Paths move below crate::forms. Beyond that the plain form is the file as it stands.

use crate::items;
use crate::tokens::{after, before, cut, join, Kind, Token};

#[derive(Clone, Copy, PartialEq)]
pub enum Form {
    /// The untouched crate: f64 and std's own functions.
    Plain,
    /// The same on f64, with docs/SCOPE.md's four rules in place of std's functions.
    Ruled,
    /// The same as ruled on a number that keeps the first refusal.
    Checked,
}

/// The methods of f64 that docs/SCOPE.md's rules replace.
const METHODS: [&str; 5] = ["powi", "powf", "ln", "exp", "sqrt"];

/// Private functions of the crate that the oracle has to call by themselves.
const OPENED: [&str; 1] = ["p2h_3ab"];

/// The p that docs/SCOPE.md wants range-tested wherever a formula works it out.
const TESTED: &str = "Td2p_reg3";

/// What the searches ask for, trial by trial, and by which function: there p is not range-tested.
const SOUGHT: [(&str, &str); 3] = [
    ("Td2p_reg3", "Td2p_reg3_untested"),
    ("Td2h_reg3", "Td2h_reg3"),
    ("Td2s_reg3", "Td2s_reg3"),
];

impl Form {
    pub fn name(self) -> &'static str {
        match self {
            Form::Plain => "plain",
            Form::Ruled => "ruled",
            Form::Checked => "checked",
        }
    }

    pub fn rewrite(self, file: &str, rust: &str) -> String {
        let mut tokens = cut(rust);
        if ["region3", "boundaries", "root"].contains(&file) {
            tokens = items::taken(&tokens);
        }
        tokens = moved(&opened(&tokens), self.name());
        match self {
            Form::Plain => join(&tokens),
            Form::Ruled => format!("use crate::raw::Rules;\n{}", join(&ruled(&tokens))),
            Form::Checked => {
                let mut tokens = tested(&retyped(&cast(&tokens)));
                let more = match file {
                    "region3_Td" => wrapper(),
                    "region3_pair_ext" => {
                        tokens = counted(&tokens);
                        counters()
                    }
                    _ => String::new(),
                };
                format!("use crate::num::Num;\n{}\n{more}", join(&tokens))
            }
        }
    }
}

fn is_word(token: &Token, text: &str) -> bool {
    token.kind == Kind::Word && token.is(text)
}

/// `fn NAME` becomes `pub fn NAME` for the names that are opened.
fn opened(tokens: &[Token]) -> Vec<Token> {
    let mut out = Vec::new();
    for (i, token) in tokens.iter().enumerate() {
        let name = after(tokens, i + 1).map(|j| tokens[j].text.as_str());
        if is_word(token, "fn") && name.is_some_and(|n| OPENED.contains(&n)) {
            out.push(Token::new(Kind::Word, "pub "));
        }
        out.push(token.clone());
    }
    out
}

/// `crate::` becomes the place of the form.
fn moved(tokens: &[Token], form: &str) -> Vec<Token> {
    let place = format!("crate::forms::{form}");
    let change = |t: &Token| match is_word(t, "crate") {
        true => Token::new(Kind::Word, &place),
        false => t.clone(),
    };
    tokens.iter().map(change).collect()
}

/// `.powi(` and its like become the rules' own methods.
fn ruled(tokens: &[Token]) -> Vec<Token> {
    let change = |(i, t): (usize, &Token)| {
        let method = t.kind == Kind::Word && METHODS.contains(&t.text.as_str());
        match method && i > 0 && tokens[i - 1].is(".") {
            true => Token::new(Kind::Word, &format!("rule_{}", t.text)),
            false => t.clone(),
        }
    };
    tokens.iter().enumerate().map(change).collect()
}

/// `X as f64` becomes `Num::of(X)`: X is a name, a field of a name, or stands in parentheses.
fn cast(tokens: &[Token]) -> Vec<Token> {
    let mut out: Vec<Token> = Vec::new();
    let mut i = 0;
    while i < tokens.len() {
        let float = after(tokens, i + 1).filter(|&j| is_word(&tokens[j], "f64"));
        match float {
            Some(j) if is_word(&tokens[i], "as") => {
                let start = operand(&out);
                out.insert(start, Token::new(Kind::Word, "Num::of("));
                out.push(Token::new(Kind::Mark, ")"));
                i = j + 1;
            }
            _ => {
                out.push(tokens[i].clone());
                i += 1;
            }
        }
    }
    out
}

/// Where the operand starts that ends the tokens.
fn operand(tokens: &[Token]) -> usize {
    let mut at = before(tokens, tokens.len()).expect("an operand stands before `as`");
    if tokens[at].is(")") {
        let mut depth = 0;
        loop {
            match tokens[at].text.as_str() {
                ")" => depth += 1,
                "(" => depth -= 1,
                _ => (),
            }
            if depth == 0 {
                break;
            }
            at -= 1;
        }
        let called = before(tokens, at).is_some_and(|b| tokens[b].kind == Kind::Word);
        assert!(!called, "a cast of a call: the crate's files have none");
        return at;
    }
    while at >= 2 && tokens[at - 1].is(".") {
        at -= 2;
    }
    at
}

/// f64 becomes Num, and a decimal `x` or `-x` becomes `Num(x)` or `Num(-x)`.
fn retyped(tokens: &[Token]) -> Vec<Token> {
    let mut out: Vec<Token> = Vec::new();
    for token in tokens {
        match token.kind {
            Kind::Word if token.is("f64") => out.push(Token::new(Kind::Word, "Num")),
            Kind::Decimal => {
                let minus = before(&out, out.len()).filter(|&i| signs(&out, i));
                if let Some(i) = minus {
                    out.truncate(i);
                }
                let sign = if minus.is_some() { "-" } else { "" };
                let number = format!("Num({sign}{})", token.text);
                out.push(Token::new(Kind::Word, &number));
            }
            _ => out.push(token.clone()),
        }
    }
    out
}

/// Whether the token at `i` is a minus with nothing before it to subtract from.
fn signs(tokens: &[Token], i: usize) -> bool {
    let ends_operand = |t: &Token| {
        matches!(t.kind, Kind::Whole | Kind::Decimal)
            || t.is(")")
            || t.is("]")
            || (t.kind == Kind::Word && !t.is("return"))
    };
    tokens[i].is("-") && !before(tokens, i).is_some_and(|b| ends_operand(&tokens[b]))
}

/// The function that works p out takes another name, so that a tested one can have its own.
fn tested(tokens: &[Token]) -> Vec<Token> {
    let change = |(i, t): (usize, &Token)| {
        let defined = before(tokens, i).is_some_and(|b| is_word(&tokens[b], "fn"));
        match is_word(t, TESTED) && defined {
            true => Token::new(Kind::Word, &format!("{TESTED}_untested")),
            false => t.clone(),
        }
    };
    tokens.iter().enumerate().map(change).collect()
}

fn wrapper() -> String {
    format!(
        "pub fn {TESTED}(T: Num, d: Num) -> Num {{
            {TESTED}_untested(T, d).of_the_state(crate::ranges::P_BOX)
        }}\n"
    )
}

/// Where a search names what it asks for, a function stands that counts how often it is asked.
fn counted(tokens: &[Token]) -> Vec<Token> {
    let change = |t: &Token| match SOUGHT.iter().any(|s| is_word(t, s.0)) {
        true => Token::new(Kind::Word, &format!("counted_{}", t.text)),
        false => t.clone(),
    };
    tokens.iter().map(change).collect()
}

fn counters() -> String {
    let counter = |(name, worked)| {
        format!(
            "fn counted_{name}(T: Num, d: Num) -> Num {{
            crate::num::asked();
            {worked}(T, d)
        }}\n"
        )
    };
    SOUGHT.map(counter).concat()
}
