//! Cuts Rust text into tokens, as far as the crate's numeric code needs it.
//! Comments are dropped and spaces kept, so that the tokens joined again are the same program.

#[derive(Clone, Copy, PartialEq, Debug)]
pub enum Kind {
    Word,
    Whole,
    Decimal,
    Quoted,
    Mark,
    Space,
}

#[derive(Clone, PartialEq, Debug)]
pub struct Token {
    pub kind: Kind,
    pub text: String,
}

impl Token {
    pub fn new(kind: Kind, text: &str) -> Token {
        Token {
            kind,
            text: text.to_string(),
        }
    }

    pub fn is(&self, text: &str) -> bool {
        self.text == text
    }
}

pub fn join(tokens: &[Token]) -> String {
    tokens.iter().map(|t| t.text.as_str()).collect()
}

/// The next token at or after `from` that is no space.
pub fn after(tokens: &[Token], from: usize) -> Option<usize> {
    (from..tokens.len()).find(|&i| tokens[i].kind != Kind::Space)
}

/// The last token before `from` that is no space.
pub fn before(tokens: &[Token], from: usize) -> Option<usize> {
    (0..from).rev().find(|&i| tokens[i].kind != Kind::Space)
}

pub fn cut(text: &str) -> Vec<Token> {
    let chars: Vec<char> = text.chars().collect();
    let mut tokens: Vec<Token> = Vec::new();
    let mut at = 0;
    while at < chars.len() {
        let (kind, end) = one(&chars, at, tokens.last());
        let text = match kind {
            Kind::Space if chars[at] == '/' => " ".to_string(),
            _ => chars[at..end].iter().collect(),
        };
        tokens.push(Token { kind, text });
        at = end;
    }
    tokens
}

/// Where the block comment ends whose text starts at `from`. None of the crate's holds another.
fn ended(chars: &[char], from: usize) -> usize {
    let close = |i: &usize| chars[*i] == '*' && chars.get(*i + 1) == Some(&'/');
    (from..chars.len())
        .find(close)
        .expect("a block comment ends")
        + 2
}

/// The kind of the token that starts at `at`, and its end.
fn one(chars: &[char], at: usize, last: Option<&Token>) -> (Kind, usize) {
    let next = |i: usize| chars.get(i).copied().unwrap_or('\n');
    let run = |from: usize, keep: &dyn Fn(char) -> bool| {
        (from..chars.len())
            .find(|&i| !keep(chars[i]))
            .unwrap_or(chars.len())
    };
    match chars[at] {
        '/' if next(at + 1) == '/' => (Kind::Space, run(at, &|c| c != '\n')),
        '/' if next(at + 1) == '*' => (Kind::Space, ended(chars, at + 2)),
        c if c.is_whitespace() => (Kind::Space, run(at, &char::is_whitespace)),
        '"' => (Kind::Quoted, run(at + 1, &|c| c != '"') + 1),
        '\'' if next(at + 2) == '\'' => (Kind::Quoted, at + 3),
        c if c.is_alphabetic() || c == '_' => {
            (Kind::Word, run(at, &|c| c.is_alphanumeric() || c == '_'))
        }
        c if c.is_ascii_digit() => {
            let whole = run(at, &|c| c.is_ascii_digit());
            // `e.0` names a field and `1..5` a range: neither has a decimal point
            if last.is_some_and(|t| t.is(".")) {
                return (Kind::Whole, whole);
            }
            let point = next(whole) == '.' && next(whole + 1).is_ascii_digit();
            let mut end = if point {
                run(whole + 1, &|c| c.is_ascii_digit())
            } else {
                whole
            };
            let raised = matches!(next(end), 'e' | 'E');
            if raised {
                let sign = matches!(next(end + 1), '+' | '-') as usize;
                end = run(end + 1 + sign, &|c| c.is_ascii_digit());
            }
            (
                if point || raised {
                    Kind::Decimal
                } else {
                    Kind::Whole
                },
                end,
            )
        }
        _ => (Kind::Mark, at + 1),
    }
}
