//! Splits a file's tokens into its items (uses, constants, functions) and keeps the wanted ones.
//! Of region3.rs, boundaries.rs and root.rs only functions stay that do not call what docs/SCOPE.md leaves behind.

use crate::tokens::{after, Kind, Token};

/// What the port takes of region3.rs, boundaries.rs and root.rs. `Td_reg3` differs from `Td_thermal_reg3` by the transport
/// properties alone, which are left behind: it is renamed where the other five call it.
pub const TAKEN: [&str; 9] = [
    "Td_thermal_reg3",
    "pT_reg3",
    "ph_reg3",
    "ps_reg3",
    "hs_reg3",
    "pv_reg3",
    "B23_T2p",
    "B23_p2T",
    "rtsec",
];

/// The regions that are left behind.
const LEFT: [&str; 3] = ["r1", "r2", "r5"];

/// The tokens without the functions that `TAKEN` does not name, and without what the file uses of `LEFT`.
pub fn taken(tokens: &[Token]) -> Vec<Token> {
    split(tokens)
        .into_iter()
        .filter(|item| match function(item) {
            Some(name) => TAKEN.contains(&name),
            None => !item.iter().any(|t| LEFT.contains(&t.text.as_str())),
        })
        .flatten()
        .cloned()
        .map(|t| {
            if t.is("Td_reg3") {
                Token::new(Kind::Word, "Td_thermal_reg3")
            } else {
                t
            }
        })
        .collect()
}

/// An item ends at a `;` or at the `}` that closes it.
fn split(tokens: &[Token]) -> Vec<&[Token]> {
    let mut items = Vec::new();
    let (mut start, mut depth) = (0, 0);
    for (i, token) in tokens.iter().enumerate() {
        if token.kind != Kind::Mark {
            continue;
        }
        match token.text.as_str() {
            "(" | "[" | "{" => depth += 1,
            ")" | "]" | "}" => depth -= 1,
            _ => (),
        }
        if depth == 0 && (token.is(";") || token.is("}")) {
            items.push(&tokens[start..=i]);
            start = i + 1;
        }
    }
    items.push(&tokens[start..]);
    items
}

/// The function that an item defines: `fn` without a name is a type.
fn function(item: &[Token]) -> Option<&str> {
    let at = item
        .iter()
        .position(|t| t.kind == Kind::Word && t.is("fn"))?;
    let name = &item[after(item, at + 1)?];
    (name.kind == Kind::Word).then_some(name.text.as_str())
}
