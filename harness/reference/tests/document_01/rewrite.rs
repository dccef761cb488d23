//! Merging once more, by rewriting: METR 2006-64 draws a hill as closes and computed
//! values, then opens and computed values. Two such sequences joined are rewritten,
//! one innermost "open, values, close" after another, until nothing is left to
//! rewrite. This pins merging for summaries that no chunk makes.

use reference::mode::{combine, through, Grams, Held, Mode};
use reference::summary::{Hill, Unclosed};

#[derive(Clone, Copy, Debug, PartialEq, Eq)]
enum Token {
    Value(Held),
    Close,
    Open(Grams),
}

/// A hill as tokens: a value, then as often as it goes down "close, value", then as
/// often as it goes up "open, value".
fn tokens(hill: &Hill) -> Vec<Token> {
    let mut tokens = Vec::new();
    for &value in &hill.left {
        tokens.extend([Token::Value(value), Token::Close]);
    }
    tokens.push(Token::Value(hill.middle));
    for Unclosed { record, held } in &hill.right {
        tokens.extend([Token::Open(*record), Token::Value(*held)]);
    }
    tokens
}

/// One rewriting: two neighbouring values are combined, or a record that is opened
/// and closed around one value becomes its figure.
fn rewrite(mode: Mode, tokens: &mut Vec<Token>) -> bool {
    for place in 0..tokens.len() {
        let (count, value) = match tokens[place..] {
            [Token::Value(one), Token::Value(other), ..] => (2, combine(mode, &[one, other])),
            [Token::Open(record), Token::Value(held), Token::Close, ..] => (3, Some(through(mode, &record, held))),
            _ => continue,
        };
        tokens.splice(place..place + count, [Token::Value(value)]);
        return true;
    }
    false
}

/// Whether a hill is the merge of two that meet.
pub fn is_merge(mode: Mode, left: &Hill, right: &Hill, merged: &Hill) -> bool {
    let mut joined = [tokens(left), tokens(right)].concat();
    while rewrite(mode, &mut joined) {}
    joined == tokens(merged)
        && merged.start == left.start
        && merged.end == right.end
        && merged.peak == left.peak.min(right.peak)
        && merged.opened == left.opened + right.opened
}
