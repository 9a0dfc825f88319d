//! A slow reference parser of filter source. It holds every form of the table of mnemonics and
//! operands against the whole list of a statement's tokens, and reports the first token with which
//! none of them goes on.

use bpf_text::TextFault;
use std::alloc::{AllocError, Global};

/// The mnemonics of each form of operand, and its symbols. `n` is a number with at most one sign,
/// `R` is `x` or `%x`, `N` a name, and `4` and `15` are number tokens of these values.
const FORMS: [(&str, &str); 27] = [
    ("ld ldh ldb", "[ n ]"),
    ("ld ldh ldb", "[ R + n ]"),
    ("ld ldx st stx", "M [ n ]"),
    ("ld ldi ldx ldxi ret", "# n"),
    ("ldi ldxi", "n"),
    ("ld ldx", "len"),
    ("ld ldx", "# len"),
    ("ldx ldxb", "4 * ( [ n ] & 15 )"),
    ("jmp ja", "N"),
    ("jeq jgt jge jset", "# n , N"),
    ("jeq jgt jge jset", "# n , N , N"),
    ("jeq jgt jge jset", "R , N"),
    ("jeq jgt jge jset", "R , N , N"),
    ("jneq jne jlt jle", "# n , N"),
    ("jneq jne jlt jle", "R , N"),
    ("add sub mul div mod", "# n"),
    ("add sub mul div mod", "R"),
    ("and or xor lsh rsh", "# n"),
    ("and or xor lsh rsh", "R"),
    ("ret", "a"),
    ("ret", "% a"),
    ("neg", ""),
    ("tax", ""),
    ("txa", ""),
    // The words that are no mnemonics, in no form.
    ("", "x"),
    ("", "a"),
    ("", "M"),
];

/// A token's byte offset and its bytes.
type Token<'a> = (usize, &'a [u8]);

/// How a form and a list of tokens fit.
#[derive(Clone, Copy, PartialEq, Eq)]
enum Fit {
    Not,
    Prefix,
    Whole,
}

fn is_word_byte(byte: u8) -> bool {
    byte.is_ascii_alphanumeric() || byte == b'_'
}

fn is(token: Token<'_>, word: &str) -> bool {
    token.1.eq_ignore_ascii_case(word.as_bytes())
}

/// The token is a mnemonic, `x`, `a`, `M` or `len`.
fn is_keyword(token: Token<'_>) -> bool {
    is(token, "len")
        || FORMS.iter().any(|(mnemonics, form)| {
            mnemonics.split(' ').any(|word| is(token, word))
                || (mnemonics.is_empty() && is(token, form))
        })
}

fn is_name(token: Token<'_>) -> bool {
    token
        .1
        .first()
        .is_some_and(|first| first.is_ascii_alphabetic() || *first == b'_')
        && !is_keyword(token)
}

/// The value of a number token. None where it is malformed, or no number.
fn value(token: &[u8]) -> Option<u64> {
    let (radix, digits) = match token {
        [b'0', b'x' | b'X', digits @ ..] => (16u32, digits),
        [b'0', b'b' | b'B', digits @ ..] => (2, digits),
        [b'0', ..] => (8, token),
        _ => (10, token),
    };
    if digits.is_empty() {
        return None;
    }
    let mut value: u64 = 0;
    for digit in digits {
        let digit = (*digit as char).to_digit(radix)?;
        value = value
            .saturating_mul(u64::from(radix))
            .saturating_add(u64::from(digit));
    }
    Some(value)
}

/// The length of the blank or comment at the front, 0 where there is none.
fn blank_len(rest: &[u8], starts_line: bool) -> usize {
    let line = rest.iter().take_while(|byte| **byte != b'\n').count();
    match rest {
        [b' ' | b'\t' | b'\r' | b'\n', ..] => 1,
        [b';', ..] => line,
        [b'#', ..] if starts_line => line,
        [b'/', b'*', comment @ ..] => comment
            .windows(2)
            .position(|pair| pair == b"*/".as_slice())
            .map_or(0, |at| at.saturating_add(4)),
        _ => 0,
    }
}

/// The tokens before the first byte that is none, or the first malformed number, and that fault.
fn lex<'a>(
    alloc: Global,
    text: &'a [u8],
) -> Result<(Vec<Token<'a>>, Option<TextFault>), AllocError> {
    let mut tokens = Vec::new(alloc);
    let mut next = 0;
    let mut before = b'\n';
    for (at, byte) in text.iter().enumerate() {
        let starts_line = before == b'\n';
        before = *byte;
        if at < next {
            continue;
        }
        let rest = &text[at..];
        let blank = blank_len(rest, starts_line);
        if blank > 0 {
            next = at.saturating_add(blank);
            continue;
        }
        let word = rest.iter().take_while(|byte| is_word_byte(**byte)).count();
        let token = &rest[..word.max(1).min(rest.len())];
        if byte.is_ascii_digit() && value(token).is_none() {
            return Ok((tokens, Some(TextFault::Number { at })));
        }
        if word == 0 && !b":,#%[]()+-*&".contains(byte) {
            return Ok((tokens, Some(TextFault::Character { at })));
        }
        tokens.push((at, token))?;
        next = at.saturating_add(token.len());
    }
    Ok((tokens, None))
}

/// The token at an index. The last one is replaced by these bytes.
fn token_at<'a>(tokens: &[Token<'a>], at: usize, last: Option<&'a [u8]>) -> Option<Token<'a>> {
    let token = *tokens.get(at)?;
    match last {
        Some(bytes) if at.saturating_add(1) == tokens.len() => Some((token.0, bytes)),
        _ => Some(token),
    }
}

/// How the tokens from an index on fit a symbol, and the index after it.
fn symbol_fit<'a>(
    symbol: &str,
    tokens: &[Token<'a>],
    at: usize,
    last: Option<&'a [u8]>,
) -> (Fit, usize) {
    let Some(first) = token_at(tokens, at, last) else {
        return (Fit::Prefix, at);
    };
    let minus = is(first, "-");
    let most = if minus { 1 << 31 } else { u64::from(u32::MAX) };
    let is_signed = symbol == "n" && (is(first, "+") || minus) || symbol == "R" && is(first, "%");
    let index = at.saturating_add(usize::from(is_signed));
    let Some(token) = token_at(tokens, index, last) else {
        return (Fit::Prefix, index);
    };
    let fits = match symbol {
        "n" => value(token.1).is_some_and(|value| value <= most),
        "R" => is(token, "x"),
        "N" => is_name(token),
        "4" => value(token.1) == Some(4),
        "15" => value(token.1) == Some(15),
        _ => is(token, symbol),
    };
    (
        if fits { Fit::Whole } else { Fit::Not },
        index.saturating_add(1),
    )
}

/// How the tokens from an index on fit the symbols, one after the other, and the index after them.
fn symbols_fit<'a>(
    symbols: &str,
    tokens: &[Token<'a>],
    start: usize,
    last: Option<&'a [u8]>,
) -> (Fit, usize) {
    let mut at = start;
    for symbol in symbols.split_whitespace() {
        let (fit, next) = symbol_fit(symbol, tokens, at, last);
        if fit != Fit::Whole {
            return (fit, next);
        }
        at = next;
    }
    (Fit::Whole, at)
}

/// How the tokens fit a form, with a label or without.
fn form_fit<'a>(
    mnemonics: &str,
    form: &str,
    label: &str,
    tokens: &[Token<'a>],
    last: Option<&'a [u8]>,
) -> Fit {
    let (fit, at) = symbols_fit(label, tokens, 0, last);
    if fit != Fit::Whole {
        return fit;
    }
    let Some(first) = token_at(tokens, at, last) else {
        return Fit::Prefix;
    };
    if !mnemonics.split(' ').any(|word| is(first, word)) {
        return Fit::Not;
    }
    let (fit, end) = symbols_fit(form, tokens, at.saturating_add(1), last);
    if fit == Fit::Whole && end < tokens.len() {
        Fit::Not
    } else {
        fit
    }
}

/// How the tokens, where the last one is replaced by these bytes, fit the forms of statements.
fn best_fit<'a>(tokens: &[Token<'a>], last: Option<&'a [u8]>) -> Fit {
    let mut best = Fit::Not;
    for (mnemonics, form) in FORMS {
        for label in ["", "N :"] {
            match form_fit(mnemonics, form, label, tokens, last) {
                Fit::Whole => return Fit::Whole,
                Fit::Prefix => best = Fit::Prefix,
                Fit::Not => {}
            }
        }
    }
    best
}

/// The fault of the last token, with which no statement goes on.
fn fault_of<'a>(tokens: &[Token<'a>], token: Token<'a>) -> TextFault {
    let at = token.0;
    if is_keyword(token) && best_fit(tokens, Some(b"name_")) != Fit::Not {
        TextFault::ReservedLabel { at }
    } else if value(token.1).is_some() && best_fit(tokens, Some(b"0")) != Fit::Not {
        TextFault::Number { at }
    } else {
        TextFault::Form { at }
    }
}

/// The number of tokens of the statement at the front. The fault at the end of the tokens is `end`.
fn statement_len(tokens: &[Token<'_>], end: TextFault) -> Result<usize, TextFault> {
    if let [first, colon, ..] = tokens {
        if is(*colon, ":") && is_keyword(*first) {
            return Err(TextFault::ReservedLabel { at: first.0 });
        }
    }
    for (count, token) in tokens.iter().enumerate() {
        let so_far = &tokens[..count + 1];
        if best_fit(so_far, None) == Fit::Not {
            return if best_fit(&tokens[..count], None) == Fit::Whole {
                Ok(count)
            } else {
                Err(fault_of(so_far, *token))
            };
        }
    }
    if best_fit(tokens, None) == Fit::Whole {
        Ok(tokens.len())
    } else {
        Err(end)
    }
}

/// The byte offset of each statement, or the first fault.
pub fn slow_read(alloc: Global, text: &str) -> Result<Result<Vec<usize>, TextFault>, AllocError> {
    let (tokens, lexical) = lex(alloc, text.as_bytes())?;
    let end = lexical.unwrap_or(TextFault::Form { at: text.len() });
    let mut offsets = Vec::new(alloc);
    let mut next = 0;
    for (index, token) in tokens.iter().enumerate() {
        if index < next {
            continue;
        }
        match statement_len(&tokens.as_slice()[index..], end) {
            Ok(count) => next = index.saturating_add(count),
            Err(fault) => return Ok(Err(fault)),
        }
        offsets.push(token.0)?;
    }
    match lexical {
        Some(fault) => Ok(Err(fault)),
        None => Ok(Ok(offsets)),
    }
}
