//! The calls, one a line, and the opening program.

use crate::answer::{check_fee_spaces, check_space, hexadecimal, space_of_opening, space_of_round};
use crate::band::{indicative_price, next_band, widening};
use crate::fast::opening::{curves, first_round, limit_of_stepper, opening};
use crate::fees::Tariff;
use crate::refusal::{Refusal, INPUT};
use crate::sheet::{read, Grid, Layout, Price, MOST_ORDERS};
use crate::stored;
use crate::waiting::waiting;
use std::io::{BufRead, Write};

/// The bytes of a sheet with a step word and all 120 orders, 1,464.
const MOST_BYTES: usize = 4 * Layout::Stepped.length(MOST_ORDERS);

/// What a call's line may have, its newline left out: room for the longest sheet and for a stored
/// result as long as its whole space. The call's name and its numbers are not among the words.
const MOST_LINE_BYTES: usize = 150_000;
const MOST_LINE_WORDS: usize = 16_384;

const GRID: Grid = Grid::DOCUMENT;

/// An answer to a call, or its refusal.
type Answer = Result<String, Refusal>;

/// What the opening program prints for its input (01 'Listing'): the result words, one a line,
/// or the line of the refusal.
pub fn opening_program(bytes: &[u8]) -> String {
    match opening_of_bytes(bytes) {
        Ok(words) => hexadecimal(&words, "\n") + "\n",
        Err(refusal) => refusal.line() + "\n",
    }
}

fn opening_of_bytes(bytes: &[u8]) -> Result<Vec<u32>, Refusal> {
    let sheet = read(&words_of_bytes(bytes)?, GRID)?;
    Ok(opening(&sheet, GRID).words())
}

/// A sheet's words from a program's input, high byte first.
pub fn words_of_bytes(bytes: &[u8]) -> Result<Vec<u32>, Refusal> {
    if !bytes.len().is_multiple_of(4) || bytes.len() > MOST_BYTES {
        return Err(INPUT);
    }
    let four = |bytes: &[u8]| u32::from_be_bytes([bytes[0], bytes[1], bytes[2], bytes[3]]);
    Ok(bytes.chunks(4).map(four).collect())
}

/// Answers every line of the input. Remarks are passed on, empty lines skipped.
pub fn answer_lines(input: impl BufRead, mut output: impl Write) -> std::io::Result<()> {
    for line in input.split(b'\n') {
        let line = line?;
        if line.is_empty() {
            continue;
        }
        if line[0] == b'#' {
            output.write_all(&line)?;
            output.write_all(b"\n")?;
            continue;
        }
        let text = String::from_utf8_lossy(&line);
        writeln!(output, "{}", answer_line(&text))?;
    }
    output.flush()
}

/// One call's answer in one line.
pub fn answer_line(line: &str) -> String {
    match parts_of(line).and_then(|parts| answer(parts[0], &parts[1..])) {
        Some(Ok(text)) => text,
        Some(Err(refusal)) => refusal.line(),
        None => "unreadable".to_string(),
    }
}

/// What stands between the spaces; none if the line is too long. There is always a first one, be
/// it empty.
fn parts_of(line: &str) -> Option<Vec<&str>> {
    (line.len() <= MOST_LINE_BYTES).then(|| line.split(' ').collect())
}

/// None if the line cannot be read as a call.
fn answer(call: &str, parts: &[&str]) -> Option<Answer> {
    match call {
        "check" => Some(check(&words(parts)?)),
        "stepper" => with_number(parts, stepper),
        "curves" => with_number(parts, curves_at),
        "round" => with_number(parts, round_in),
        "opening" => with_number(parts, opening_in),
        "fees" => fees_from(parts),
        "waiting" => waiting_from(parts),
        "view" => view_from(parts),
        _ => band_call(call, &numbers(parts)?),
    }
}

/// The three calls that take numbers alone.
fn band_call(call: &str, numbers: &[u64]) -> Option<Answer> {
    match (call, numbers) {
        ("indicative", [lower, upper, traded, closing, auction]) => {
            let price = indicative_price((*lower, *upper), *traded, *closing, *auction);
            Some(price.map(|price| price.0.to_string()))
        }
        ("next", [code, indicative]) => Some(next_band(*code, *indicative).map(both)),
        ("widen", [lower, upper, side]) => Some(widening(*lower, *upper, *side).map(both)),
        _ => None,
    }
}

fn both((lower, upper): (Price, Price)) -> String {
    format!("{} {}", lower.0, upper.0)
}

/// A call that takes a number and then a sheet.
fn with_number(parts: &[&str], call: fn(u64, &[u32]) -> Answer) -> Option<Answer> {
    let (first, rest) = parts.split_first()?;
    Some(call(number(first)?, &words(rest)?))
}

/// The band's two numbers and then the words that the clock works off, if any.
fn waiting_from(parts: &[&str]) -> Option<Answer> {
    let [lower, upper, rest @ ..] = parts else {
        return None;
    };
    let answer = waiting(number(lower)?, number(upper)?, &words(rest)?);
    Some(answer.map(|waiting| waiting.line()))
}

/// The tariff's three figures and the sizes of the two spaces, and then a sheet.
fn fees_from(parts: &[&str]) -> Option<Answer> {
    let [rate, least, greatest, space, list, rest @ ..] = parts else {
        return None;
    };
    let tariff = Tariff {
        rate: number(rate)?,
        least: number(least)?,
        greatest: number(greatest)?,
    };
    let (space, list) = (number(space)?, number(list)?);
    Some(fees_in(tariff, space, list, &words(rest)?))
}

/// The number of a round and how many of the words that follow are the sheet; the others are the
/// stored result. There must be as many as the sheet is said to have.
fn view_from(parts: &[&str]) -> Option<Answer> {
    let [round, count, rest @ ..] = parts else {
        return None;
    };
    let (round, count) = (number(round)?, number(count)?);
    let both = words(rest)?;
    let (sheet, stored) = both.split_at_checked(usize::try_from(count).ok()?)?;
    Some(view(round, sheet, stored))
}

fn check(words: &[u32]) -> Answer {
    read(words, GRID)?;
    Ok("accepted".to_string())
}

fn stepper(k: u64, words: &[u32]) -> Answer {
    let sheet = read(words, GRID)?;
    let limit = limit_of_stepper(&sheet, GRID, k)?;
    Ok(limit.0.to_string())
}

fn curves_at(p: u64, words: &[u32]) -> Answer {
    let sheet = read(words, GRID)?;
    let [demand, supply, volume] = curves(&sheet, GRID, p)?;
    Ok(format!("{demand} {supply} {volume}"))
}

fn round_in(space: u64, words: &[u32]) -> Answer {
    let sheet = read(words, GRID)?;
    check_space(space, space_of_round(sheet.orders.len()))?;
    Ok(hexadecimal(&first_round(&sheet, GRID).words(), " "))
}

fn opening_in(space: u64, words: &[u32]) -> Answer {
    let sheet = read(words, GRID)?;
    check_space(space, space_of_opening(sheet.orders.len()))?;
    Ok(hexadecimal(&opening(&sheet, GRID).words(), " "))
}

/// The opening's words and, told apart by a word that is no number, the fees of its orders.
fn fees_in(tariff: Tariff, space: u64, list: u64, words: &[u32]) -> Answer {
    let sheet = read(words, GRID)?;
    tariff.check()?;
    check_fee_spaces(space, list, sheet.orders.len())?;
    let opening = opening(&sheet, GRID);
    let mut line = hexadecimal(&opening.words(), " ") + " fees";
    for fee in tariff.fees(&opening) {
        line += &format!(" {fee}");
    }
    Ok(line)
}

/// A result that differs gets an answer and not a refusal.
fn view(round: u64, sheet: &[u32], stored: &[u32]) -> Answer {
    match stored::round(sheet, stored, round) {
        stored::Answer::Refused(refusal) => Err(refusal),
        stored::Answer::Different(place) => Ok(format!("different {place}")),
        stored::Answer::Open(round) => Ok(round.line()),
    }
}

/// A decimal number of 64 bits, without sign.
fn number(text: &str) -> Option<u64> {
    if text.bytes().all(|byte| byte.is_ascii_digit()) {
        return text.parse().ok();
    }
    None
}

fn numbers(parts: &[&str]) -> Option<Vec<u64>> {
    parts.iter().map(|part| number(part)).collect()
}

/// A word: 1 to 8 hexadecimal digits.
fn word(text: &str) -> Option<u32> {
    if text.len() <= 8 && text.bytes().all(|byte| byte.is_ascii_hexdigit()) {
        return u32::from_str_radix(text, 16).ok();
    }
    None
}

fn words(parts: &[&str]) -> Option<Vec<u32>> {
    if parts.len() > MOST_LINE_WORDS {
        return None;
    }
    parts.iter().map(|part| word(part)).collect()
}
