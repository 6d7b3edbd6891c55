//! The archive program: a stored result beside its sheet, read out round by round.

use crate::answer::{space_of_opening, Round};
use crate::calls::words_of_bytes;
use crate::fast::stored::View;
use crate::refusal::Refusal;
use crate::sheet::{read, Grid, Pieces, Price, Sheet, Side, MOST_ORDERS};
use crate::stored::{opens, Answer};

/// The whole space of a result with all 120 orders, 15,005.
const MOST_WORDS: usize = space_of_opening(MOST_ORDERS) as usize;
/// Eight digits and the newline.
const LINE_BYTES: usize = 9;

const SITUATIONS: [&str; 5] = [
    "demand and supply meet at some price.",
    "the band has supply alone.",
    "the band has demand alone.",
    "the band has demand and supply, but at no price both.",
    "the band has neither demand nor supply.",
];

const ENDINGS: [&str; 3] = [
    "in the last round demand and supply met at no price.",
    "blocked. The last auction price was in the band, and nothing could be handed out.",
    "waiting begins. The last auction price was outside the band.",
];

/// What is printed for the bytes of a sheet and the text of a result.
pub fn archive_program(sheet: &[u8], result: &[u8]) -> String {
    match read_out(sheet, result) {
        Ok(text) => text,
        Err(refusal) => refusal.line() + "\n",
    }
}

/// The result's form is looked at only once the sheet is without fault.
fn read_out(sheet: &[u8], result: &[u8]) -> Result<String, Refusal> {
    let words = words_of_bytes(sheet)?;
    let sheet = read(&words, Grid::DOCUMENT)?;
    let Some(stored) = words_of_lines(result) else {
        return Ok(no_list());
    };
    match opens(&words, &stored) {
        Answer::Refused(refusal) => Err(refusal),
        Answer::Different(place) => Ok(difference(place)),
        Answer::Open(view) => all_rounds(&sheet, &view),
    }
}

/// The words of a result as the opening program prints it; none if any line has another form, the
/// last one included, or if they are too many.
fn words_of_lines(text: &[u8]) -> Option<Vec<u32>> {
    if text.len() > LINE_BYTES * MOST_WORDS {
        return None;
    }
    text.chunks(LINE_BYTES).map(word_of_line).collect()
}

fn word_of_line(line: &[u8]) -> Option<u32> {
    let (newline, digits) = line.split_last()?;
    let lower_case = |byte: &u8| matches!(byte, b'0'..=b'9' | b'a'..=b'f');
    if *newline != b'\n' || digits.len() != 8 || !digits.iter().all(lower_case) {
        return None;
    }
    let digits = std::str::from_utf8(digits).ok()?;
    u32::from_str_radix(digits, 16).ok()
}

fn no_list() -> String {
    format!(
        "The result is not as the opening program prints one: lines of eight digits, 0 to 9 or a \
         to f, each ended by a newline, at most {MOST_WORDS}.\n"
    )
}

/// Words are counted from 0, lines from 1.
fn difference(place: usize) -> String {
    let line = place + 1;
    format!(
        "The stored words are not those that the opening of this sheet writes by the rules of \
         this edition.\n\
         The first difference is at word {place}, counted from 0: line {line} of the result, or \
         its end.\n"
    )
}

fn all_rounds(sheet: &Sheet, view: &View) -> Result<String, Refusal> {
    let (orders, rounds, ending) = (view.orders(), view.rounds(), view.ending());
    let (lower, upper) = (sheet.lower.0, sheet.upper.0);
    let mut text = format!(
        "The stored words are those that the opening of this sheet writes.\n\
         Orders: {orders}. Rounds: {rounds}. Both are numbered from 0.\n\
         Prices count tens of hellers, and the band is from {lower} to {upper}.\n\
         Totals, and what an order buys or sells, are pieces; an order that gets none in a round \
         has no line there.\n"
    );
    for number in 0..rounds as u64 {
        text += &format!("\nRound {number}\n");
        text += &one_round(sheet, &view.round(number)?);
    }
    text += &format!("\nEnding {ending}: {}\n", ENDINGS[ending as usize]);
    Ok(text)
}

/// A round's figures, and who trades in it.
fn one_round(sheet: &Sheet, round: &Round) -> String {
    let situation = round.situation;
    let auction = in_money(round.auction_price);
    let purchase = round.purchase_price.map_or("none".to_string(), in_money);
    let mut text = format!(
        "Situation {situation}: {}\n\
         Auction price: {auction}.\n\
         Purchase price: {purchase}.\n\
         Total: {}.\n",
        SITUATIONS[situation as usize], round.total.0
    );
    for (number, (order, fill)) in sheet.orders.iter().zip(&round.fills).enumerate() {
        let does = match order.side {
            Side::Buy => "buys",
            Side::Sell => "sells",
        };
        if *fill > Pieces(0) {
            text += &format!("Order {number} {does} {}.\n", fill.0);
        }
    }
    text
}

/// A price as it is counted and in crowns. Ten steps are a crown, so that there are no single
/// hellers.
fn in_money(Price(steps): Price) -> String {
    format!("{steps}, or {}.{}0 crowns", steps / 10, steps % 10)
}
