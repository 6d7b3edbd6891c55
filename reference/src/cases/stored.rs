//! Stored results beside their sheets, as they were written and otherwise.

use super::*;
use crate::agree::agree;
use crate::lines::{joined_view, stored_case, StoredCase};
use crate::refusal::Refusal;
use crate::stored::{self, Answer};
use std::collections::BTreeMap;

/// Words written in hexadecimal.
fn words_of(text: &str) -> Vec<u32> {
    let words = text.split_whitespace();
    words
        .map(|word| u32::from_str_radix(word, 16).unwrap())
        .collect()
}

/// A sheet's words, and its opening in the literal way.
struct Filed {
    words: Vec<u32>,
    opening: Opening,
}

fn filed(sheet: &Sheet) -> Filed {
    Filed {
        words: sheet.words(),
        opening: literal::opening::opening(sheet, SMALL),
    }
}

/// The call's answer, the same as by both ways on a small grid and by the library.
fn view(filed: &Filed, stored: &[u32], round: u64) -> String {
    let Filed { words, opening } = filed;
    let slow = literal::stored::round(opening, stored, round);
    assert_eq!(slow, fast::stored::round(words, SMALL, stored, round));
    assert_eq!(slow, stored::round(words, stored, round));
    view_words(words, stored, round)
}

fn view_words(sheet: &[u32], stored: &[u32], round: u64) -> String {
    let count = sheet.len() as u64;
    let case = StoredCase {
        sheet: sheet.to_vec(),
        stored: stored.to_vec(),
        round,
    };
    answer_line(&joined_view(&case, count))
}

/// Numbers that no opening has rounds for; some would be a round's if they were cut down.
const FAR_PAST: [u64; 9] = [
    121,
    1 << 16,
    (1 << 16) + 1,
    (1 << 32) - 1,
    1 << 32,
    (1 << 32) + 1,
    1 << 63,
    u64::MAX - 1,
    u64::MAX,
];

/// The result opens beside the sheet, has these rounds and no others.
fn opens(sheet: &Sheet, stored: &str, rounds: &[&str]) {
    let (filed, stored) = (filed(sheet), words_of(stored));
    for (number, answer) in rounds.iter().enumerate() {
        assert_eq!(view(&filed, &stored, number as u64), *answer, "{number}");
    }
    let past = rounds.len() as u64;
    for number in [past, past + 1].into_iter().chain(FAR_PAST) {
        assert_eq!(view(&filed, &stored, number), "refused 9 0", "{number}");
    }
}

/// The result does not open beside the sheet, whichever round is asked for.
fn differs(filed: &Filed, stored: &[u32], place: usize) {
    for round in [0, 1, 2, 3, u64::MAX] {
        let answer = format!("different {place}");
        assert_eq!(view(filed, stored, round), answer, "{stored:x?}");
    }
    let opened = stored::opens(&filed.words, stored);
    assert_eq!(opened, Answer::Different(place));
}

fn p1() -> Sheet {
    sheet(&[basic(Buy, 10, 105), basic(Sell, 4, 95)])
}

/// Its first two rounds differ in the fills alone, and the third is blocked.
fn three() -> (Sheet, &'static str) {
    let words = "a0000000 b0000068 c0000068 d0000006 \
                 e0000005 e0000000 e0000000 e0000001 e0000006 e0000000 e0000000 \
                 a0000000 b0000068 c0000068 d0000006 \
                 e0000000 e0000005 e0000000 e0000001 e0000000 e0000006 e0000000 \
                 a0000000 b000005f c0000000 d0000000 \
                 e0000000 e0000000 e0000000 e0000000 e0000000 e0000000 e0000000 \
                 f0010003";
    (sheet(&three_pairs([108, 106, 104])), words)
}

/// The listing and the three rounds, each with its result.
fn both() -> [(Filed, Vec<u32>); 2] {
    let (sheet, text) = three();
    [
        (filed(&p1()), words_of(LISTED)),
        (filed(&sheet), words_of(text)),
    ]
}

#[test]
fn listing_viewed() {
    let rounds = ["0 105 105 4 4 4", "2 105 0 0 0 0"];
    opens(&p1(), LISTED, &rounds);
    for (number, round) in rounds.iter().enumerate() {
        let line = format!("view {number} 11 {LISTING} {LISTED}");
        assert_eq!(answer_line(&line), *round);
    }
    let line = format!("view 2 11 {LISTING} {LISTED}");
    assert_eq!(answer_line(&line), "refused 9 0");
}

#[test]
fn cases_viewed_in_one_round() {
    let none = "c0000000 d0000000";
    opens(
        &sheet(&[]),
        &format!("a0000004 b0000064 {none} f0000001"),
        &["4 100 0 0"],
    );
    opens(
        &sheet(&[basic(Buy, 5, 95), basic(Buy, 5, 80), basic(Sell, 10, 70)]),
        "a0000000 b0000050 c000005a d0000005 e0000005 e0000000 e0000005 f0020001",
        &["0 80 90 5 5 0 5"],
    );
    opens(
        &sheet(&[limited(Buy, 10, 105, true), basic(Sell, 4, 95)]),
        &format!("a0000000 b0000069 {none} e0000000 e0000000 f0010001"),
        &["0 105 0 0 0 0"],
    );
    for (limit, price) in [(104, 100), (97, 97)] {
        opens(
            &sheet(&[basic(Sell, 4, limit)]),
            &format!("a0000001 b{price:07x} {none} e0000000 f0000001"),
            &[&format!("1 {price} 0 0 0")],
        );
    }
    opens(
        &sheet(&[basic(Buy, 5, 95), basic(Sell, 5, 105)]),
        &format!("a0000003 b0000064 {none} e0000000 e0000000 f0000001"),
        &["3 100 0 0 0 0"],
    );
    // P9: the Stepper below the foremost buy, or ahead of it.
    for (ignored, price) in [(5, 104), (4, 105)] {
        let orders = [basic(Buy, 5, 104), basic(Buy, 3, 101)];
        let stepper = stepper(Buy, 7, 108, ignored);
        opens(
            &sheet(&[orders[0], orders[1], stepper]),
            &format!("a0000002 b{price:07x} {none} e0000000 e0000000 e0000000 f0000001"),
            &[&format!("2 {price} 0 0 0 0 0")],
        );
    }
    // P10: at 90 there is demand in the band, and I is the higher price; at 80 there is none.
    for (limit, situation) in [(108, 2), (80, 4)] {
        opens(
            &sheet(&[stepper(Buy, 7, limit, 0)]),
            &format!("a000000{situation} b0000064 {none} e0000000 f0000001"),
            &[&format!("{situation} 100 0 0 0")],
        );
    }
}

#[test]
fn cases_viewed_in_more_rounds() {
    opens(
        &sheet(&[basic(Buy, 4, 105), basic(Sell, 4, 95)]),
        "a0000000 b0000064 c0000064 d0000004 e0000004 e0000004 \
         a0000004 b0000064 c0000000 d0000000 e0000000 e0000000 f0000002",
        &["0 100 100 4 4 4", "4 100 0 0 0 0"],
    );
    opens(
        &sheet(&[basic(Buy, 3, 115), basic(Buy, 3, 120), basic(Sell, 3, 95)]),
        "a0000000 b000006e c000006e d0000003 e0000003 e0000000 e0000003 \
         a0000002 b000006e c0000000 d0000000 e0000000 e0000000 e0000000 f0000002",
        &["0 110 110 3 3 0 3", "2 110 0 0 0 0 0"],
    );
    // The step word has no part in the result but for what it does to the prices.
    opens(
        &sheet_by(3, &price_by_step()),
        "a0000000 b0000068 c0000068 d0000005 e0000000 e0000005 e0000005 \
         a0000002 b0000068 c0000000 d0000000 e0000000 e0000000 e0000000 f0000002",
        &["0 104 104 5 0 5 5", "2 104 0 0 0 0 0"],
    );
    let (sheet, stored) = three();
    opens(
        &sheet,
        stored,
        &[
            "0 104 104 6 5 0 0 1 6 0 0",
            "0 104 104 6 0 5 0 1 0 6 0",
            "0 95 0 0 0 0 0 0 0 0 0",
        ],
    );
}

#[test]
fn figures_of_the_largest_size() {
    // A million pieces at the grid's last price, which is H.
    let head = [999_998, 1_000_000, 1_000_000, 999_999];
    let orders = [
        basic(Sell, 1_000_000, 1_000_000),
        basic(Buy, 1_000_000, 1_000_000),
    ];
    let sheet = sheet_at(head, 1_000, &orders);
    let stored = words_of(
        "a0000000 b00f4240 c00f4240 d00f4240 e00f4240 e00f4240 \
         a0000004 b00f4240 c0000000 d0000000 e0000000 e0000000 f0000002",
    );
    let rounds = [
        "0 1000000 1000000 1000000 1000000 1000000",
        "4 1000000 0 0 0 0",
        "refused 9 0",
    ];
    for (number, round) in rounds.iter().enumerate() {
        let answer = view_words(&sheet.words(), &stored, number as u64);
        assert_eq!(answer, *round);
    }
}

#[test]
fn views_of_the_stored_list() {
    let (sheet, text) = three();
    let (words, stored) = (sheet.words(), words_of(text));
    let Answer::Open(view) = stored::opens(&words, &stored) else {
        panic!("it does not open");
    };
    assert_eq!((view.orders(), view.rounds(), view.ending()), (7, 3, 1));
    for (round, begin) in [(0, 4), (1, 15), (2, 26)] {
        let fills = view.fill_words(round).unwrap();
        // No copy, but a part of the list that was handed in.
        assert!(std::ptr::eq(fills, &stored[begin..begin + 7]));
    }
    let nine = Refusal {
        number: 9,
        place: 0,
    };
    for round in [3, 4, u64::MAX] {
        assert_eq!(view.fill_words(round), Err(nine));
        assert_eq!(view.round(round), Err(nine));
    }
    // Without orders there are no fills to lend on.
    let (words, stored) = (super::sheet(&[]).words(), [4, 100, 0, 0, 1]);
    let kinds = [10, 11, 12, 13, 15];
    let stored: Vec<u32> = (0..5).map(|k| kinds[k] << 28 | stored[k]).collect();
    let Answer::Open(view) = stored::opens(&words, &stored) else {
        panic!("it does not open");
    };
    assert_eq!((view.orders(), view.rounds(), view.ending()), (0, 1, 0));
    assert_eq!(view.fill_words(0), Ok(&[][..]));
    assert_eq!(view.fill_words(1), Err(nine));
}

#[test]
fn every_word_counts() {
    for (filed, stored) in both() {
        for place in 0..stored.len() {
            let word = stored[place];
            for other in [word ^ 1, word ^ 1 << 16, word ^ 1 << 27, word ^ 1 << 31, 0] {
                let mut changed = stored.clone();
                changed[place] = other;
                differs(&filed, &changed, place);
                // What comes behind the first difference does not matter.
                changed[stored.len() - 1] = 0;
                differs(&filed, &changed, place);
                changed.truncate(place + 1);
                differs(&filed, &changed, place);
            }
        }
    }
}

#[test]
fn lists_of_other_lengths() {
    for (filed, stored) in both() {
        // Cut short, first of all to nothing.
        for length in 0..stored.len() {
            differs(&filed, &stored[..length], length);
        }
        let length = stored.len();
        for more in [&[0][..], &stored[length - 1..], &stored[..1], &stored] {
            differs(&filed, &[&stored[..], more].concat(), length);
        }
    }
    let length = words_of(LISTED).len();
    assert_eq!(length, 13);
    assert_eq!(answer_line(&format!("view 0 11 {LISTING}")), "different 0");
    assert_eq!(
        answer_line(&format!("view 0 11 {LISTING} {LISTED} f0000002")),
        "different 13"
    );
    // A round of zeros more, or a round less, each with the count to match.
    let zeros = "a0000002 b0000069 c0000000 d0000000 e0000000 e0000000";
    let more = LISTED.replace("f0000002", &format!("{zeros} f0000003"));
    differs(&filed(&p1()), &words_of(&more), 12);
    let less = LISTED.replace(zeros, "").replace("f0000002", "f0000001");
    differs(&filed(&p1()), &words_of(&less), 6);
}

#[test]
fn lists_with_words_moved() {
    let listed = words_of(LISTED);
    // The auction price and the purchase price, which differ in kind alone.
    let mut moved = listed.clone();
    moved.swap(1, 2);
    differs(&filed(&p1()), &moved, 1);
    // Two fills of the same pieces cannot be told apart.
    let mut moved = listed.clone();
    moved.swap(4, 5);
    opens(
        &p1(),
        &hexadecimal(&moved, " "),
        &["0 105 105 4 4 4", "2 105 0 0 0 0"],
    );
    let (sheet, text) = three();
    let (filed, stored) = (filed(&sheet), words_of(text));
    // Which two rounds change places, and where this is seen first.
    for (one, other, place) in [(0, 1, 4), (1, 2, 12), (0, 2, 1)] {
        let mut moved = stored.clone();
        for word in 0..11 {
            moved.swap(11 * one + word, 11 * other + word);
        }
        differs(&filed, &moved, place);
    }
    // The ending of another opening, and another count.
    for last in [0xf000_0003, 0xf002_0003, 0xf001_0002, 0xf001_0004] {
        let mut moved = stored.clone();
        moved[33] = last;
        differs(&filed, &moved, 33);
    }
}

/// The sheet with another last purchase price.
fn from_last(last: u32, sheet: Sheet) -> Sheet {
    Sheet {
        last_purchase: Price(last),
        ..sheet
    }
}

#[test]
fn results_of_other_sheets() {
    let listed = words_of(LISTED);
    let rows = [
        (basic(Buy, 10, 106), basic(Sell, 4, 95), 1),
        (basic(Buy, 10, 105), basic(Sell, 5, 95), 3),
        (basic(Buy, 10, 105), basic(Sell, 3, 95), 3),
        // Nothing is left to buy, and the last purchase price decides.
        (basic(Buy, 4, 105), basic(Sell, 4, 95), 1),
    ];
    for (one, other, place) in rows {
        differs(&filed(&sheet(&[one, other])), &listed, place);
    }
    // Sheets with fewer orders have fewer words in every round.
    differs(&filed(&sheet(&[])), &listed, 0);
    differs(&filed(&sheet(&[basic(Buy, 10, 105)])), &listed, 0);
    // By a step of 2 the Stepper stands at 103, not at 104.
    let by_3 = opening_by(3, &price_by_step()).words();
    differs(&filed(&sheet_by(2, &price_by_step())), &by_3, 1);
    let level = sheet(&[basic(Buy, 4, 105), basic(Sell, 4, 95)]);
    let stored = opening_of(&level).words();
    for last in [99, 101] {
        differs(&filed(&from_last(last, level.clone())), &stored, 1);
    }
}

#[test]
fn results_of_other_sheets_that_open() {
    // What has changed since P1 does not show in its result.
    let sheets = [
        sheet(&[basic(Buy, 11, 105), basic(Sell, 4, 95)]),
        sheet(&[basic(Buy, 10, 105), basic(Sell, 4, 94)]),
        sheet(&[basic(Sell, 4, 95), basic(Buy, 10, 105)]),
        from_last(99, p1()),
        from_last(101, p1()),
        p1().with_step(Some(QuotationStep(1_000))),
    ];
    for sheet in sheets {
        opens(&sheet, LISTED, &["0 105 105 4 4 4", "2 105 0 0 0 0"]);
    }
}

/// What follows the first four words, and the refusal.
const FAULTY_SHEETS: [(&str, &str); 8] = [
    ("", "refused 1 0"),
    ("60000001", "refused 2 0"),
    ("50000000 00000000", "refused 17 0"),
    ("50000079", "refused 4 0"),
    ("50000001 50000001 80000001 90000000", "refused 5 0"),
    (
        "50000002 60000000 80000001 90000000 73000001 80000000 90000001",
        "refused 6 1",
    ),
    (
        "50000002 60000000 80000001 90000000 70000001 80000000 90000001",
        "refused 7 1",
    ),
    ("50000001 60000001 80000001 90000001", "refused 8 0"),
];

#[test]
fn sheet_faults_come_first() {
    let mut sheets: Vec<(String, &str)> = FAULTY_SHEETS
        .map(|(after, refused)| (format!("{HEAD} {after}"), refused))
        .to_vec();
    sheets.push((String::new(), "refused 1 0"));
    sheets.push((head([0, 110, 100, 100]) + " 50000000", "refused 3 0"));
    sheets.push((head([100, 110, 100, 100]) + " 50000000", "refused 15 0"));
    let no_orders = "a0000004 b0000064 c0000000 d0000000 f0000001";
    for (sheet, refused) in sheets {
        let sheet = words_of(&sheet);
        for stored in ["", "0", no_orders, LISTED] {
            for round in [0, 1, 2, u64::MAX] {
                let answer = view_words(&sheet, &words_of(stored), round);
                assert_eq!(answer, refused, "{round}: {sheet:x?} {stored}");
            }
        }
    }
    // Then the words, then the number of the round.
    let (sheet, listed) = (p1().words(), words_of(LISTED));
    assert_eq!(view_words(&sheet, &listed[..12], 2), "different 12");
    assert_eq!(view_words(&sheet, &listed[..12], u64::MAX), "different 12");
    assert_eq!(view_words(&sheet, &listed, 2), "refused 9 0");
    assert_eq!(view_words(&sheet, &listed, u64::MAX), "refused 9 0");
}

#[test]
fn parts_cut_apart() {
    // The listing's 11 words and its result's 13, with so many of them taken for the sheet.
    let rows = [
        (0, "refused 1 0"),
        (1, "refused 1 0"),
        (4, "refused 1 0"),
        // By their number two orders are missing, or a part of them.
        (5, "refused 4 0"),
        (8, "refused 4 0"),
        (10, "refused 4 0"),
        (11, "0 105 105 4 4 4"),
        // As long as with a step word, where an order's first word stands.
        (12, "refused 17 0"),
        (13, "refused 4 0"),
        (14, "refused 4 0"),
        (23, "refused 4 0"),
        (24, "refused 4 0"),
        (25, "unreadable"),
        (26, "unreadable"),
        // 11 with a bit above the 32nd, and the largest number.
        ((1 << 32) + 11, "unreadable"),
        (u64::MAX, "unreadable"),
    ];
    for (count, answer) in rows {
        let line = format!("view 0 {count} {LISTING} {LISTED}");
        assert_eq!(answer_line(&line), answer, "{count}");
    }
    // A sheet with a step word and without its last word is by its length one without it.
    let stepped = sheet_by(1, &[basic(Buy, 10, 105), basic(Sell, 4, 95)]);
    let words = hexadecimal(&stepped.words(), " ");
    let rows = [
        (11, "refused 5 0"),
        (12, "0 105 105 4 4 4"),
        (13, "refused 4 0"),
    ];
    for (count, answer) in rows {
        let line = format!("view 0 {count} {words} {LISTED}");
        assert_eq!(answer_line(&line), answer, "{count}");
    }
    // Five words are a whole sheet.
    let no_orders = "a0000004 b0000064 c0000000 d0000000 f0000001";
    let line = |count: u32| format!("view 0 {count} {HEAD} 50000000 {no_orders}");
    assert_eq!(answer_line(&line(5)), "4 100 0 0");
    assert_eq!(answer_line(&line(4)), "refused 1 0");
    assert_eq!(answer_line(&line(6)), "refused 17 0");
}

#[test]
fn view_lines() {
    let unreadable = [
        "view",
        "view 0",
        "view 0 ",
        "view 0 1",
        "view 0 0 ",
        "view  0 0",
        "view 0  0",
        "view -1 0",
        "view 0 -1",
        "view a 0",
        "view 0 a",
        "view 18446744073709551616 0",
        "view 0 18446744073709551616",
        "view 0 1 1000005g",
        "view 0 0 1000005g",
        "view 0 0 01000005a",
        "view 0 0  1",
        "View 0 0",
    ];
    for line in unreadable {
        assert_eq!(answer_line(line), "unreadable", "{line}");
    }
    assert_eq!(answer_line("view 0 0"), "refused 1 0");
    assert_eq!(answer_line("view 18446744073709551615 0"), "refused 1 0");
    // Digits of either case, and fewer than eight where the others would be zeros.
    let sheet = format!("view 0 05 {HEAD} 50000000");
    let stored = "A0000004 B0000064 C0000000 D0000000 F0000001";
    assert_eq!(answer_line(&format!("{sheet} {stored}")), "4 100 0 0");
    let stored = "a0000004 b0000064 0 d0000000 f0000001";
    assert_eq!(answer_line(&format!("{sheet} {stored}")), "different 2");
}

#[test]
fn longest_view_line() {
    // 120 buys of one piece at 100 with a step word, and as many stored words as ever fit a space.
    let orders = " 60000064 80000001 90000000".repeat(120);
    let sheet = format!("{HEAD} 50000078 000003e8{orders}");
    let fills = " e0000000".repeat(120);
    let stored = format!("a0000002 b0000064 c0000000 d0000000{fills} f0000001");
    let zeros = " 00000000".repeat(15_005 - 125);
    let line = format!("view 0 366 {sheet} {stored}");
    assert_eq!(
        answer_line(&line),
        "2 100 0 0".to_string() + &" 0".repeat(120)
    );
    assert_eq!(answer_line(&(line + &zeros)), "different 125");
    let last = u64::MAX;
    let line = format!("view {last} 366 {sheet} {stored}{zeros}");
    assert_eq!(answer_line(&line), "different 125");
}

/// What a line of the kind comes to, in short.
fn sort_of(line: &str, answer: &str) -> String {
    let parts: Vec<&str> = line.split(' ').collect();
    let stored = match parts[2].parse::<usize>() {
        Ok(count) if count <= parts.len() - 3 => parts.len() - 3 - count,
        _ => return answer.to_string(),
    };
    let mut said = answer.split(' ');
    match said.next() {
        Some("refused") => format!("refused {}", said.next().unwrap()),
        Some("different") => {
            let place: usize = said.next().unwrap().parse().unwrap();
            let sorts = [("empty", stored == 0), ("ended", place == stored)];
            let sort = sorts.iter().find(|(_, so)| *so);
            format!("different, {}", sort.map_or("within", |(sort, _)| sort))
        }
        Some(situation) => format!("situation {situation}"),
        None => unreachable!(),
    }
}

#[test]
fn random_views_reach_all() {
    let mut random = Random::new(7);
    let kind = Kind::named("view").unwrap();
    let mut seen = BTreeMap::new();
    let (mut most_rounds, mut longest) = (0, 0);
    for _ in 0..6_000 {
        let line = line(&mut random, kind);
        assert!(line.starts_with("view ") && line.len() <= 150_000);
        let answer = answer_line(&line);
        *seen.entry(sort_of(&line, &answer)).or_insert(0) += 1;
        let rounds = line.split(' ').filter(|word| word.starts_with("a000"));
        most_rounds = most_rounds.max(rounds.count());
        longest = longest.max(line.split(' ').count());
    }
    let refused = [1, 2, 3, 4, 5, 6, 7, 8, 9, 15, 17].map(|number| format!("refused {number}"));
    let situations = [0, 1, 2, 3, 4].map(|number| format!("situation {number}"));
    let different = ["within", "ended", "empty"].map(|sort| format!("different, {sort}"));
    let unreadable = ["unreadable".to_string()];
    let all = [&refused[..], &situations, &different, &unreadable].concat();
    for sort in &all {
        assert!(
            seen.get(sort).is_some_and(|count| *count >= 10),
            "{sort}: {seen:?}"
        );
    }
    assert_eq!(seen.len(), all.len(), "{seen:?}");
    assert!(most_rounds >= 59, "{most_rounds}");
    assert!(longest >= 15_000, "{longest}");
}

#[test]
fn random_cases_in_their_shares() {
    let mut random = Random::new(7);
    let (mut open, mut last, mut first, mut later) = (0, 0, 0, 0);
    let (mut past, mut different, mut refused) = (0, 0, 0);
    let count = 4_000;
    for _ in 0..count {
        let case = stored_case(&mut random);
        let answer = stored::round(&case.sheet, &case.stored, case.round);
        let opened = stored::opens(&case.sheet, &case.stored);
        match (answer, opened) {
            (Answer::Open(_), Answer::Open(view)) => {
                open += 1;
                let rounds = view.rounds() as u64;
                last += u32::from(rounds > 2 && case.round == rounds - 1);
                first += u32::from(rounds > 2 && case.round == 0);
                later += u32::from(rounds > 2 && (1..rounds - 1).contains(&case.round));
            }
            (Answer::Refused(_), Answer::Open(view)) => {
                past += 1;
                assert!(case.round >= view.rounds() as u64);
            }
            (Answer::Different(one), Answer::Different(other)) => {
                different += 1;
                assert_eq!(one, other);
            }
            (Answer::Refused(one), Answer::Refused(other)) => {
                refused += 1;
                assert_eq!(one, other);
            }
            odd => panic!("{odd:?}"),
        }
    }
    assert!((count / 3..count / 2).contains(&open), "{open}");
    assert!((count / 10..count / 5).contains(&past), "{past}");
    assert!((count / 4..count / 2).contains(&different), "{different}");
    assert!((count / 12..count / 5).contains(&refused), "{refused}");
    assert!(
        last >= 30 && first >= 20 && later >= 60,
        "{last} {first} {later}"
    );
}

/// What is wrong with a list beside what was written, by as many names as fit.
fn faults(stored: &[u32], written: &[u32], orders: usize) -> Vec<&'static str> {
    let (length, stretch) = (written.len(), 4 + orders);
    let pairs = || stored.iter().zip(written).enumerate();
    let apart: Vec<usize> = pairs()
        .filter(|(_, (one, other))| one != other)
        .map(|(place, _)| place)
        .collect();
    let (begins, same_length) = (stored.starts_with(written), stored.len() == length);
    let one_word = apart.len() == 1 && same_length;
    let at = apart.first().copied().unwrap_or(0);
    let off = |place: usize| stored[place].wrapping_sub(written[place]);
    let by_one = one_word && [1, u32::MAX].contains(&off(at));
    let exchanged = match apart[..] {
        [one, other] => stored[one] == written[other] && stored[other] == written[one],
        _ => false,
    };
    let rounds = |words: &[u32]| {
        let mut rounds: Vec<_> = words.chunks(stretch).map(<[u32]>::to_vec).collect();
        rounds.sort();
        rounds
    };
    let moved = same_length && rounds(stored) == rounds(written);
    let ended = stored.last().is_some_and(|last| kind(*last) == 15);
    let more = stored.len().max(length) - length;
    let faults = vec![
        ("first word by one", by_one && at == 0),
        ("last word by one", by_one && at == length - 1),
        ("a fill by one", by_one && kind(written[at]) == 14),
        (
            "a figure by one",
            by_one && (11..=13).contains(&kind(written[at])),
        ),
        ("a kind", one_word && off(at) << 4 == 0),
        (
            "the ending",
            one_word && at == length - 1 && off(at) << 16 == 0,
        ),
        ("exchanged", exchanged && same_length),
        ("nothing", stored.is_empty()),
        ("all but a word", stored == &written[..length - 1]),
        ("half", stored == &written[..length / 2]),
        ("a word more", begins && more == 1),
        (
            "the last word again",
            begins && stored[length..] == written[length - 1..],
        ),
        ("a round more", begins && more == stretch),
        (
            "the whole space",
            begins && more > 0 && stored.len() == stretch * (orders + 1) + 1,
        ),
        ("15,005 words", stored.len() == 15_005),
        ("rounds moved", moved && !apart.is_empty()),
        (
            "another result",
            same_length && ended && apart.len() > 2 && !moved,
        ),
        ("another number of rounds", ended && !begins && !same_length),
    ];
    let found = faults.into_iter().filter(|(_, so)| *so);
    found.map(|(name, _)| name).collect()
}

/// Where the words were cut apart, if it was not at the end of the sheet.
fn cuts(case: &StoredCase) -> Option<&'static str> {
    let all = [&case.sheet[..], &case.stored].concat();
    let orders = value(*all.get(4)?) as usize;
    let lengths = [5 + 3 * orders, 6 + 3 * orders];
    let right = lengths.into_iter().find(|length| {
        let parts = all.split_at_checked(*length);
        parts.is_some_and(|(sheet, stored)| matches!(stored::opens(sheet, stored), Answer::Open(_)))
    })?;
    let cut = case.sheet.len();
    let cuts = [
        ("cut at 0", cut == 0),
        ("cut at the end", cut == all.len()),
        ("cut before", cut < right),
        ("cut behind", cut > right),
    ];
    cuts.into_iter().find(|(_, so)| *so).map(|(name, _)| name)
}

#[test]
fn random_cases_in_many_ways() {
    let mut random = Random::new(7);
    let mut seen: BTreeMap<&str, u32> = BTreeMap::new();
    for _ in 0..12_000 {
        let case = stored_case(&mut random);
        let mut names = Vec::from_iter(cuts(&case));
        if let Ok(sheet) = read(&case.sheet, Grid::DOCUMENT) {
            let written = fast::opening::opening(&sheet, Grid::DOCUMENT).words();
            names.extend(faults(&case.stored, &written, sheet.orders.len()));
        }
        for name in names {
            *seen.entry(name).or_insert(0) += 1;
        }
    }
    assert_eq!(seen.len(), 22, "{seen:?}");
    for (name, count) in &seen {
        let least = match *name {
            "15,005 words" => 4,
            // Some faults of a sheet leave it another one that is accepted.
            "another result" => 150,
            _ => 30,
        };
        assert!(*count >= least, "{name}: {seen:?}");
    }
}

#[test]
fn both_ways_on_random_results() {
    assert!(agree(300, 7));
}
