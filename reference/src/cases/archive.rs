//! What the archive program prints.

use super::*;
use crate::archive::archive_program;

/// The program on a sheet and on the text of a result.
fn archived(sheet: &Sheet, result: &str) -> String {
    let bytes = bytes_of(&hexadecimal(&sheet.words(), " "));
    archive_program(&bytes, result.as_bytes())
}

/// Words with spaces between them as the lines of a result.
fn lines_of(words: &str) -> String {
    let words = words.split_whitespace();
    words.map(|word| format!("{word}\n")).collect()
}

/// The program reads out the opening's own words; the text follows the first line.
fn reads_out(sheet: &Sheet, text: &str) {
    let result = lines_of(&hexadecimal(&opening_of(sheet).words(), " "));
    let first = "The stored words are those that the opening of this sheet writes.\n";
    assert_eq!(archived(sheet, &result), format!("{first}{text}"));
}

/// Figures as large as real ones: the buy meets the last order, and the one between them is too dear.
fn three_orders() -> Sheet {
    let orders = [
        basic(Buy, 300, 1_010),
        basic(Sell, 100, 1_050),
        basic(Sell, 300, 1_000),
    ];
    let head = [900, 1_100, 1_005, 1_005];
    sheet_at(head, 1, &orders).with_step(None)
}

const THREE_ORDERS: &str = "a0000000 b00003ed c00003ed d000012c e000012c e0000000 e000012c \
                            a0000001 b00003ed c0000000 d0000000 e0000000 e0000000 e0000000 \
                            f0000002";

const READ_OUT: &str = "\
The stored words are those that the opening of this sheet writes.
Orders: 3. Rounds: 2. Both are numbered from 0.
Prices count tens of hellers, and the band is from 900 to 1100.
Totals, and what an order buys or sells, are pieces; an order that gets none in a round has no line there.

Round 0
Situation 0: demand and supply meet at some price.
Auction price: 1005, or 100.50 crowns.
Purchase price: 1005, or 100.50 crowns.
Total: 300.
Order 0 buys 300.
Order 2 sells 300.

Round 1
Situation 1: the band has supply alone.
Auction price: 1005, or 100.50 crowns.
Purchase price: none.
Total: 0.

Ending 0: in the last round demand and supply met at no price.
";

#[test]
fn archive_of_three_orders() {
    assert_eq!(archived(&three_orders(), &lines_of(THREE_ORDERS)), READ_OUT);
    // The opening program's own output is what it reads, with a step word as without.
    for step in [None, Some(QuotationStep(1_000))] {
        let sheet = three_orders().with_step(step);
        let printed = opening_program(&bytes_of(&hexadecimal(&sheet.words(), " ")));
        assert_eq!(archived(&sheet, &printed), READ_OUT);
    }
}

const ONE_ROUND: &str = "Rounds: 1. Both are numbered from 0.\n\
                         Prices count tens of hellers, and the band is from 90 to 110.\n\
                         Totals, and what an order buys or sells, are pieces; an order that gets \
                         none in a round has no line there.\n\nRound 0\n";

#[test]
fn archive_of_situations() {
    let none = "Purchase price: none.\nTotal: 0.\n";
    let hundred = "Auction price: 100, or 10.00 crowns.\n";
    let ending = "\nEnding 0: in the last round demand and supply met at no price.\n";
    let rows = [
        (
            vec![basic(Sell, 4, 104)],
            "Situation 1: the band has supply alone.\n",
        ),
        (
            vec![stepper(Buy, 7, 108, 0)],
            "Situation 2: the band has demand alone.\n",
        ),
        (
            vec![basic(Buy, 5, 95), basic(Sell, 5, 105)],
            "Situation 3: the band has demand and supply, but at no price both.\n",
        ),
        (
            Vec::new(),
            "Situation 4: the band has neither demand nor supply.\n",
        ),
    ];
    for (orders, situation) in rows {
        let count = orders.len();
        let text = format!("Orders: {count}. {ONE_ROUND}{situation}{hundred}{none}{ending}");
        reads_out(&sheet(&orders), &text);
    }
}

#[test]
fn archive_of_endings() {
    // P3 and P4.
    let text = "Situation 0: demand and supply meet at some price.\n\
                Auction price: 80, or 8.00 crowns.\n\
                Purchase price: 90, or 9.00 crowns.\n\
                Total: 5.\n\
                Order 0 buys 5.\n\
                Order 2 sells 5.\n\
                \n\
                Ending 2: waiting begins. The last auction price was outside the band.\n";
    reads_out(
        &sheet(&[basic(Buy, 5, 95), basic(Buy, 5, 80), basic(Sell, 10, 70)]),
        &format!("Orders: 3. {ONE_ROUND}{text}"),
    );
    let text = "Situation 0: demand and supply meet at some price.\n\
                Auction price: 105, or 10.50 crowns.\n\
                Purchase price: none.\n\
                Total: 0.\n\
                \n\
                Ending 1: blocked. The last auction price was in the band, and nothing could be \
                handed out.\n";
    reads_out(
        &sheet(&[limited(Buy, 10, 105, true), basic(Sell, 4, 95)]),
        &format!("Orders: 2. {ONE_ROUND}{text}"),
    );
}

#[test]
fn archive_of_three_rounds() {
    let traded = "Situation 0: demand and supply meet at some price.\n\
                  Auction price: 104, or 10.40 crowns.\n\
                  Purchase price: 104, or 10.40 crowns.\n\
                  Total: 6.\n";
    let text = format!(
        "Orders: 7. Rounds: 3. Both are numbered from 0.\n\
         Prices count tens of hellers, and the band is from 90 to 110.\n\
         Totals, and what an order buys or sells, are pieces; an order that gets none in a round \
         has no line there.\n\
         \n\
         Round 0\n\
         {traded}\
         Order 0 buys 5.\n\
         Order 3 buys 1.\n\
         Order 4 sells 6.\n\
         \n\
         Round 1\n\
         {traded}\
         Order 1 buys 5.\n\
         Order 3 buys 1.\n\
         Order 5 sells 6.\n\
         \n\
         Round 2\n\
         Situation 0: demand and supply meet at some price.\n\
         Auction price: 95, or 9.50 crowns.\n\
         Purchase price: none.\n\
         Total: 0.\n\
         \n\
         Ending 1: blocked. The last auction price was in the band, and nothing could be handed \
         out.\n"
    );
    reads_out(&sheet(&three_pairs([108, 106, 104])), &text);
}

#[test]
fn archive_of_prices() {
    // Without orders the auction price is the last purchase price, wherever that lies.
    let rows = [
        (1, "1, or 0.10 crowns."),
        (9, "9, or 0.90 crowns."),
        (10, "10, or 1.00 crowns."),
        (11, "11, or 1.10 crowns."),
        (100, "100, or 10.00 crowns."),
        (1_009, "1009, or 100.90 crowns."),
        (123_456, "123456, or 12345.60 crowns."),
        (999_999, "999999, or 99999.90 crowns."),
        (1_000_000, "1000000, or 100000.00 crowns."),
    ];
    for (price, text) in rows {
        let sheet = sheet_at([90, 110, price, 100], 1, &[]);
        let result = format!("a0000004\nb{price:07x}\nc0000000\nd0000000\nf0000001\n");
        let printed = archived(&sheet, &result);
        let line = format!("\nAuction price: {text}\nPurchase price: none.\n");
        assert!(printed.contains(&line), "{printed}");
    }
}

fn differs(sheet: &Sheet, result: &str, place: usize) {
    let line = place + 1;
    let text = format!(
        "The stored words are not those that the opening of this sheet writes by the rules of \
         this edition.\n\
         The first difference is at word {place}, counted from 0: line {line} of the result, or \
         its end.\n"
    );
    assert_eq!(archived(sheet, result), text, "{result}");
}

#[test]
fn archive_of_other_words() {
    let sheet = three_orders();
    let lines = lines_of(THREE_ORDERS);
    // A file without lines is a list without words.
    differs(&sheet, "", 0);
    for place in 0..15 {
        differs(&sheet, &lines[..9 * place], place);
        let mut changed = lines.clone().into_bytes();
        changed[9 * place + 7] ^= 1;
        differs(&sheet, std::str::from_utf8(&changed).unwrap(), place);
    }
    differs(&sheet, &(lines.clone() + "00000000\n"), 15);
    differs(&sheet, &(lines.clone() + &lines), 15);
    // As many lines as there may be.
    differs(&sheet, &"00000000\n".repeat(15_005), 0);
    let zeros = "00000000\n".repeat(15_005 - 15);
    differs(&sheet, &(lines + &zeros), 15);
}

const NO_LIST: &str =
    "The result is not as the opening program prints one: lines of eight digits, 0 to 9 or a to f, \
     each ended by a newline, at most 15005.\n";

#[test]
fn archive_of_no_list() {
    let sheet = three_orders();
    let lines = lines_of(THREE_ORDERS);
    let spoilt = [
        // The last newline is missing, or there is one too many, at either end.
        lines[..lines.len() - 1].to_string(),
        lines.clone() + "\n",
        "\n".to_string() + &lines,
        "\n".to_string(),
        // Digits too few or too many.
        lines.replace("b00003ed", "b0003ed"),
        lines.replace("b00003ed", "b000003ed"),
        lines.replace("b00003ed", ""),
        lines.clone() + "0\n",
        // Other digits, other characters, other ends of lines.
        lines.replace("b00003ed", "B00003ED"),
        lines.replace("b00003ed", "b00003eD"),
        lines.replace("b00003ed", "b00003eg"),
        lines.replace("b00003ed", "0xb00003"),
        lines.replace("b00003ed", "+00003ed"),
        lines.replace("b00003ed", " 00003ed"),
        lines.replace("b00003ed", "b0003é"),
        lines.replace('\n', "\r\n"),
        lines.replace('\n', " "),
        lines.replace('\n', ""),
        // The words are the same and their lines are not.
        lines.replacen('\n', " ", 1),
        lines.replacen("a0000000\nb", "a000000\n0b", 1),
        "refused 1 0\n".to_string(),
        // A line too many; as long as may be, or nearly, and no lines.
        "00000000\n".repeat(15_006),
        lines.clone() + &"00000000\n".repeat(15_006 - 15),
        "0".repeat(135_045),
        "\n".repeat(135_045),
        "00000000\n".repeat(15_005) + "0",
        "00000000\n".repeat(15_005) + "\n",
    ];
    for result in spoilt {
        assert_eq!(archived(&sheet, &result), NO_LIST, "{result}");
    }
    // No text at all.
    let bytes = bytes_of(&hexadecimal(&sheet.words(), " "));
    assert_eq!(archive_program(&bytes, &[0xff; 9]), NO_LIST);
    let with_text = [&[0xff; 8], &b"\n"[..]].concat();
    assert_eq!(archive_program(&bytes, &with_text), NO_LIST);
}

#[test]
fn archive_of_refused_sheets() {
    let results = [
        String::new(),
        lines_of(LISTED),
        "00000000\n".repeat(15_006),
        "no words".to_string(),
    ];
    let refused = |bytes: &[u8], refused: &str| {
        for result in &results {
            let printed = archive_program(bytes, result.as_bytes());
            assert_eq!(printed, format!("refused {refused}\n"));
            // As the opening program refuses them.
            assert_eq!(printed, opening_program(bytes));
        }
    };
    for length in [1, 3, 1_463, 1_465, 1_468, 100_000] {
        refused(&vec![0; length], "12 0");
    }
    refused(&[], "1 0");
    refused(&[0; 1_464], "2 0");
    refused(&bytes_of(LISTING)[..43], "12 0");
    refused(&bytes_of(LISTING)[..40], "4 0");
    for (words, number) in FAULTY_ORDERS {
        refused(&bytes_of(&format!("{HEAD} 50000002 {words}")), number);
    }
    // Whole again, the listing is read out or not, as its result goes.
    let bytes = bytes_of(LISTING);
    assert_eq!(archive_program(&bytes, b"no words"), NO_LIST);
    let printed = archive_program(&bytes, lines_of(LISTED).as_bytes());
    assert!(printed.starts_with("The stored words are those"));
}

#[test]
fn archive_of_the_longest() {
    // 120 sells of one piece at 90 and no buys, with a step word: 1,464 bytes.
    let orders = " 7000005a 80000001 90000000".repeat(120);
    let bytes = bytes_of(&format!("{HEAD} 50000078 00000001{orders}"));
    let printed = archive_program(&bytes, opening_program(&bytes).as_bytes());
    let text = format!(
        "The stored words are those that the opening of this sheet writes.\n\
         Orders: 120. {ONE_ROUND}\
         Situation 1: the band has supply alone.\n\
         Auction price: 90, or 9.00 crowns.\n\
         Purchase price: none.\n\
         Total: 0.\n\
         \n\
         Ending 0: in the last round demand and supply met at no price.\n"
    );
    assert_eq!(printed, text);
}
