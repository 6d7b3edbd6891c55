//! Sheet: its words, its orders, and the checks that accept or refuse it.

use crate::refusal::*;
use std::iter::Sum;

/// The grid's last price; its first is 1.
pub const LAST_PRICE: u32 = 1_000_000;
pub const MOST_ORDERS: usize = 120;
pub const MOST_PIECES: u32 = 1_000_000;
/// The largest quotation step; the smallest is 1.
pub const MOST_STEP: u32 = 1_000;
/// The words that every heading has, up to the count of orders; a step word comes after them.
pub const HEADING_WORDS: usize = 5;
pub const STEP_PLACE: usize = HEADING_WORDS;
pub const ORDER_WORDS: usize = 3;

/// A price, in steps of ten hellers.
#[derive(Clone, Copy, Debug, PartialEq, Eq, PartialOrd, Ord)]
pub struct Price(pub u32);

/// A number of pieces.
#[derive(Clone, Copy, Debug, PartialEq, Eq, PartialOrd, Ord)]
pub struct Pieces(pub u64);

impl Sum for Pieces {
    fn sum<I: Iterator<Item = Pieces>>(parts: I) -> Pieces {
        Pieces(parts.map(|part| part.0).sum())
    }
}

/// The quotation step, which is a distance and no price: how many price steps a Stepper stands
/// from its best rival price.
#[derive(Clone, Copy, Debug, PartialEq, Eq)]
pub struct QuotationStep(pub u32);

impl QuotationStep {
    /// The one in force where a sheet has no step word.
    pub const USUAL: QuotationStep = QuotationStep(1);

    /// Its word is of kind 0; none if kind or value is wrong.
    fn read(word: u32) -> Option<QuotationStep> {
        let allowed = kind(word) == 0 && (1..=MOST_STEP).contains(&value(word));
        allowed.then_some(QuotationStep(value(word)))
    }
}

/// How the words of a sheet are laid out. Where its orders begin and how many words each has is
/// told here alone.
#[derive(Clone, Copy, Debug, PartialEq, Eq)]
pub enum Layout {
    Plain,
    /// With a step word behind the count.
    Stepped,
}

impl Layout {
    const ALL: [Layout; 2] = [Layout::Plain, Layout::Stepped];

    pub const fn has_step(self) -> bool {
        matches!(self, Layout::Stepped)
    }

    pub const fn orders_begin(self) -> usize {
        match self {
            Layout::Plain => HEADING_WORDS,
            Layout::Stepped => STEP_PLACE + 1,
        }
    }

    pub const fn order_words(self) -> usize {
        match self {
            Layout::Plain | Layout::Stepped => ORDER_WORDS,
        }
    }

    /// The words of a sheet with so many orders.
    pub const fn length(self, orders: usize) -> usize {
        self.orders_begin() + self.order_words() * orders
    }

    /// The layout that is as long with so many orders, allowed or not. No two of them are, so that
    /// the length alone tells which it is; none if the length is wrong.
    pub fn of_length(length: usize, orders: usize) -> Option<Layout> {
        let mut layouts = Layout::ALL.into_iter();
        layouts.find(|layout| layout.length(orders) == length)
    }
}

/// The grid, its last price a parameter so that small grids can be tried whole.
#[derive(Clone, Copy, Debug, PartialEq, Eq)]
pub struct Grid {
    pub last: u32,
}

impl Grid {
    pub const DOCUMENT: Grid = Grid { last: LAST_PRICE };

    /// Every price of the grid, lowest first.
    pub fn prices(self) -> impl Iterator<Item = Price> {
        (1..=self.last).map(Price)
    }

    /// The number as a price, if it lies on the grid.
    pub fn price(self, number: u64) -> Option<Price> {
        let on_grid = 1 <= number && number <= u64::from(self.last);
        on_grid.then_some(Price(number as u32))
    }
}

#[derive(Clone, Copy, Debug, PartialEq, Eq)]
pub enum Side {
    Buy,
    Sell,
}

/// Limit and disposition of an order, as one of three sorts: a Stepper always has a limit and
/// is never all-or-none, and it alone ignores pieces.
#[derive(Clone, Copy, Debug, PartialEq, Eq)]
pub enum Terms {
    WithoutLimit { all_or_none: bool },
    Limited { limit: Price, all_or_none: bool },
    Stepper { limit: Price, ignored: Pieces },
}

#[derive(Clone, Copy, Debug, PartialEq, Eq)]
pub struct Order {
    pub side: Side,
    pub terms: Terms,
    pub quantity: Pieces,
}

impl Order {
    pub fn is_all_or_none(&self) -> bool {
        match self.terms {
            Terms::WithoutLimit { all_or_none } | Terms::Limited { all_or_none, .. } => all_or_none,
            Terms::Stepper { .. } => false,
        }
    }

    pub fn is_stepper(&self) -> bool {
        matches!(self.terms, Terms::Stepper { .. })
    }

    /// The order's three words.
    pub fn words(&self) -> [u32; ORDER_WORDS] {
        let kind = match self.side {
            Side::Buy => 6,
            Side::Sell => 7,
        };
        let (disposition, limit, ignored) = match self.terms {
            Terms::WithoutLimit { all_or_none } => (u32::from(all_or_none), 0, 0),
            Terms::Limited { limit, all_or_none } => (u32::from(all_or_none), limit.0, 0),
            Terms::Stepper { limit, ignored } => (2, limit.0, ignored.0 as u32),
        };
        let first = word(kind, disposition << 24 | limit);
        [first, word(8, self.quantity.0 as u32), word(9, ignored)]
    }
}

/// An accepted sheet.
#[derive(Clone, Debug, PartialEq, Eq)]
pub struct Sheet {
    /// D, the lower band bound.
    pub lower: Price,
    /// H, the upper band bound.
    pub upper: Price,
    pub last_purchase: Price,
    /// I, the indicative price.
    pub indicative: Price,
    /// What the step word says, if there is one.
    pub step: Option<QuotationStep>,
    pub orders: Vec<Order>,
}

impl Sheet {
    /// The words from which the sheet is read.
    pub fn words(&self) -> Vec<u32> {
        let heading = [
            word(1, self.lower.0),
            word(2, self.upper.0),
            word(3, self.last_purchase.0),
            word(4, self.indicative.0),
            word(5, self.orders.len() as u32),
        ];
        let step = self.step.map(|step| word(0, step.0));
        let orders = self.orders.iter().flat_map(Order::words);
        heading.into_iter().chain(step).chain(orders).collect()
    }

    /// How far Steppers stand from their best rivals, by the step word or without it.
    pub fn step_in_force(&self) -> QuotationStep {
        self.step.unwrap_or(QuotationStep::USUAL)
    }

    /// The same sheet with another step word, or with none.
    pub fn with_step(&self, step: Option<QuotationStep>) -> Sheet {
        Sheet {
            step,
            ..self.clone()
        }
    }

    /// Whether a price lies in D..H.
    pub fn in_band(&self, price: Price) -> bool {
        self.lower <= price && price <= self.upper
    }
}

/// A word has its kind in the top 4 bits and its value in the other 28.
pub fn word(kind: u32, value: u32) -> u32 {
    assert!(kind < 16 && value < 1 << 28);
    kind << 28 | value
}

pub fn kind(word: u32) -> u32 {
    word >> 28
}

pub fn value(word: u32) -> u32 {
    word & 0x0fff_ffff
}

/// Checks the heading, then one order after the other; the first fault is the refusal.
pub fn read(words: &[u32], grid: Grid) -> Result<Sheet, Refusal> {
    let (mut sheet, layout) = read_heading(words, grid)?;
    let orders = words[layout.orders_begin()..].chunks(layout.order_words());
    for (number, three) in orders.enumerate() {
        let order = read_order(three, grid).map_err(|fault| Refusal {
            number: fault,
            place: number,
        })?;
        sheet.orders.push(order);
    }
    Ok(sheet)
}

/// Refusals 1, 2, 3, 15, 17, 4 in this order, each over all its words before the next. The sheet is
/// handed back without its orders, and with how to find them.
fn read_heading(words: &[u32], grid: Grid) -> Result<(Sheet, Layout), Refusal> {
    if words.len() < HEADING_WORDS {
        return Err(TOO_SHORT);
    }
    let heading = &words[..HEADING_WORDS];
    if heading
        .iter()
        .zip(1..)
        .any(|(w, expected)| kind(*w) != expected)
    {
        return Err(HEADING_KIND);
    }
    let price = |place: usize| grid.price(value(words[place]).into()).ok_or(HEADING_PRICE);
    let (lower, upper, last_purchase, indicative) = (price(0)?, price(1)?, price(2)?, price(3)?);
    if !(lower < indicative && indicative < upper) {
        return Err(HEADING_BAND);
    }
    let (layout, step) = read_layout(words)?;
    let sheet = Sheet {
        lower,
        upper,
        last_purchase,
        indicative,
        step,
        orders: Vec::new(),
    };
    Ok((sheet, layout))
}

/// Refusals 17 and 4. Where the length is that of a sheet with a step word, the sixth word is
/// judged as one, whatever else it may be, and before the count is found too high.
fn read_layout(words: &[u32]) -> Result<(Layout, Option<QuotationStep>), Refusal> {
    let count = value(words[4]) as usize;
    let layout = Layout::of_length(words.len(), count).ok_or(LENGTH)?;
    let step = match layout.has_step() {
        true => Some(QuotationStep::read(words[STEP_PLACE]).ok_or(HEADING_STEP)?),
        false => None,
    };
    if count > MOST_ORDERS {
        return Err(LENGTH);
    }
    Ok((layout, step))
}

/// Refusals 5, 6, 7, 8 of one order; the number is handed back alone.
fn read_order(three: &[u32], grid: Grid) -> Result<Order, u32> {
    let side = match kind(three[0]) {
        6 => Side::Buy,
        7 => Side::Sell,
        _ => return Err(ORDER_KIND),
    };
    if kind(three[1]) != 8 || kind(three[2]) != 9 {
        return Err(ORDER_KIND);
    }
    let (quantity, ignored) = (value(three[1]), value(three[2]));
    let terms = read_terms(value(three[0]), ignored, grid)?;
    if !(1..=MOST_PIECES).contains(&quantity) {
        return Err(ORDER_QUANTITY);
    }
    if ignored > MOST_PIECES || ignored > 0 && !matches!(terms, Terms::Stepper { .. }) {
        return Err(ORDER_IGNORED);
    }
    Ok(Order {
        side,
        terms,
        quantity: Pieces(quantity.into()),
    })
}

/// The top 4 of the 28 bits are the disposition: 0 for basic, 1 for all-or-none, 2 for Stepper.
/// The 24 below are the limit: a grid price, or 0 for none, which a Stepper may not have.
fn read_terms(first: u32, ignored: u32, grid: Grid) -> Result<Terms, u32> {
    let (disposition, entered) = (first >> 24, first & 0x00ff_ffff);
    let limit = grid.price(entered.into());
    if disposition > 2 || (entered != 0 && limit.is_none()) {
        return Err(ORDER_LIMIT);
    }
    let all_or_none = disposition == 1;
    match (disposition, limit) {
        (2, None) => Err(ORDER_LIMIT),
        (2, Some(limit)) => Ok(Terms::Stepper {
            limit,
            ignored: Pieces(ignored.into()),
        }),
        (_, None) => Ok(Terms::WithoutLimit { all_or_none }),
        (_, Some(limit)) => Ok(Terms::Limited { limit, all_or_none }),
    }
}
