//! A second engine for Waterbook, written from docs/MODEL.md, docs/FORMATS.md and
//! docs/REFUSALS.md alone. It reads `card.dat` in the current folder and a feed on standard
//! input, and prints the lines that docs/FORMATS.md describes.
//!
//! Amounts are u64. The largest product is N parts of the channel's ceiling, 2^20 × 8 × 10^12,
//! which is below 2^63.

use std::fs::File;
use std::io::{self, ErrorKind, Read, Write};
use std::process::ExitCode;

/// A fraction is a number of parts of this.
const N: u64 = 1 << 20;
/// Ceiling of the segment and of each storage on it, in microinches.
const SEGMENT_CEILING: u64 = 100_000_000;
/// Ceiling of the channel, and so of the basin, in acre-microinches.
const CHANNEL_CEILING: u64 = 8_000_000_000_000;
/// Most rain in an hour, in microinches.
const MOST_RAIN: u64 = 15_000_000;
/// Greatest evaporation demand in an hour, in microinches.
const MOST_DEMAND: u64 = 1_000_000;
/// Most rain in one book, in acre-microinches.
const MOST_BOOKED: u64 = 1_000_000_000_000_000;

// ---- Refusals ----

/// Why a card or a record is refused, with the place where it varies.
#[derive(Clone, Copy, Debug, PartialEq, Eq)]
enum Refusal {
    CardLength,
    UnknownName(usize),
    RepeatedName(usize),
    NotANumber(usize),
    OutOfRange(usize),
    RecordLength,
    UnknownLetter,
    NotZero(u32),
    NoSuchSegment(u8),
    RainAboveLimit(u8),
    DemandAboveLimit(u8),
    StorageFull(u8),
    BasinFull(u8),
    BookFull(u8),
}

impl Refusal {
    /// Number, layer and place.
    fn notice(self) -> [u64; 3] {
        match self {
            Refusal::CardLength => [1, 2, 0],
            Refusal::UnknownName(place) => [2, 2, place as u64],
            Refusal::RepeatedName(place) => [3, 2, place as u64],
            Refusal::NotANumber(place) => [4, 2, place as u64],
            Refusal::OutOfRange(place) => [5, 2, place as u64],
            Refusal::RecordLength => [11, 1, 0],
            Refusal::UnknownLetter => [12, 1, 0],
            Refusal::NotZero(place) => [13, 1, place.into()],
            Refusal::NoSuchSegment(segment) => [14, 4, segment.into()],
            Refusal::RainAboveLimit(segment) => [15, 5, segment.into()],
            Refusal::DemandAboveLimit(segment) => [16, 5, segment.into()],
            Refusal::StorageFull(segment) => [17, 3, segment.into()],
            Refusal::BasinFull(segment) => [18, 5, segment.into()],
            Refusal::BookFull(segment) => [19, 5, segment.into()],
        }
    }
}

// ---- The card ----

const CARD_BYTES: usize = 280;
const CARD_RECORD: usize = 20;
const NAME_BYTES: usize = 8;

/// The words of a card, in the order of `WORDS`.
#[derive(Clone, Copy)]
enum Word {
    Area,
    Impv,
    Cepsc,
    Uzsn,
    Lzsn,
    Infilt,
    Intfw,
    Lzetp,
    Deepfr,
    Agwetp,
    Ovk,
    Ifwk,
    Gwk,
    Chk,
}

/// Each word as it stands on a card, with its least and its greatest figure.
const WORDS: [(&[u8; NAME_BYTES], u64, u64); 14] = [
    (b"AREA    ", 1, 5_000),
    (b"IMPV    ", 0, 1_048_576),
    (b"CEPSC   ", 0, 400_000),
    (b"UZSN    ", 50_000, 2_000_000),
    (b"LZSN    ", 2_000_000, 15_000_000),
    (b"INFILT  ", 1_000, 500_000),
    (b"INTFW   ", 100, 1_000),
    (b"LZETP   ", 104_858, 943_718),
    (b"DEEPFR  ", 0, 524_288),
    (b"AGWETP  ", 0, 209_715),
    (b"OVK     ", 1, 100_000),
    (b"IFWK    ", 1, 1_048_576),
    (b"GWK     ", 1, 1_048_576),
    (b"CHK     ", 1, 1_048_576),
];

/// A checked card: a figure within its range for every word.
struct Card([u64; WORDS.len()]);

impl Card {
    fn read(bytes: &[u8]) -> Result<Card, Refusal> {
        if bytes.len() != CARD_BYTES {
            return Err(Refusal::CardLength);
        }
        let mut figures = [0; WORDS.len()];
        let mut seen = [false; WORDS.len()];
        for (i, record) in bytes.chunks_exact(CARD_RECORD).enumerate() {
            let name_place = CARD_RECORD * i;
            let figure_place = name_place + NAME_BYTES;
            let (name, figure) = record.split_at(NAME_BYTES);
            let word = WORDS
                .iter()
                .position(|(word, _, _)| word.as_slice() == name)
                .ok_or(Refusal::UnknownName(name_place))?;
            if seen[word] {
                return Err(Refusal::RepeatedName(name_place));
            }
            seen[word] = true;
            let figure = read_figure(figure).ok_or(Refusal::NotANumber(figure_place))?;
            let (_, least, most) = WORDS[word];
            if figure < least || figure > most {
                return Err(Refusal::OutOfRange(figure_place));
            }
            figures[word] = figure;
        }
        Ok(Card(figures))
    }

    fn figure(&self, word: Word) -> u64 {
        self.0[word as usize]
    }
}

/// Reads blanks and then at least one digit, to the end of the twelve bytes.
fn read_figure(bytes: &[u8]) -> Option<u64> {
    let blanks = bytes.iter().take_while(|&&byte| byte == b' ').count();
    let digits = &bytes[blanks..];
    if digits.is_empty() || !digits.iter().all(u8::is_ascii_digit) {
        return None;
    }
    Some(
        digits
            .iter()
            .fold(0, |figure, digit| 10 * figure + u64::from(digit - b'0')),
    )
}

// ---- The feed ----

const RECORD_BYTES: usize = 16;

#[derive(Clone, Copy, Debug, PartialEq, Eq)]
enum Record {
    Rain { segment: u8, rain: u32, demand: u32 },
    Turn,
    Closing,
}

impl Record {
    fn read(bytes: &[u8; RECORD_BYTES]) -> Result<Record, Refusal> {
        // As one number, byte i of the record is bits 8i and up.
        const NO_ARGUMENTS: u128 = !0xff;
        const RAIN_ARGUMENTS: u128 = 0xffff_ffff_0000_0000_0000_0000_ffff_0000;
        let bits = u128::from_le_bytes(*bytes);
        match bytes[0] {
            b'R' => {
                check_zero(bits & RAIN_ARGUMENTS)?;
                Ok(Record::Rain {
                    segment: bytes[1],
                    rain: (bits >> 32) as u32,
                    demand: (bits >> 64) as u32,
                })
            }
            b'T' => check_zero(bits & NO_ARGUMENTS).map(|()| Record::Turn),
            b'C' => check_zero(bits & NO_ARGUMENTS).map(|()| Record::Closing),
            _ => Err(Refusal::UnknownLetter),
        }
    }
}

/// Refuses at the first byte that is not zero.
fn check_zero(bits: u128) -> Result<(), Refusal> {
    match bits {
        0 => Ok(()),
        _ => Err(Refusal::NotZero(bits.trailing_zeros() / 8)),
    }
}

// ---- Figures ----

/// So many parts of N of an amount.
fn parts_of(parts: u64, amount: u64) -> u64 {
    parts * amount / N
}

/// The greatest c with c × c × c ≤ y × y, for y below 2^32.
fn root(y: u64) -> u64 {
    // (c + 1)^3 passes 2^64 for the greatest y.
    let cube = |c: u64| u128::from(c * c) * u128::from(c);
    let square = u128::from(y * y);
    let mut c = ((y * y) as f64).cbrt() as u64;
    while cube(c) > square {
        c -= 1;
    }
    while cube(c + 1) <= square {
        c += 1;
    }
    c
}

/// What a supply loses where the capacity rises evenly from 0 to `capacity`.
fn share(supply: u64, capacity: u64) -> u64 {
    if capacity == 0 {
        0
    } else if supply <= capacity {
        supply - supply * supply / (2 * capacity)
    } else {
        capacity - capacity / 2
    }
}

/// T(k): 65,536 times two to the power k / 16, its fraction dropped.
const SIXTEENTHS: [u64; 16] = [
    65_536, 68_437, 71_467, 74_631, 77_935, 81_386, 84_989, 88_752, 92_681, 96_785, 101_070,
    105_545, 110_217, 115_097, 120_193, 125_514,
];

fn power(e: usize) -> u64 {
    SIXTEENTHS[e % 16] << (e / 16)
}

/// Straight between its knots, flat after the last. The first knot stands at 0.
struct Curve<const K: usize> {
    knots: [Knot; K],
}

#[derive(Clone, Copy)]
struct Knot {
    at: u64,
    value: u64,
}

impl<const K: usize> Curve<K> {
    /// Each knot stands at `times` / `over` of the nominal content.
    fn new(nominal: u64, over: u64, knots: [(u64, u64); K]) -> Curve<K> {
        let place = |(times, value)| Knot {
            at: times * nominal / over,
            value,
        };
        Curve {
            knots: knots.map(place),
        }
    }

    fn value(&self, content: u64) -> u64 {
        // The first knot stands at 0, so a knot that lies ahead is never the first.
        let Some(ahead) = self.knots.iter().position(|knot| content < knot.at) else {
            return self.knots[K - 1].value;
        };
        let (from, to) = (self.knots[ahead - 1], self.knots[ahead]);
        let (along, width) = (content - from.at, to.at - from.at);
        if to.value >= from.value {
            from.value + (to.value - from.value) * along / width
        } else {
            from.value - (from.value - to.value) * along / width
        }
    }
}

/// Parts of N of slope water that the upper zone keeps, by its content.
fn upper_zone_curve(nominal: u64) -> Curve<7> {
    let knots = [
        (0, 1_048_576),
        (2, 990_321),
        (4, 524_288),
        (5, 116_508),
        (6, 16_384),
        (7, 1_677),
        (8, 134),
    ];
    Curve::new(nominal, 2, knots)
}

/// Parts of N of infiltration and percolation that reach groundwater, by the lower zone's content.
fn groundwater_curve(nominal: u64) -> Curve<6> {
    let knots = [
        (0, 0),
        (1, 38_836),
        (3, 524_288),
        (5, 932_067),
        (7, 1_032_192),
        (9, 1_046_898),
    ];
    Curve::new(nominal, 3, knots)
}

// ---- Storages ----

/// What a step answers, as depths or as volumes.
#[derive(Clone, Copy, Debug, PartialEq, Eq)]
struct Flows {
    release: u64,
    evaporated: u64,
    deep: u64,
}

impl Flows {
    fn over(self, area: u64) -> Flows {
        Flows {
            release: self.release * area,
            evaporated: self.evaporated * area,
            deep: self.deep * area,
        }
    }
}

/// Lets go a fixed part of what it holds.
struct Recession {
    rate: u64,
    content: u64,
}

impl Recession {
    fn new(rate: u64) -> Recession {
        Recession { rate, content: 0 }
    }

    fn step(&mut self, inflow: u64, demand: u64) -> Flows {
        let y = self.content + inflow;
        let evaporated = demand.min(y);
        let release = parts_of(self.rate, y - evaporated);
        self.content = y - evaporated - release;
        Flows {
            release,
            evaporated,
            deep: 0,
        }
    }
}

/// Overland flow.
struct Slope {
    rate: u64,
    content: u64,
}

impl Slope {
    fn new(rate: u64) -> Slope {
        Slope { rate, content: 0 }
    }

    fn step(&mut self, inflow: u64) -> Flows {
        let y = self.content + inflow;
        let release = y.min(self.rate * y * root(y) / 1_000_000_000);
        self.content = y - release;
        Flows {
            release,
            evaporated: 0,
            deep: 0,
        }
    }
}

/// Loses a part of its inflow deep, before a recession takes the rest.
struct Leak {
    loss: u64,
    below: Recession,
}

impl Leak {
    fn step(&mut self, inflow: u64, demand: u64) -> Flows {
        let lost = parts_of(self.loss, inflow);
        let flows = self.below.step(inflow - lost, demand);
        Flows {
            deep: lost + flows.deep,
            ..flows
        }
    }
}

// ---- The land ----

/// The figures of a card that rule the hour, and what follows from them alone.
struct Land {
    impv: u64,
    cepsc: u64,
    uzsn: u64,
    lzsn: u64,
    agwetp: u64,
    /// b and q for each m from 0 to 32.
    capacities: [Capacity; 33],
    upper: Curve<7>,
    groundwater: Curve<6>,
    /// INFILT × UZSN // 10^7
    percolation: u64,
    /// M of the lower zone's evaporation.
    reach: u64,
}

/// How much the ground could take: b by infiltration, q with interflow.
#[derive(Clone, Copy, Debug, PartialEq, Eq)]
struct Capacity {
    infiltration: u64,
    interflow: u64,
}

/// The contents of interception, upper zone and lower zone.
#[derive(Clone, Debug, Default, PartialEq, Eq)]
struct Zones {
    interception: u64,
    upper: u64,
    lower: u64,
}

/// The rain under its six headings.
#[derive(Clone, Debug, PartialEq, Eq)]
struct Headings {
    runoff: u64,
    interception: u64,
    infiltration: u64,
    interflow: u64,
    upper: u64,
    overland: u64,
}

/// One hour on the zones, and what it brings to groundwater and asks of it.
#[derive(Clone, Debug, PartialEq, Eq)]
struct Hour {
    rain: Headings,
    percolation: u64,
    to_lower: u64,
    to_groundwater: u64,
    evaporated: u64,
    groundwater_demand: u64,
}

impl Land {
    fn new(card: &Card) -> Land {
        let uzsn = card.figure(Word::Uzsn);
        let lzsn = card.figure(Word::Lzsn);
        let infilt = card.figure(Word::Infilt);
        let intfw = card.figure(Word::Intfw);
        Land {
            impv: card.figure(Word::Impv),
            cepsc: card.figure(Word::Cepsc),
            uzsn,
            lzsn,
            agwetp: card.figure(Word::Agwetp),
            capacities: std::array::from_fn(|m| Capacity::new(m, infilt, intfw)),
            upper: upper_zone_curve(uzsn),
            groundwater: groundwater_curve(lzsn),
            percolation: infilt * uzsn / 10_000_000,
            reach: 250_000 * N / (24 * (N - card.figure(Word::Lzetp))),
        }
    }

    fn hour(&self, zones: &mut Zones, rain: u64, demand: u64) -> Hour {
        let rain = self.divide(zones, rain);
        zones.interception += rain.interception;
        zones.upper += rain.upper;

        let percolation = self.percolate(zones);
        zones.upper -= percolation;

        let seeping = rain.infiltration + percolation;
        let to_groundwater = parts_of(self.groundwater.value(zones.lower), seeping);
        let to_lower = seeping - to_groundwater;
        zones.lower += to_lower;

        let left = self.evaporate(zones, demand);
        Hour {
            rain,
            percolation,
            to_lower,
            to_groundwater,
            evaporated: demand - left,
            groundwater_demand: parts_of(self.agwetp, left),
        }
    }

    /// Parts 1 to 5, with the zones as the hour began.
    fn divide(&self, zones: &Zones, rain: u64) -> Headings {
        let runoff = parts_of(self.impv, rain);
        let interception = (rain - runoff).min(self.cepsc - zones.interception);
        let supply = rain - runoff - interception;
        let capacity = self.capacity(zones.lower);
        let infiltration = share(supply, capacity.infiltration);
        let below_slope = share(supply, capacity.interflow);
        let slope_water = supply - below_slope;
        let upper = parts_of(self.upper.value(zones.upper), slope_water);
        Headings {
            runoff,
            interception,
            infiltration,
            interflow: below_slope - infiltration,
            upper,
            overland: slope_water - upper,
        }
    }

    fn capacity(&self, lower: u64) -> Capacity {
        let m = (16 * lower / self.lzsn).min(32);
        self.capacities[m as usize]
    }

    /// Part 6, with the upper zone as part 5 left it and the lower as the hour began.
    fn percolate(&self, zones: &Zones) -> u64 {
        let upper = 1_024 * zones.upper / self.uzsn;
        let lower = 1_024 * zones.lower / self.lzsn;
        let d = upper.saturating_sub(lower).min(4_096);
        zones.upper.min((self.percolation * d * d * d) >> 30)
    }

    /// Part 8 for the zones; answers the demand that is left. A basin asks for less than 10^8.
    fn evaporate(&self, zones: &mut Zones, demand: u64) -> u64 {
        let mut left = demand;
        left -= take(&mut zones.interception, left);
        left -= take(&mut zones.upper, left);
        let asked = share(left, self.reach * zones.lower / self.lzsn);
        left - take(&mut zones.lower, asked)
    }
}

/// Takes what is asked, or all there is.
fn take(content: &mut u64, asked: u64) -> u64 {
    let taken = asked.min(*content);
    *content -= taken;
    taken
}

impl Capacity {
    fn new(m: usize, infilt: u64, intfw: u64) -> Capacity {
        let e = if m <= 16 { 4 * m } else { 32 + 2 * m };
        let infiltration = 32 * infilt * 65_536 / power(e);
        let interflow = (intfw * power(m) / 100) * infiltration / 65_536;
        Capacity {
            infiltration,
            interflow,
        }
    }
}

/// The land over its three storages.
struct Segment {
    land: Land,
    zones: Zones,
    overland: Slope,
    interflow: Recession,
    groundwater: Leak,
}

impl Segment {
    fn new(card: &Card) -> Segment {
        Segment {
            land: Land::new(card),
            zones: Zones::default(),
            overland: Slope::new(card.figure(Word::Ovk)),
            interflow: Recession::new(card.figure(Word::Ifwk)),
            groundwater: Leak {
                loss: card.figure(Word::Deepfr),
                below: Recession::new(card.figure(Word::Gwk)),
            },
        }
    }

    fn content(&self) -> u64 {
        self.zones.interception
            + self.zones.upper
            + self.zones.lower
            + self.overland.content
            + self.interflow.content
            + self.groundwater.below.content
    }

    /// The three storages are never full: what reaches them fits under the segment's ceiling.
    fn step(&mut self, rain: u64, demand: u64) -> Flows {
        let hour = self.land.hour(&mut self.zones, rain, demand);
        let overland = self.overland.step(hour.rain.overland);
        let interflow = self.interflow.step(hour.rain.interflow, 0);
        let groundwater = self
            .groundwater
            .step(hour.to_groundwater, hour.groundwater_demand);
        Flows {
            release: hour.rain.runoff + overland.release + interflow.release + groundwater.release,
            evaporated: hour.evaporated + groundwater.evaporated,
            deep: groundwater.deep,
        }
    }
}

// ---- The basin ----

/// A book. Nothing is drawn or poured in this program, so those two stay 0.
#[derive(Clone, Debug, Default, PartialEq, Eq)]
struct Book {
    opening: u64,
    rain: u64,
    streamflow: u64,
    evaporated: u64,
    deep: u64,
    drawn: u64,
    poured: u64,
}

struct Basin {
    area: u64,
    segment: Segment,
    channel: Recession,
    pocket: u64,
    book: Book,
}

impl Basin {
    fn new(card: &Card) -> Basin {
        Basin {
            area: card.figure(Word::Area),
            segment: Segment::new(card),
            channel: Recession::new(card.figure(Word::Chk)),
            pocket: 0,
            book: Book::default(),
        }
    }

    fn held(&self) -> u64 {
        self.area * self.segment.content() + self.pocket + self.channel.content
    }

    fn rain(&mut self, segment: u8, rain: u64, demand: u64) -> Result<Flows, Refusal> {
        if segment != 0 {
            return Err(Refusal::NoSuchSegment(segment));
        }
        if rain > MOST_RAIN {
            return Err(Refusal::RainAboveLimit(segment));
        }
        if demand > MOST_DEMAND {
            return Err(Refusal::DemandAboveLimit(segment));
        }
        if self.segment.content() + rain > SEGMENT_CEILING {
            return Err(Refusal::StorageFull(segment));
        }
        let new_water = rain * self.area;
        if self.held() + new_water > CHANNEL_CEILING {
            return Err(Refusal::BasinFull(segment));
        }
        if self.book.rain + self.book.poured + new_water > MOST_BOOKED {
            return Err(Refusal::BookFull(segment));
        }
        let flows = self.segment.step(rain, demand).over(self.area);
        self.pocket += flows.release;
        self.book.rain += new_water;
        self.book.evaporated += flows.evaporated;
        self.book.deep += flows.deep;
        Ok(flows)
    }

    fn turn(&mut self) -> Flows {
        let flows = self.channel.step(self.pocket, 0);
        self.pocket = 0;
        self.book.streamflow += flows.release;
        self.book.deep += flows.deep;
        flows
    }

    /// Answers the book and the water held at its end.
    fn close(&mut self) -> (Book, u64) {
        let held = self.held();
        let next = Book {
            opening: held,
            ..Book::default()
        };
        (std::mem::replace(&mut self.book, next), held)
    }

    /// Answers a record with its line.
    fn answer(&mut self, record: &[u8; RECORD_BYTES], lines: &mut Lines) {
        match Record::read(record) {
            Ok(Record::Rain {
                segment,
                rain,
                demand,
            }) => match self.rain(segment, rain.into(), demand.into()) {
                Ok(flows) => {
                    let Flows {
                        release,
                        evaporated,
                        deep,
                    } = flows;
                    lines.add(b'R', [segment.into(), release, evaporated, deep]);
                }
                Err(refusal) => lines.refuse(refusal),
            },
            Ok(Record::Turn) => {
                let flows = self.turn();
                lines.add(b'T', [flows.release, flows.deep]);
            }
            Ok(Record::Closing) => {
                let (book, held) = self.close();
                let Book {
                    opening,
                    rain,
                    streamflow,
                    evaporated,
                    deep,
                    drawn,
                    poured,
                } = book;
                let fields = [
                    opening, rain, streamflow, evaporated, deep, drawn, poured, held,
                ];
                lines.add(b'C', fields);
            }
            Err(refusal) => lines.refuse(refusal),
        }
    }
}

// ---- Lines ----

/// Lines that wait to be written.
#[derive(Default)]
struct Lines(Vec<u8>);

impl Lines {
    fn add<const F: usize>(&mut self, letter: u8, fields: [u64; F]) {
        self.0.push(letter);
        for field in fields {
            self.0.push(b' ');
            self.add_figure(field);
        }
        self.0.push(b'\n');
    }

    fn refuse(&mut self, refusal: Refusal) {
        self.add(b'X', refusal.notice());
    }

    fn add_figure(&mut self, mut figure: u64) {
        const MOST_DIGITS: usize = 20;
        let mut digits = [0; MOST_DIGITS];
        let mut from = MOST_DIGITS;
        while figure >= 100 {
            from -= 2;
            digits[from..from + 2].copy_from_slice(&PAIRS[(figure % 100) as usize]);
            figure /= 100;
        }
        let [ten, one] = PAIRS[figure as usize];
        from -= 1;
        digits[from] = one;
        if figure >= 10 {
            from -= 1;
            digits[from] = ten;
        }
        self.0.extend_from_slice(&digits[from..]);
    }

    fn write_to(&mut self, output: &mut impl Write) -> io::Result<()> {
        output.write_all(&self.0)?;
        self.0.clear();
        Ok(())
    }
}

/// The two digits of each number below 100.
const PAIRS: [[u8; 2]; 100] = {
    let mut pairs = [[0; 2]; 100];
    let mut i = 0;
    while i < 100 {
        pairs[i] = [b'0' + (i / 10) as u8, b'0' + (i % 10) as u8];
        i += 1;
    }
    pairs
};

// ---- The program ----

const BLOCK_BYTES: usize = 1 << 16;

/// Answers a whole feed: one read and one write for each block.
fn run(card: &[u8], input: &mut impl Read, output: &mut impl Write) -> io::Result<()> {
    let mut lines = Lines::default();
    let mut basin = match Card::read(card) {
        Ok(card) => Basin::new(&card),
        Err(refusal) => {
            lines.refuse(refusal);
            return lines.write_to(output);
        }
    };
    let mut block = vec![0; BLOCK_BYTES];
    let mut filled = 0;
    loop {
        match input.read(&mut block[filled..]) {
            Ok(0) => break,
            Ok(got) => filled += got,
            Err(error) if error.kind() == ErrorKind::Interrupted => continue,
            Err(error) => return Err(error),
        }
        let (records, rest) = block[..filled].as_chunks::<RECORD_BYTES>();
        for record in records {
            basin.answer(record, &mut lines);
        }
        let whole = filled - rest.len();
        block.copy_within(whole..filled, 0);
        filled -= whole;
        lines.write_to(output)?;
    }
    if filled > 0 {
        lines.refuse(Refusal::RecordLength);
    }
    lines.write_to(output)
}

/// The bytes of the card, none if it cannot be read. One byte too many is enough to refuse it.
fn load_card() -> Vec<u8> {
    let mut bytes = Vec::new();
    let read = File::open("card.dat")
        .and_then(|file| file.take(CARD_BYTES as u64 + 1).read_to_end(&mut bytes));
    match read {
        Ok(_) => bytes,
        Err(_) => Vec::new(),
    }
}

fn main() -> ExitCode {
    let arguments: Vec<String> = std::env::args().skip(1).collect();
    let done = match arguments
        .iter()
        .map(String::as_str)
        .collect::<Vec<_>>()
        .as_slice()
    {
        [] => run(
            &load_card(),
            &mut io::stdin().lock(),
            &mut io::stdout().lock(),
        )
        .map_err(|error| error.to_string()),
        ["--selftest"] => selftest::run(),
        _ => Err("usage: engine [--selftest], card.dat in this folder, a feed on input".into()),
    };
    match done {
        Ok(()) => ExitCode::SUCCESS,
        Err(message) => {
            eprintln!("engine: {message}");
            ExitCode::FAILURE
        }
    }
}

// ---- Selftest ----

/// The worked figures of the documents, and the laws that they name.
mod selftest {
    use super::*;
    use std::fmt::Debug;

    pub fn run() -> Result<(), String> {
        let mut test = Test {
            checks: 0,
            failures: 0,
        };
        test.roots();
        test.shares();
        test.powers();
        test.curves();
        test.storages();
        test.pencil_hour();
        test.dry_hour();
        test.cards();
        test.records();
        test.figures_in_lines();
        test.example_feed();
        test.books();
        println!("{} checks, {} failures", test.checks, test.failures);
        match test.failures {
            0 => Ok(()),
            _ => Err("selftest failed".into()),
        }
    }

    struct Test {
        checks: u32,
        failures: u32,
    }

    impl Test {
        fn same<T: PartialEq + Debug>(&mut self, what: &str, got: T, expected: T) {
            self.checks += 1;
            if got != expected {
                self.failures += 1;
                println!("{what}: got {got:?}, expected {expected:?}");
            }
        }

        fn holds(&mut self, what: &str, law: bool) {
            self.same(what, law, true);
        }

        fn roots(&mut self) {
            self.same("root 8", root(8), 4);
            self.same("root 9", root(9), 4);
            self.same("root 1,000,000", root(1_000_000), 10_000);
            self.same("greatest root", root(u32::MAX.into()), 2_642_245);
            let cubes = (0..1_625).flat_map(|a: u64| [a * a * a, a * a * a + 1]);
            let spread = (0..100_000).map(|i: u64| i * 42_949);
            for y in cubes.chain(spread) {
                let (c, y) = (u128::from(root(y)), u128::from(y));
                let law = c * c * c <= y * y && y * y < (c + 1) * (c + 1) * (c + 1);
                self.holds("law of the root", law);
            }
        }

        fn shares(&mut self) {
            self.same("share 500 of 500", share(500, 500), 250);
            self.same("share 501 of 500", share(501, 500), 250);
            self.same("share of no capacity", share(7, 0), 0);
            for x in 0..120 {
                self.holds("share is at most x", (0..120).all(|b| share(x, b) <= x));
                let grows = (0..120).all(|b| share(x, b) <= share(x, b + 1));
                self.holds("share grows with b", grows);
            }
        }

        fn powers(&mut self) {
            self.same("T(8)", SIXTEENTHS[8], 92_681);
            self.same("power(7)", power(7), 88_752);
            self.same("power(28)", power(28), 220_434);
            for (k, &t) in SIXTEENTHS.iter().enumerate() {
                let fits = |t| bits_of_sixteenth_power(t) <= 256 + k;
                self.holds("T by its definition", fits(t) && !fits(t + 1));
            }
            self.holds(
                "power never falls",
                (0..96).all(|e| power(e) <= power(e + 1)),
            );
        }

        fn curves(&mut self) {
            let knot = groundwater_curve(2_000_000).knots[3].at;
            self.same("5/3 of 2,000,000", knot, 3_333_333);
            let half = upper_zone_curve(1_000_000).value(500_000);
            self.same("upper zone at half", half, 1_019_449);
            let upper = upper_zone_curve(800_000).value(300_000);
            self.same("U(300,000)", upper, 1_026_731);
            let ground = groundwater_curve(13_500_000).value(6_000_000);
            self.same("G(6,000,000)", ground, 119_744);
            for nominal in [50_000, 50_001, 777_777, 1_999_999, 2_000_000] {
                self.through_knots(&upper_zone_curve(nominal));
            }
            for nominal in [2_000_000, 2_000_001, 7_777_777, 14_999_999, 15_000_000] {
                self.through_knots(&groundwater_curve(nominal));
            }
        }

        fn through_knots<const K: usize>(&mut self, curve: &Curve<K>) {
            let apart = curve.knots.windows(2).all(|pair| pair[0].at < pair[1].at);
            self.holds("knots stand apart", apart);
            for knot in curve.knots {
                self.same("value at a knot", curve.value(knot.at), knot.value);
            }
            let last = curve.knots[K - 1];
            self.same("flat after the last", curve.value(last.at + 1), last.value);
            self.same("flat far out", curve.value(SEGMENT_CEILING), last.value);
        }

        fn storages(&mut self) {
            let release = |release| Flows {
                release,
                evaporated: 0,
                deep: 0,
            };
            let mut slope = Slope::new(100_000);
            self.same("steep slope", slope.step(1_000_000), release(1_000_000));
            self.same("steep slope left", slope.content, 0);
            let mut slope = Slope::new(1_000);
            self.same("slope", slope.step(1_000_000), release(10_000));
            self.same("slope left", slope.content, 990_000);

            let mut channel = Recession::new(524_288);
            self.same("channel", channel.step(10_000, 0), release(5_000));
            self.same("channel left", channel.content, 5_000);
            let answer = Flows {
                release: 2_400,
                evaporated: 200,
                deep: 0,
            };
            self.same("recession with a demand", channel.step(0, 200), answer);
            let answer = Flows {
                release: 0,
                evaporated: 2_400,
                deep: 0,
            };
            self.same("demand above content", channel.step(0, 9_999), answer);

            let mut leak = Leak {
                loss: N / 2,
                below: Recession::new(N),
            };
            let answer = Flows {
                release: 3,
                evaporated: 1,
                deep: 4,
            };
            self.same("leak", leak.step(8, 1), answer);

            let full = Recession {
                rate: N,
                content: CHANNEL_CEILING,
            }
            .step(0, 0);
            self.same("channel at its ceiling", full, release(CHANNEL_CEILING));
        }

        /// "One hour with a pencil" of docs/MODEL.md.
        fn pencil_hour(&mut self) {
            let land = Land::new(&pencil_card());
            let mut zones = Zones {
                interception: 100_000,
                upper: 300_000,
                lower: 6_000_000,
            };
            let capacity = Capacity {
                infiltration: 178_382,
                interflow: 362_360,
            };
            self.same("b and q", land.capacity(zones.lower), capacity);
            self.same("INFILT × UZSN", land.percolation, 1_500);
            let hour = land.hour(&mut zones, 400_000, 4_908);
            let expected = Hour {
                rain: Headings {
                    runoff: 11_999,
                    interception: 50_000,
                    infiltration: 89_191,
                    interflow: 91_171,
                    upper: 154_354,
                    overland: 3_285,
                },
                percolation: 2,
                to_lower: 79_008,
                to_groundwater: 10_185,
                evaporated: 4_908,
                groundwater_demand: 0,
            };
            self.same("hour", hour, expected);
            let left = Zones {
                interception: 145_092,
                upper: 454_352,
                lower: 6_079_008,
            };
            self.same("zones after the hour", zones, left);
            self.same("share of 338,001", share(338_001, 362_360), 180_362);
        }

        /// The hour below the pencil's table: interception and upper zone are dry.
        fn dry_hour(&mut self) {
            let land = Land::new(&pencil_card());
            let mut zones = Zones {
                interception: 0,
                upper: 0,
                lower: 6_000_000,
            };
            self.same("M", land.reach, 11_666);
            self.same("M × l // LZSN", land.reach * zones.lower / land.lzsn, 5_184);
            let hour = land.hour(&mut zones, 0, 4_908);
            self.same("lower zone evaporates", hour.evaporated, 2_585);
            self.same("groundwater's demand", hour.groundwater_demand, 116);
            self.same("lower zone after", zones.lower, 6_000_000 - 2_585);
        }

        fn cards(&mut self) {
            let refusal = |card: &[u8]| Card::read(card).err().map(Refusal::notice);
            let card = example_card();
            self.same("example card", refusal(&card), None);
            self.same("no card", refusal(&[]), Some([1, 2, 0]));
            let repeated = String::from_utf8_lossy(&card).replace("IFWK", "GWK ");
            self.same("GWK twice", refusal(repeated.as_bytes()), Some([3, 2, 240]));
            self.same("leading zeros", read_figure(b"000000000010"), Some(10));
            for figure in [
                b"            ",
                b"          1 ",
                b"         +10",
                b"        1,0 ",
            ] {
                self.same("not a number", read_figure(figure), None);
            }
            for (i, &(_, least, most)) in WORDS.iter().enumerate() {
                let mut card = card.clone();
                let place = CARD_RECORD * i + NAME_BYTES;
                let mut refused_with = |figure: u64| {
                    let figure = format!("{figure:>12}");
                    card[place..place + 12].copy_from_slice(figure.as_bytes());
                    refusal(&card)
                };
                self.same("least", refused_with(least), None);
                self.same("most", refused_with(most), None);
                let outside = Some([5, 2, place as u64]);
                self.same("above the most", refused_with(most + 1), outside);
                if least > 0 {
                    self.same("below the least", refused_with(least - 1), outside);
                }
            }
        }

        fn records(&mut self) {
            let record = b"R\0\0\0\xe8\x03\0\0\x70\x11\x01\0\0\0\0\0";
            let rain = Record::Rain {
                segment: 0,
                rain: 1_000,
                demand: 70_000,
            };
            self.same("example record", Record::read(record), Ok(rain));
            for letter in [b'R', b'T', b'C'] {
                for place in 1..RECORD_BYTES {
                    let mut record = plain_record(letter);
                    record[place] = 0x80;
                    let free = letter == b'R' && matches!(place, 1 | 4..=11);
                    let expected = if free {
                        None
                    } else {
                        Some([13, 1, place as u64])
                    };
                    let got = Record::read(&record).err().map(Refusal::notice);
                    self.same("byte that must be zero", got, expected);
                }
            }
            let other = (0..=255).filter(|letter| !b"RTC".contains(letter));
            for letter in other {
                let got = Record::read(&[letter; RECORD_BYTES]);
                self.same("unknown letter", got, Err(Refusal::UnknownLetter));
            }
        }

        fn figures_in_lines(&mut self) {
            let powers = (0..20).map(|i| 10_u64.pow(i));
            for figure in powers
                .flat_map(|p| [p - 1, p, p + 1, p / 7 * 9])
                .chain([u64::MAX])
            {
                let mut lines = Lines::default();
                lines.add(b'T', [figure, 0]);
                let line = String::from_utf8_lossy(&lines.0).into_owned();
                self.same("line", line, format!("T {figure} 0\n"));
            }
        }

        /// The worked feed of docs/FORMATS.md.
        fn example_feed(&mut self) {
            let mut feed = Vec::new();
            feed.extend(rain_record(0, 1_000, 0));
            feed.extend(plain_record(b'T'));
            feed.extend(rain_record(1, 1_000, 0));
            feed.extend(plain_record(b'C'));
            let lines = "R 0 10000 0 0\nT 5000 0\nX 14 4 1\nC 0 10000 5000 0 0 0 0 5000\n";
            self.same(
                "example feed",
                answers(&example_card(), &feed),
                lines.into(),
            );
            feed.push(b'R');
            let cut = format!("{lines}X 11 1 0\n");
            self.same("short last record", answers(&example_card(), &feed), cut);
            self.same("empty feed", answers(&example_card(), &[]), String::new());
            self.same("refused card", answers(b"AREA", &feed), "X 1 2 0\n".into());
        }

        /// The sums of a book are equal and agree with a tally of the lines, on the card of
        /// the pencil's hour and on both ends of every range.
        fn books(&mut self) {
            let least = Card(WORDS.map(|(_, least, _)| least));
            let most = Card(WORDS.map(|(_, _, most)| most));
            let mut porous = Card(WORDS.map(|(_, _, most)| most));
            porous.0[Word::Impv as usize] = 0;
            for card in [least, most, porous, pencil_card()] {
                self.book_of(&card);
            }
        }

        fn book_of(&mut self, card: &Card) {
            let mut basin = Basin::new(card);
            let mut seed: u64 = 1;
            let mut tally = Book::default();
            for hour in 1..=5_000 {
                seed = seed.wrapping_mul(6_364_136_223_846_793_005).wrapping_add(1);
                let rain = if seed >> 62 == 0 {
                    (seed >> 32) % (MOST_RAIN + 1)
                } else {
                    0
                };
                let demand = (seed >> 20) % 60_000;
                if let Ok(flows) = basin.rain(0, rain, demand) {
                    tally.rain += rain * basin.area;
                    tally.evaporated += flows.evaporated;
                    tally.deep += flows.deep;
                    self.holds("demand", flows.evaporated <= demand * basin.area);
                }
                tally.streamflow += basin.turn().release;
                if hour % 24 == 0 {
                    let (book, held) = basin.close();
                    let out = book.streamflow + book.evaporated + book.deep;
                    self.same("sums of a book", book.opening + book.rain, out + held);
                    self.same("tally", &book, &tally);
                    tally = Book {
                        opening: held,
                        ..Book::default()
                    };
                }
            }
        }
    }

    fn answers(card: &[u8], mut feed: &[u8]) -> String {
        let mut output = Vec::new();
        super::run(card, &mut feed, &mut output).expect("memory is read and written");
        String::from_utf8_lossy(&output).into_owned()
    }

    fn plain_record(letter: u8) -> [u8; RECORD_BYTES] {
        let mut record = [0; RECORD_BYTES];
        record[0] = letter;
        record
    }

    fn rain_record(segment: u8, rain: u32, demand: u32) -> [u8; RECORD_BYTES] {
        let mut record = plain_record(b'R');
        record[1] = segment;
        record[4..8].copy_from_slice(&rain.to_le_bytes());
        record[8..12].copy_from_slice(&demand.to_le_bytes());
        record
    }

    fn example_card() -> Vec<u8> {
        let figures = [
            10, 1_048_576, 0, 50_000, 2_000_000, 1_000, 100, 104_858, 0, 0, 1, 1, 1, 524_288,
        ];
        let records = WORDS.iter().zip(figures);
        records
            .flat_map(|((word, _, _), figure)| {
                [word.as_slice(), format!("{figure:>12}").as_bytes()].concat()
            })
            .collect()
    }

    /// The figures that the pencil's hour does not name are anything within range.
    fn pencil_card() -> Card {
        Card([
            640, 31_457, 150_000, 800_000, 13_500_000, 18_750, 150, 112_347, 104_858, 52_429,
            2_000, 104_858, 4_000, 400_000,
        ])
    }

    /// Least k with t^16 ≤ 2^k, in limbs of 32 bits.
    fn bits_of_sixteenth_power(t: u64) -> usize {
        let mut limbs = vec![1_u64];
        for _ in 0..16 {
            let mut carry = 0;
            for limb in &mut limbs {
                let product = *limb * t + carry;
                *limb = product & 0xffff_ffff;
                carry = product >> 32;
            }
            limbs.push(carry);
        }
        let ones: u32 = limbs.iter().map(|limb| limb.count_ones()).sum();
        let top = limbs.iter().rposition(|&limb| limb != 0).unwrap_or(0);
        let bits = 32 * top + limbs[top].ilog2() as usize;
        if ones == 1 {
            bits
        } else {
            bits + 1
        }
    }
}
