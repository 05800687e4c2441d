//! A second program for scripts of calls, written from docs/MODEL.md, docs/FORMATS.md and
//! docs/REFUSALS.md alone. It reads a script on standard input and prints its lines.
//!
//! A figure of a script may be anything below 2^64. It is compared with the room or the water
//! that there is before it enters a sum or a product. After that, the largest product is N parts
//! of the greatest ceiling, 2^20 × 8 × 10^12, which is below 2^63.

use std::fmt;
use std::io::{self, BufRead, BufWriter, Write};
use std::mem;
use std::process::ExitCode;

/// A fraction is a number of parts of this.
pub const N: u64 = 1 << 20;
/// Greatest ceiling of a storage.
pub const MOST_CEILING: u64 = 8_000_000_000_000;
/// Ceiling of a slope, and greatest ceiling of a plot's storage, in microinches.
pub const PLOT_CEILING: u64 = 100_000_000;
pub const MOST_SLOPE_RATE: u64 = 100_000;
pub const MOST_LOSS: u64 = 524_288;
/// Most acres of a plot.
pub const MOST_AREA: u64 = 5_000;
/// Most segments of a bank.
const MOST_SEGMENTS: u64 = 16;
/// Most rain in an hour on a basin, in microinches.
pub const MOST_RAIN: u64 = 15_000_000;
/// Greatest evaporation demand in an hour on a basin, in microinches.
pub const MOST_DEMAND: u64 = 1_000_000;
/// Most rain and poured water in one book, in acre-microinches.
pub const MOST_BOOKED: u64 = 1_000_000_000_000_000;
/// Water in a delay stands in so many hours.
pub const HOURS: usize = 24;
/// A line is written only into a buffer of so many bytes.
pub const LINE_BYTES: u64 = 192;
/// Largest buffer that a question may name.
pub const MOST_BUFFER: u64 = 1_024;

// ---- Refusals ----

/// Why a call is refused, with the place where it varies.
#[derive(Clone, Copy, Debug, PartialEq, Eq)]
pub enum Refusal {
    StorageFigure,
    JoinedContents,
    PlotFigure,
    TooManySegments,
    OpeningAboveCeiling,
    NoSuchSegment(u64),
    RainAboveLimit(u64),
    DemandAboveLimit(u64),
    StorageFull(u64),
    BasinFull(u64),
    BookFull(u64),
    DrawAmount,
    EmptyParcel,
    ShortBuffer,
}

impl Refusal {
    /// Number, layer and place.
    pub fn notice(self) -> [u64; 3] {
        match self {
            Refusal::StorageFigure => [6, 3, 0],
            Refusal::JoinedContents => [7, 3, 0],
            Refusal::PlotFigure => [8, 4, 0],
            Refusal::TooManySegments => [9, 4, 0],
            Refusal::OpeningAboveCeiling => [10, 5, 0],
            Refusal::NoSuchSegment(segment) => [14, 4, segment],
            Refusal::RainAboveLimit(segment) => [15, 5, segment],
            Refusal::DemandAboveLimit(segment) => [16, 5, segment],
            Refusal::StorageFull(segment) => [17, 3, segment],
            Refusal::BasinFull(place) => [18, 5, place],
            Refusal::BookFull(place) => [19, 5, place],
            Refusal::DrawAmount => [20, 3, 0],
            Refusal::EmptyParcel => [21, 5, 0],
            Refusal::ShortBuffer => [22, 5, 0],
        }
    }

    /// The refusal of a pair whose second bank, behind so many segments, gave this one.
    fn behind(self, segments: u64) -> Refusal {
        match self {
            Refusal::NoSuchSegment(segment) => Refusal::NoSuchSegment(segment + segments),
            Refusal::StorageFull(segment) => Refusal::StorageFull(segment + segments),
            other => other,
        }
    }
}

/// Refuses where a rule is broken.
fn check(rule: bool, refusal: Refusal) -> Result<(), Refusal> {
    match rule {
        true => Ok(()),
        false => Err(refusal),
    }
}

// ---- Storages ----

/// What a step answers, as depths or as volumes.
#[derive(Clone, Copy, Debug, Default, PartialEq, Eq)]
pub struct Flows {
    pub release: u64,
    pub evaporated: u64,
    pub deep: u64,
}

impl Flows {
    fn over(self, area: u64) -> Flows {
        Flows {
            release: self.release * area,
            evaporated: self.evaporated * area,
            deep: self.deep * area,
        }
    }
}

/// The content of a storage is never above its ceiling.
pub trait Storage {
    fn content(&self) -> u64;
    fn ceiling(&self) -> u64;

    /// One hour with an inflow that there is room for.
    fn pass(&mut self, inflow: u64, demand: u64) -> Flows;

    fn room(&self) -> u64 {
        self.ceiling() - self.content()
    }

    fn step(&mut self, inflow: u64, demand: u64) -> Result<Flows, Refusal> {
        check(inflow <= self.room(), Refusal::StorageFull(0))?;
        Ok(self.pass(inflow, demand))
    }
}

/// A storage that allows draws.
pub trait Tapped: Storage {
    /// Takes an amount that is there.
    fn take(&mut self, amount: u64);

    fn draw(&mut self, amount: u64) -> Result<(), Refusal> {
        check(amount <= self.content(), Refusal::DrawAmount)?;
        self.take(amount);
        Ok(())
    }
}

/// So many parts of N of an amount.
fn parts_of(parts: u64, amount: u64) -> u64 {
    parts * amount / N
}

/// Lets go a fixed part of what it holds.
#[derive(Clone, Debug)]
pub struct Recession {
    rate: u64,
    ceiling: u64,
    content: u64,
}

impl Recession {
    pub fn new(rate: u64, ceiling: u64) -> Result<Recession, Refusal> {
        let within = (1..=N).contains(&rate) && ceiling <= MOST_CEILING;
        check(within, Refusal::StorageFigure)?;
        Ok(Recession {
            rate,
            ceiling,
            content: 0,
        })
    }
}

impl Storage for Recession {
    fn content(&self) -> u64 {
        self.content
    }

    fn ceiling(&self) -> u64 {
        self.ceiling
    }

    fn pass(&mut self, inflow: u64, demand: u64) -> Flows {
        let y = self.content + inflow;
        let evaporated = demand.min(y);
        let release = parts_of(self.rate, y - evaporated);
        self.content = y - evaporated - release;
        Flows {
            release,
            evaporated,
            deep: 0,
        }
    }
}

impl Tapped for Recession {
    fn take(&mut self, amount: u64) {
        self.content -= amount;
    }
}

/// Overland flow.
#[derive(Clone, Debug)]
pub struct Slope {
    rate: u64,
    content: u64,
}

impl Slope {
    pub fn new(rate: u64) -> Result<Slope, Refusal> {
        let within = (1..=MOST_SLOPE_RATE).contains(&rate);
        check(within, Refusal::StorageFigure)?;
        Ok(Slope { rate, content: 0 })
    }
}

impl Storage for Slope {
    fn content(&self) -> u64 {
        self.content
    }

    fn ceiling(&self) -> u64 {
        PLOT_CEILING
    }

    fn pass(&mut self, inflow: u64, _demand: u64) -> Flows {
        let y = self.content + inflow;
        let release = y.min(self.rate * y * root(y) / 1_000_000_000);
        self.content = y - release;
        Flows {
            release,
            ..Flows::default()
        }
    }
}

/// The greatest c with c × c × c ≤ y × y, for y below 2^32.
fn root(y: u64) -> u64 {
    // (c + 1)^3 passes 2^64 for the greatest y.
    let cube = |c: u64| u128::from(c * c) * u128::from(c);
    let square = u128::from(y * y);
    let mut c = ((y * y) as f64).cbrt() as u64;
    while cube(c) > square {
        c -= 1;
    }
    while cube(c + 1) <= square {
        c += 1;
    }
    c
}

/// Water on its way, in hours.
#[derive(Clone, Debug)]
pub struct Delay {
    /// W(1) to W(24): what the first weights come to. After the last weight it stays N.
    sums: [u64; HOURS],
    hours: [u64; HOURS],
    content: u64,
    ceiling: u64,
}

impl Delay {
    pub fn new(weights: &[u64], ceiling: u64) -> Result<Delay, Refusal> {
        let sum = weights
            .iter()
            .try_fold(0_u64, |sum, &weight| sum.checked_add(weight));
        let within =
            (1..=HOURS).contains(&weights.len()) && sum == Some(N) && ceiling <= MOST_CEILING;
        check(within, Refusal::StorageFigure)?;
        let mut sums = [N; HOURS];
        let mut sum = 0;
        for (place, weight) in sums.iter_mut().zip(weights) {
            sum += weight;
            *place = sum;
        }
        Ok(Delay {
            sums,
            hours: [0; HOURS],
            content: 0,
            ceiling,
        })
    }

    /// Each portion begins where the one before it ended, so all add up to the inflow.
    fn spread(&mut self, inflow: u64) {
        let mut begin = 0;
        for (hour, &sum) in self.hours.iter_mut().zip(&self.sums) {
            let end = parts_of(sum, inflow);
            *hour += end - begin;
            begin = end;
        }
    }
}

impl Storage for Delay {
    fn content(&self) -> u64 {
        self.content
    }

    fn ceiling(&self) -> u64 {
        self.ceiling
    }

    fn pass(&mut self, inflow: u64, _demand: u64) -> Flows {
        self.spread(inflow);
        let release = mem::take(&mut self.hours[0]);
        self.hours.rotate_left(1);
        self.content = self.content + inflow - release;
        Flows {
            release,
            ..Flows::default()
        }
    }
}

impl Tapped for Delay {
    fn take(&mut self, amount: u64) {
        let mut left = amount;
        for hour in &mut self.hours {
            let taken = left.min(*hour);
            *hour -= taken;
            left -= taken;
        }
        self.content -= amount;
    }
}

/// Loses a part of its inflow deep, before the storage below takes the rest.
#[derive(Clone, Debug)]
pub struct Leak<A> {
    loss: u64,
    below: A,
}

impl<A: Storage> Leak<A> {
    pub fn new(loss: u64, below: A) -> Result<Leak<A>, Refusal> {
        check(loss <= MOST_LOSS, Refusal::StorageFigure)?;
        Ok(Leak { loss, below })
    }
}

impl<A: Storage> Storage for Leak<A> {
    fn content(&self) -> u64 {
        self.below.content()
    }

    fn ceiling(&self) -> u64 {
        self.below.ceiling()
    }

    fn pass(&mut self, inflow: u64, demand: u64) -> Flows {
        let lost = parts_of(self.loss, inflow);
        let flows = self.below.pass(inflow - lost, demand);
        Flows {
            deep: lost + flows.deep,
            ..flows
        }
    }
}

impl<A: Tapped> Tapped for Leak<A> {
    fn take(&mut self, amount: u64) {
        self.below.take(amount);
    }
}

/// What `above` releases flows into `below`.
#[derive(Clone, Debug)]
pub struct Chain<A, B> {
    above: A,
    below: B,
}

impl<A: Storage, B: Storage> Chain<A, B> {
    pub fn new(above: A, below: B) -> Result<Chain<A, B>, Refusal> {
        let chain = Chain { above, below };
        check(chain.content() <= chain.ceiling(), Refusal::JoinedContents)?;
        Ok(chain)
    }
}

impl<A: Storage, B: Storage> Storage for Chain<A, B> {
    fn content(&self) -> u64 {
        self.above.content() + self.below.content()
    }

    fn ceiling(&self) -> u64 {
        self.above.ceiling().min(self.below.ceiling())
    }

    /// There is room in `below`: what reaches it was in `above` or is inflow, and both fit under
    /// its ceiling beside its content.
    fn pass(&mut self, inflow: u64, demand: u64) -> Flows {
        let above = self.above.pass(inflow, demand);
        let below = self.below.pass(above.release, demand - above.evaporated);
        Flows {
            release: below.release,
            evaporated: above.evaporated + below.evaporated,
            deep: above.deep + below.deep,
        }
    }
}

impl<A: Tapped, B: Tapped> Tapped for Chain<A, B> {
    fn take(&mut self, amount: u64) {
        let from_below = amount.min(self.below.content());
        self.below.take(from_below);
        self.above.take(amount - from_below);
    }
}

// ---- Banks ----

/// What can be asked of a segment.
#[derive(Clone, Copy, Debug, PartialEq, Eq)]
pub struct Segment {
    pub area: u64,
    pub content: u64,
    pub ceiling: u64,
}

impl Segment {
    pub fn room(self) -> u64 {
        self.ceiling - self.content
    }
}

/// A row of segments, counted from 0.
pub trait Bank {
    fn segments(&self) -> u64;

    /// None for a missing segment.
    fn segment(&self, segment: u64) -> Option<Segment>;

    /// Rain on one segment, answered as depths.
    fn rain(&mut self, segment: u64, depth: u64, demand: u64) -> Result<Flows, Refusal>;

    /// All water on the bank, as a volume.
    fn water(&self) -> u64 {
        (0..self.segments())
            .filter_map(|segment| self.segment(segment))
            .map(|segment| segment.area * segment.content)
            .sum()
    }
}

impl<B: Bank + ?Sized> Bank for Box<B> {
    fn segments(&self) -> u64 {
        (**self).segments()
    }

    fn segment(&self, segment: u64) -> Option<Segment> {
        (**self).segment(segment)
    }

    fn rain(&mut self, segment: u64, depth: u64, demand: u64) -> Result<Flows, Refusal> {
        (**self).rain(segment, depth, demand)
    }
}

/// A storage with an area.
#[derive(Clone, Debug)]
pub struct Plot<S> {
    storage: S,
    area: u64,
}

impl<S: Storage> Plot<S> {
    pub fn new(storage: S, area: u64) -> Result<Plot<S>, Refusal> {
        let within = (1..=MOST_AREA).contains(&area) && storage.ceiling() <= PLOT_CEILING;
        check(within, Refusal::PlotFigure)?;
        Ok(Plot { storage, area })
    }
}

impl<S: Storage> Bank for Plot<S> {
    fn segments(&self) -> u64 {
        1
    }

    fn segment(&self, segment: u64) -> Option<Segment> {
        (segment == 0).then(|| Segment {
            area: self.area,
            content: self.storage.content(),
            ceiling: self.storage.ceiling(),
        })
    }

    fn rain(&mut self, segment: u64, depth: u64, demand: u64) -> Result<Flows, Refusal> {
        check(segment == 0, Refusal::NoSuchSegment(segment))?;
        self.storage.step(depth, demand)
    }
}

/// Two banks as one.
#[derive(Clone, Debug)]
pub struct Pair<A, B> {
    first: A,
    second: B,
}

impl<A: Bank, B: Bank> Pair<A, B> {
    pub fn new(first: A, second: B) -> Result<Pair<A, B>, Refusal> {
        let pair = Pair { first, second };
        check(pair.segments() <= MOST_SEGMENTS, Refusal::TooManySegments)?;
        Ok(pair)
    }
}

impl<A: Bank, B: Bank> Bank for Pair<A, B> {
    fn segments(&self) -> u64 {
        self.first.segments() + self.second.segments()
    }

    fn segment(&self, segment: u64) -> Option<Segment> {
        match segment.checked_sub(self.first.segments()) {
            None => self.first.segment(segment),
            Some(behind) => self.second.segment(behind),
        }
    }

    fn rain(&mut self, segment: u64, depth: u64, demand: u64) -> Result<Flows, Refusal> {
        let segments = self.first.segments();
        match segment.checked_sub(segments) {
            None => self.first.rain(segment, depth, demand),
            Some(behind) => self
                .second
                .rain(behind, depth, demand)
                .map_err(|refusal| refusal.behind(segments)),
        }
    }
}

/// A row of equal plots, for a power of two.
fn row(plots: u64) -> Result<Box<dyn Bank>, Refusal> {
    if plots <= 1 {
        return Ok(Box::new(Plot::new(Recession::new(N, 0)?, 1)?));
    }
    Ok(Box::new(Pair::new(row(plots / 2)?, row(plots / 2)?)?))
}

// ---- The basin ----

#[derive(Clone, Copy, Debug, Default, PartialEq, Eq)]
pub struct Book {
    pub opening: u64,
    pub rain: u64,
    pub streamflow: u64,
    pub evaporated: u64,
    pub deep: u64,
    pub drawn: u64,
    pub poured: u64,
    pub held: u64,
}

impl Book {
    fn opened_with(water: u64) -> Book {
        Book {
            opening: water,
            ..Book::default()
        }
    }

    fn fields(self) -> [u64; 8] {
        [
            self.opening,
            self.rain,
            self.streamflow,
            self.evaporated,
            self.deep,
            self.drawn,
            self.poured,
            self.held,
        ]
    }
}

/// Water that was drawn and is neither poured nor booked out.
#[derive(Debug)]
pub struct Parcel {
    amount: u64,
}

impl Parcel {
    pub fn amount(&self) -> u64 {
        self.amount
    }

    /// Ends the parcel.
    fn book(self) -> u64 {
        self.amount
    }
}

#[derive(Clone, Debug)]
pub struct Basin<B, C> {
    bank: B,
    channel: C,
    /// Water that has left the bank and not yet entered the channel.
    pocket: u64,
    /// `held` stays 0 here: it is worked out when the book is asked for.
    book: Book,
}

impl<B: Bank, C: Tapped> Basin<B, C> {
    pub fn open(bank: B, channel: C) -> Result<Basin<B, C>, Refusal> {
        let opening = bank.water() + channel.content();
        check(opening <= channel.ceiling(), Refusal::OpeningAboveCeiling)?;
        Ok(Basin {
            bank,
            channel,
            pocket: 0,
            book: Book::opened_with(opening),
        })
    }

    pub fn bank(&self) -> &B {
        &self.bank
    }

    pub fn channel(&self) -> &C {
        &self.channel
    }

    pub fn held(&self) -> u64 {
        self.bank.water() + self.pocket + self.channel.content()
    }

    /// How much more water the basin may hold.
    pub fn room(&self) -> u64 {
        self.channel.ceiling() - self.held()
    }

    /// How much more rain and poured water the book may take.
    pub fn room_in_book(&self) -> u64 {
        MOST_BOOKED - self.book.rain - self.book.poured
    }

    /// Rules 18 and 19.
    fn check_new(&self, water: u64, place: u64) -> Result<(), Refusal> {
        check(water <= self.room(), Refusal::BasinFull(place))?;
        check(water <= self.room_in_book(), Refusal::BookFull(place))
    }

    /// Rain on one segment, answered as volumes.
    pub fn rain(&mut self, segment: u64, depth: u64, demand: u64) -> Result<Flows, Refusal> {
        let Segment { area, .. } = self.check_rain(segment, depth, demand)?;
        let flows = self.bank.rain(segment, depth, demand)?.over(area);
        self.pocket += flows.release;
        self.book.rain += depth * area;
        self.book.evaporated += flows.evaporated;
        self.book.deep += flows.deep;
        Ok(flows)
    }

    /// Rules 14 to 19 of a rain; answers the segment that takes it.
    fn check_rain(&self, place: u64, depth: u64, demand: u64) -> Result<Segment, Refusal> {
        let segment = self
            .bank
            .segment(place)
            .ok_or(Refusal::NoSuchSegment(place))?;
        check(depth <= MOST_RAIN, Refusal::RainAboveLimit(place))?;
        check(demand <= MOST_DEMAND, Refusal::DemandAboveLimit(place))?;
        check(depth <= segment.room(), Refusal::StorageFull(place))?;
        self.check_new(depth * segment.area, place)?;
        Ok(segment)
    }

    /// There is room in the channel: all water held fits under its ceiling.
    pub fn turn(&mut self) -> Flows {
        let flows = self.channel.pass(mem::take(&mut self.pocket), 0);
        self.book.streamflow += flows.release;
        self.book.deep += flows.deep;
        flows
    }

    pub fn draw(&mut self, amount: u64) -> Result<Parcel, Refusal> {
        check(amount > 0, Refusal::DrawAmount)?;
        self.channel.draw(amount)?;
        self.book.drawn += amount;
        Ok(Parcel { amount })
    }

    /// Empties the parcel and answers what it held.
    pub fn pour(&mut self, parcel: &mut Parcel) -> Result<u64, Refusal> {
        check(parcel.amount > 0, Refusal::EmptyParcel)?;
        self.check_new(parcel.amount, 0)?;
        let amount = mem::take(&mut parcel.amount);
        self.pocket += amount;
        self.book.poured += amount;
        Ok(amount)
    }

    pub fn question(&self) -> Book {
        Book {
            held: self.held(),
            ..self.book
        }
    }

    pub fn closing(&mut self) -> Book {
        let book = self.question();
        self.book = Book::opened_with(book.held);
        book
    }
}

// ---- Calls ----

/// The most figures on a line: a river's six and its weights.
const MOST_FIGURES: usize = 6 + MOST_WEIGHTS;
/// A line may name one weight more than a delay can have.
pub const MOST_WEIGHTS: usize = 25;

pub type Turf = Recession;
pub type Hill = Chain<Slope, Leak<Recession>>;
pub type River = Leak<Chain<Chain<Recession, Recession>, Delay>>;
pub type Land = Pair<Plot<Turf>, Plot<Hill>>;

#[derive(Clone, Debug, PartialEq, Eq)]
pub struct TurfLine {
    pub rate: u64,
    pub ceiling: u64,
    pub inflow: u64,
    pub demand: u64,
    pub area: u64,
}

impl TurfLine {
    pub fn figures(&self) -> [u64; 5] {
        [self.rate, self.ceiling, self.inflow, self.demand, self.area]
    }

    /// The plot, and the answer of its storage's step.
    pub fn make(&self) -> Result<(Plot<Turf>, Flows), Refusal> {
        let mut turf = Recession::new(self.rate, self.ceiling)?;
        let flows = turf.step(self.inflow, self.demand)?;
        Ok((Plot::new(turf, self.area)?, flows))
    }
}

#[derive(Clone, Debug, PartialEq, Eq)]
pub struct HillLine {
    pub slope_rate: u64,
    pub water: u64,
    pub loss: u64,
    pub rate: u64,
    pub ceiling: u64,
    pub inflow: u64,
    pub demand: u64,
    pub area: u64,
}

impl HillLine {
    pub fn figures(&self) -> [u64; 8] {
        [
            self.slope_rate,
            self.water,
            self.loss,
            self.rate,
            self.ceiling,
            self.inflow,
            self.demand,
            self.area,
        ]
    }

    /// The plot, and the answer of its chain's step.
    pub fn make(&self) -> Result<(Plot<Hill>, Flows), Refusal> {
        let slope = self.make_slope()?;
        let leak = Leak::new(self.loss, Recession::new(self.rate, self.ceiling)?)?;
        let mut hill = Chain::new(slope, leak)?;
        let flows = hill.step(self.inflow, self.demand)?;
        Ok((Plot::new(hill, self.area)?, flows))
    }

    /// The slope with its water.
    pub fn make_slope(&self) -> Result<Slope, Refusal> {
        let mut slope = Slope::new(self.slope_rate)?;
        slope.step(self.water, 0)?;
        Ok(slope)
    }
}

#[derive(Clone, Debug, PartialEq, Eq)]
pub struct RiverLine {
    pub first_rate: u64,
    pub second_rate: u64,
    pub loss: u64,
    pub ceiling: u64,
    pub inflow: u64,
    pub draw: u64,
    pub weights: Vec<u64>,
}

impl RiverLine {
    pub fn figures(&self) -> Vec<u64> {
        let mut figures = vec![
            self.first_rate,
            self.second_rate,
            self.loss,
            self.ceiling,
            self.inflow,
            self.draw,
        ];
        figures.extend(&self.weights);
        figures
    }

    /// The river, and the answer of its step.
    pub fn make(&self) -> Result<(River, Flows), Refusal> {
        let first = Recession::new(self.first_rate, self.ceiling)?;
        let second = Recession::new(self.second_rate, self.ceiling)?;
        let delay = Delay::new(&self.weights, self.ceiling)?;
        let reaches = Chain::new(Chain::new(first, second)?, delay)?;
        let mut river = Leak::new(self.loss, reaches)?;
        let flows = river.step(self.inflow, 0)?;
        river.draw(self.draw)?;
        Ok((river, flows))
    }
}

#[derive(Clone, Debug, PartialEq, Eq)]
pub enum Call {
    Turf(TurfLine),
    Hill(HillLine),
    River(RiverLine),
    Rain {
        segment: u64,
        depth: u64,
        demand: u64,
    },
    Turn,
    Draw(u64),
    Pour(u64),
    Book(u64),
    Closing,
    Question(u64),
    Row(u64, u64),
}

impl Call {
    /// None for a line that comes to `?` whatever is there.
    pub fn read(line: &[u8]) -> Option<Call> {
        let mut fields = line.split(|&byte| byte == b' ');
        let word = fields.next()?;
        let mut figures = [0; MOST_FIGURES];
        let mut count = 0;
        for field in fields {
            *figures.get_mut(count)? = read_figure(field)?;
            count += 1;
        }
        Call::of(word, &figures[..count])
    }

    fn of(word: &[u8], figures: &[u64]) -> Option<Call> {
        let call = match (word, figures) {
            (b"turf", &[rate, ceiling, inflow, demand, area]) => Call::Turf(TurfLine {
                rate,
                ceiling,
                inflow,
                demand,
                area,
            }),
            (b"hill", &[slope_rate, water, loss, rate, ceiling, inflow, demand, area]) => {
                Call::Hill(HillLine {
                    slope_rate,
                    water,
                    loss,
                    rate,
                    ceiling,
                    inflow,
                    demand,
                    area,
                })
            }
            (
                b"river",
                &[first_rate, second_rate, loss, ceiling, inflow, draw, ref weights @ ..],
            ) => Call::River(RiverLine {
                first_rate,
                second_rate,
                loss,
                ceiling,
                inflow,
                draw,
                weights: weights.to_vec(),
            }),
            (b"rain", &[segment, depth, demand]) => Call::Rain {
                segment,
                depth,
                demand,
            },
            (b"turn", []) => Call::Turn,
            (b"draw", &[amount]) => Call::Draw(amount),
            (b"pour", &[place]) => Call::Pour(place),
            (b"book", &[place]) => Call::Book(place),
            (b"closing", []) => Call::Closing,
            (b"question", &[size @ ..=MOST_BUFFER]) => Call::Question(size),
            (b"row", &[first @ (1 | 2 | 4 | 8 | 16), second @ (1 | 2 | 4 | 8 | 16)]) => {
                Call::Row(first, second)
            }
            _ => return None,
        };
        Some(call)
    }
}

/// At least one digit, and a value below 2^64.
fn read_figure(digits: &[u8]) -> Option<u64> {
    if digits.is_empty() {
        return None;
    }
    digits.iter().try_fold(0_u64, |figure, digit| {
        let digit = digit.is_ascii_digit().then(|| u64::from(digit - b'0'))?;
        figure.checked_mul(10)?.checked_add(digit)
    })
}

// ---- Lines ----

/// What a line of a script comes to.
#[derive(Clone, Copy, Debug, PartialEq, Eq)]
pub enum Answer {
    Step(Flows),
    Rain(u64, Flows),
    Turn(Flows),
    Drawn(u64),
    Poured(u64),
    Booked(u64),
    Book(Book),
    Segments(u64),
    Refused(Refusal),
    Nothing,
}

impl fmt::Display for Answer {
    fn fmt(&self, line: &mut fmt::Formatter) -> fmt::Result {
        match *self {
            Answer::Step(flows) => {
                write_fields(line, 'S', &[flows.release, flows.evaporated, flows.deep])
            }
            Answer::Rain(segment, flows) => {
                let fields = [segment, flows.release, flows.evaporated, flows.deep];
                write_fields(line, 'R', &fields)
            }
            Answer::Turn(flows) => write_fields(line, 'T', &[flows.release, flows.deep]),
            Answer::Drawn(amount) => write_fields(line, 'D', &[amount]),
            Answer::Poured(amount) => write_fields(line, 'P', &[amount]),
            Answer::Booked(amount) => write_fields(line, 'B', &[amount]),
            Answer::Book(book) => write_fields(line, 'C', &book.fields()),
            Answer::Segments(segments) => write_fields(line, 'N', &[segments]),
            Answer::Refused(refusal) => write_fields(line, 'X', &refusal.notice()),
            Answer::Nothing => write_fields(line, '?', &[]),
        }
    }
}

fn write_fields(line: &mut fmt::Formatter, letter: char, fields: &[u64]) -> fmt::Result {
    write!(line, "{letter}")?;
    fields.iter().try_for_each(|field| write!(line, " {field}"))
}

// ---- The script ----

/// What has been made of a basin.
#[derive(Debug, Default)]
enum Site {
    #[default]
    Bare,
    Turf(Plot<Turf>),
    Hill(Plot<Turf>, Plot<Hill>),
    Open(Box<Basin<Land, River>>),
}

#[derive(Debug, Default)]
pub struct Script {
    site: Site,
    parcels: Vec<Parcel>,
}

impl Script {
    pub fn basin(&self) -> Option<&Basin<Land, River>> {
        match &self.site {
            Site::Open(basin) => Some(basin),
            _ => None,
        }
    }

    /// The parcels at hand.
    pub fn parcels(&self) -> &[Parcel] {
        &self.parcels
    }

    /// Does what a line says. The line comes without its newline.
    pub fn answer(&mut self, line: &[u8]) -> Answer {
        let done = Call::read(line).and_then(|call| self.call(call));
        match done {
            None => Answer::Nothing,
            Some(Ok(answer)) => answer,
            Some(Err(refusal)) => Answer::Refused(refusal),
        }
    }

    /// None where the call asks for what is not there.
    fn call(&mut self, call: Call) -> Option<Result<Answer, Refusal>> {
        match call {
            Call::Turf(line) => Some(self.make_turf(&line)),
            Call::Hill(line) => self.make_hill(&line),
            Call::River(line) => self.make_river(&line),
            Call::Book(place) => self.book(place).map(Ok),
            Call::Row(first, second) => Some(pair_rows(first, second)),
            Call::Pour(place) => self.pour(place),
            Call::Draw(amount) => self.draw(amount),
            Call::Rain {
                segment,
                depth,
                demand,
            } => {
                let flows = self.basin_mut()?.rain(segment, depth, demand);
                Some(flows.map(|flows| Answer::Rain(segment, flows)))
            }
            Call::Turn => Some(Ok(Answer::Turn(self.basin_mut()?.turn()))),
            Call::Closing => Some(Ok(Answer::Book(self.basin_mut()?.closing()))),
            Call::Question(size) => Some(question(self.basin()?, size)),
        }
    }

    fn basin_mut(&mut self) -> Option<&mut Basin<Land, River>> {
        match &mut self.site {
            Site::Open(basin) => Some(basin),
            _ => None,
        }
    }

    /// What stood before is given up, also where the turf is refused.
    fn make_turf(&mut self, line: &TurfLine) -> Result<Answer, Refusal> {
        self.site = Site::Bare;
        let (turf, flows) = line.make()?;
        self.site = Site::Turf(turf);
        Ok(Answer::Step(flows))
    }

    fn make_hill(&mut self, line: &HillLine) -> Option<Result<Answer, Refusal>> {
        match mem::take(&mut self.site) {
            Site::Turf(turf) => Some(line.make().map(|(hill, flows)| {
                self.site = Site::Hill(turf, hill);
                Answer::Step(flows)
            })),
            other => {
                self.site = other;
                None
            }
        }
    }

    fn make_river(&mut self, line: &RiverLine) -> Option<Result<Answer, Refusal>> {
        match mem::take(&mut self.site) {
            Site::Hill(turf, hill) => Some(open(turf, hill, line).map(|(basin, flows)| {
                self.site = Site::Open(Box::new(basin));
                Answer::Step(flows)
            })),
            other => {
                self.site = other;
                None
            }
        }
    }

    fn draw(&mut self, amount: u64) -> Option<Result<Answer, Refusal>> {
        let drawn = self.basin_mut()?.draw(amount);
        Some(drawn.map(|parcel| {
            self.parcels.push(parcel);
            Answer::Drawn(amount)
        }))
    }

    fn pour(&mut self, place: u64) -> Option<Result<Answer, Refusal>> {
        let Site::Open(basin) = &mut self.site else {
            return None;
        };
        let place = index_among(&self.parcels, place)?;
        Some(basin.pour(&mut self.parcels[place]).map(Answer::Poured))
    }

    fn book(&mut self, place: u64) -> Option<Answer> {
        let place = index_among(&self.parcels, place)?;
        Some(Answer::Booked(self.parcels.remove(place).book()))
    }

    /// Books out all parcels at hand and answers what they held. Many basins may each open with
    /// 8 × 10^12, so a very long script passes 2^64.
    fn end(self) -> u128 {
        self.parcels
            .into_iter()
            .map(|parcel| u128::from(parcel.book()))
            .sum()
    }
}

/// None for a place where no parcel is.
fn index_among(parcels: &[Parcel], place: u64) -> Option<usize> {
    (place < parcels.len() as u64).then_some(place as usize)
}

/// Makes the river, pairs the plots and opens the basin over both.
fn open(
    turf: Plot<Turf>,
    hill: Plot<Hill>,
    line: &RiverLine,
) -> Result<(Basin<Land, River>, Flows), Refusal> {
    let (river, flows) = line.make()?;
    let basin = Basin::open(Pair::new(turf, hill)?, river)?;
    Ok((basin, flows))
}

fn question(basin: &Basin<Land, River>, size: u64) -> Result<Answer, Refusal> {
    check(size >= LINE_BYTES, Refusal::ShortBuffer)?;
    Ok(Answer::Book(basin.question()))
}

fn pair_rows(first: u64, second: u64) -> Result<Answer, Refusal> {
    let pair = Pair::new(row(first)?, row(second)?)?;
    Ok(Answer::Segments(pair.segments()))
}

// ---- The program ----

fn run(mut input: impl BufRead, output: impl Write) -> io::Result<()> {
    let mut output = BufWriter::new(output);
    let mut script = Script::default();
    let mut line = Vec::new();
    while input.read_until(b'\n', &mut line)? > 0 {
        let text = line.strip_suffix(b"\n").unwrap_or(&line);
        writeln!(output, "{}", script.answer(text))?;
        line.clear();
    }
    writeln!(output, "E {}", script.end())?;
    output.flush()
}

fn main() -> ExitCode {
    let arguments: Vec<String> = std::env::args().skip(1).collect();
    let done = match arguments
        .iter()
        .map(String::as_str)
        .collect::<Vec<_>>()
        .as_slice()
    {
        [] => run(io::stdin().lock(), io::stdout().lock()).map_err(|error| error.to_string()),
        ["--selftest"] => selftest::run(),
        _ => Err("usage: script [--selftest], a script on input".into()),
    };
    match done {
        Ok(()) => ExitCode::SUCCESS,
        Err(message) => {
            eprintln!("script: {message}");
            ExitCode::FAILURE
        }
    }
}

// ---- Selftest ----

/// The worked figures of the documents, and the laws that they name.
mod selftest {
    use super::*;
    use std::fmt::Debug;

    pub fn run() -> Result<(), String> {
        let mut test = Test {
            checks: 0,
            failures: 0,
        };
        test.roots();
        test.recessions();
        test.slopes();
        test.delays();
        test.leaks();
        test.chains();
        test.storages_balance();
        test.banks();
        test.figures();
        test.lines_that_say_nothing();
        test.worked_script();
        test.refused_makings();
        test.refused_calls();
        test.basins_given_up();
        test.parcels();
        test.full_book();
        test.books();
        println!("{} checks, {} failures", test.checks, test.failures);
        match test.failures {
            0 => Ok(()),
            _ => Err("selftest failed".into()),
        }
    }

    struct Test {
        checks: u32,
        failures: u32,
    }

    impl Test {
        fn same<T: PartialEq + Debug>(&mut self, what: &str, got: T, expected: T) {
            self.checks += 1;
            if got != expected {
                self.failures += 1;
                eprintln!("{what}: got {got:?}, expected {expected:?}");
            }
        }

        fn holds(&mut self, what: &str, truth: bool) {
            self.same(what, truth, true);
        }

        /// The script prints these lines, and the last line of all parcels after them.
        fn prints(&mut self, script: &str, expected: &str) {
            self.same(script, lines(script), expected.into());
        }

        fn roots(&mut self) {
            self.same("root of 8", root(8), 4);
            self.same("root of 9", root(9), 4);
            self.same("root of 1,000,000", root(1_000_000), 10_000);
            let mut chance = Chance(1);
            let few = (0..2_000).chain([PLOT_CEILING, u64::from(u32::MAX)]);
            let many: Vec<u64> = (0..20_000).map(|_| chance.below(1 << 32)).collect();
            for y in few.chain(many) {
                let (c, square) = (u128::from(root(y)), u128::from(y).pow(2));
                let exact = c.pow(3) <= square && square < (c + 1).pow(3);
                self.holds("root is the greatest", exact);
            }
        }

        fn recessions(&mut self) {
            let mut half = recession(N / 2, 1_000);
            self.same("step", half.step(900, 100), Ok(flows(400, 100, 0)));
            self.same("left", half.content(), 400);
            self.same("at the ceiling", half.step(600, 0), Ok(flows(500, 0, 0)));
            let full = Err(Refusal::StorageFull(0));
            self.same("one above", half.step(501, 0), full);
            self.same("far above", half.step(u64::MAX, 0), full);
            let asked = half.step(0, u64::MAX);
            self.same("demand above content", asked, Ok(flows(0, 500, 0)));

            let mut all = recession(N, MOST_CEILING);
            let passed = all.step(MOST_CEILING, 0);
            self.same("greatest product", passed, Ok(flows(MOST_CEILING, 0, 0)));

            for (rate, ceiling, granted) in [
                (0, 1, false),
                (1, 0, true),
                (N, MOST_CEILING, true),
                (N + 1, 1, false),
                (1, MOST_CEILING + 1, false),
                (u64::MAX, u64::MAX, false),
            ] {
                let made = Recession::new(rate, ceiling);
                self.same("limits of a recession", made.is_ok(), granted);
            }
        }

        fn slopes(&mut self) {
            let mut steep = made(Slope::new(100_000));
            let all = steep.step(1_000_000, 9);
            self.same("steep slope", all, Ok(flows(1_000_000, 0, 0)));
            let mut slope = made(Slope::new(1_000));
            let some = slope.step(1_000_000, 9);
            self.same("slope", some, Ok(flows(10_000, 0, 0)));
            self.same("slope left", slope.content(), 990_000);
            self.same("slope's ceiling", slope.ceiling(), 100_000_000);
            for (rate, granted) in [(0, false), (1, true), (100_000, true), (100_001, false)] {
                self.same("limits of a slope", Slope::new(rate).is_ok(), granted);
            }
        }

        fn delays(&mut self) {
            let mut two = delay(&[N / 2, N / 2], 100);
            self.same("first hour", two.step(5, 0), Ok(flows(2, 0, 0)));
            self.same("on its way", two.content(), 3);
            self.same("second hour", two.step(0, 0), Ok(flows(3, 0, 0)));
            self.same("then nothing", two.step(0, 0), Ok(flows(0, 0, 0)));

            let mut weights = [0; HOURS];
            weights[HOURS - 1] = N;
            let mut late = delay(&weights, 100);
            self.same("into the last hour", late.step(100, 0), Ok(flows(0, 0, 0)));
            for _ in 1..HOURS - 1 {
                self.same("moves nearer", late.step(0, 0), Ok(flows(0, 0, 0)));
            }
            let after_all = late.step(0, 0);
            self.same("all together", after_all, Ok(flows(100, 0, 0)));

            let mut four = delay(&[0, N / 4, N / 4, N / 2], 100);
            self.same("zero weight", four.step(100, 0), Ok(flows(0, 0, 0)));
            self.same("draw", four.draw(30), Ok(()));
            self.same("soonest hour first", &four.hours[..3], &[0, 20, 50]);
            self.same("draw above", four.draw(71), Err(Refusal::DrawAmount));
            self.same("draw of all", four.draw(70), Ok(()));
            self.same("draw of nothing", four.draw(0), Ok(()));
            self.same("empty", (four.content(), four.hours), (0, [0; HOURS]));

            let mut too_many = [0; HOURS + 1];
            too_many[0] = N;
            let outside: [&[u64]; 6] = [
                &[],
                &[N - 1],
                &[N + 1],
                &[u64::MAX, N + 1],
                &[1 << 63, (1 << 63) + N],
                &too_many,
            ];
            for weights in outside {
                let refused = Delay::new(weights, 1).err();
                self.same("weights", refused, Some(Refusal::StorageFigure));
            }
            let high = Delay::new(&[N], MOST_CEILING + 1).err();
            self.same("high delay", high, Some(Refusal::StorageFigure));
        }

        fn leaks(&mut self) {
            let mut slow = recession(1, 10);
            self.same("slow", slow.step(5, 0), Ok(flows(0, 0, 0)));
            let mut leak = made(Leak::new(N / 2, slow));
            let full = Err(Refusal::StorageFull(0));
            self.same("full by the whole inflow", leak.step(8, 0), full);
            self.same("room", leak.room(), 5);
            self.same("leak", leak.step(5, 1), Ok(flows(0, 1, 2)));
            self.same("draw from below", leak.draw(7), Ok(()));
            self.same("empty", leak.content(), 0);
            for (loss, granted) in [(0, true), (524_288, true), (524_289, false)] {
                let made = Leak::new(loss, recession(1, 1));
                self.same("limits of a leak", made.is_ok(), granted);
            }
        }

        fn chains(&mut self) {
            let holding = |content, ceiling| {
                let mut storage = recession(1, ceiling);
                storage.pass(content, 0);
                storage
            };
            let over = Chain::new(holding(6, 20), holding(5, 10)).err();
            self.same("joined", over, Some(Refusal::JoinedContents));
            let mut chain = made(Chain::new(holding(5, 20), holding(5, 10)));
            self.same("lesser ceiling", chain.ceiling(), 10);
            self.same("content", chain.content(), 10);
            let full = Err(Refusal::StorageFull(0));
            self.same("full chain", chain.step(1, 0), full);
            let dry = chain.step(0, 7);
            self.same("demand that is left", dry, Ok(flows(0, 7, 0)));
            self.same(
                "below is left",
                (chain.above.content, chain.below.content),
                (0, 3),
            );

            let mut chain = made(Chain::new(holding(5, 10), holding(4, 10)));
            self.same("draw above", chain.draw(10), Err(Refusal::DrawAmount));
            self.same("draw", chain.draw(6), Ok(()));
            self.same(
                "below first",
                (chain.above.content, chain.below.content),
                (3, 0),
            );

            // Two leaks, one in each storage: each loses of its own inflow.
            let leak = |rate| made(Leak::new(N / 2, recession(rate, 100)));
            let mut chain = made(Chain::new(leak(N), leak(N)));
            self.same("both leak", chain.step(10, 0), Ok(flows(3, 0, 5 + 2)));
        }

        /// Over every kind at once: the new content is content plus inflow less the three, a
        /// refusal alters nothing, and the content stays under the ceiling.
        fn storages_balance(&mut self) {
            let mut chance = Chance(2);
            for _ in 0..200 {
                let mut river = chance.river();
                let mut hill = chance.hill();
                for _ in 0..100 {
                    self.balances(&mut chance, &mut river);
                    self.balances(&mut chance, &mut hill);
                    let before = river.content();
                    let amount = chance.near(before);
                    let drawn = river.draw(amount).is_ok();
                    self.same("draw is granted", drawn, amount <= before);
                    let taken = if drawn { amount } else { 0 };
                    self.same("draw", river.content(), before - taken);
                    let hours: u64 = river.below.below.hours.iter().sum();
                    self.same("hours add up", hours, river.below.below.content);
                }
            }
        }

        fn balances(&mut self, chance: &mut Chance, storage: &mut impl Storage) {
            let before = storage.content();
            let (inflow, demand) = (chance.near(storage.room()), chance.figure());
            let fits = inflow <= storage.room();
            match storage.step(inflow, demand) {
                Ok(flows) => {
                    let gone = flows.release + flows.evaporated + flows.deep;
                    self.same("water", storage.content() + gone, before + inflow);
                    self.holds("demand", flows.evaporated <= demand);
                    self.holds("ceiling", storage.content() <= storage.ceiling());
                    self.holds("granted where it fits", fits);
                }
                Err(refusal) => {
                    self.same("full", refusal, Refusal::StorageFull(0));
                    self.same("refusal alters nothing", storage.content(), before);
                    self.holds("refused where it does not fit", !fits);
                }
            }
        }

        fn banks(&mut self) {
            let plot = |ceiling, area| Plot::new(recession(1, ceiling), area);
            for (ceiling, area, granted) in [
                (1, 0, false),
                (1, 1, true),
                (PLOT_CEILING, 5_000, true),
                (1, 5_001, false),
                (PLOT_CEILING + 1, 1, false),
            ] {
                let made = plot(ceiling, area);
                self.same("limits of a plot", made.is_ok(), granted);
            }
            let mut three = made(Pair::new(
                made(plot(10, 1)),
                made(Pair::new(made(plot(20, 2)), made(plot(30, 3)))),
            ));
            self.same("rain", three.rain(2, 30, 0), Ok(flows(0, 0, 0)));
            let full = Err(Refusal::StorageFull(2));
            self.same("pair's own segment", three.rain(2, 1, 0), full);
            for segment in [3, u64::MAX] {
                let missing = Err(Refusal::NoSuchSegment(segment));
                self.same("missing", three.rain(segment, u64::MAX, 0), missing);
                self.same("missing", three.segment(segment), None);
            }
            self.same("water", three.water(), 90);
            let room = three.segment(1).map(Segment::room);
            self.same("only one segment changes", room, Some(20));
        }

        fn figures(&mut self) {
            let most = u64::MAX.to_string();
            self.same("zeros", read_figure(b"000"), Some(0));
            self.same("most", read_figure(most.as_bytes()), Some(u64::MAX));
            let zeros = format!("{:0>99}", most);
            self.same("leading", read_figure(zeros.as_bytes()), Some(u64::MAX));
            for text in [
                "",
                "-1",
                "+1",
                "1.0",
                "0x1",
                "1\t",
                "18446744073709551616",
                "18446744073709551620",
                "99999999999999999999",
                "184467440737095516150",
            ] {
                self.same(text, read_figure(text.as_bytes()), None);
            }
        }

        fn lines_that_say_nothing(&mut self) {
            self.prints("", "E 0\n");
            self.prints("\n", "?\nE 0\n");
            self.prints("row 1 1", "N 2\nE 0\n");
            for line in [
                "row 8  8",
                "row 8 8 ",
                " row 8 8",
                "row\t8 8",
                "row 8 8\r",
                "row 8 8\0",
                "Row 8 8",
                "rows 8 8",
                "row 8",
                "row 8 8 8",
                "row 8 +8",
                "row 3 8",
                "row 8 0",
                "row 32 8",
                "row 8 18446744073709551624",
                "turn",
                "draw 1",
                "pour 0",
                "book 0",
                "closing",
                "question 192",
                "rain 0 0 0",
                "hill 1 0 0 1 1 0 0 1",
                "river 1 1 0 1 0 0 1048576",
            ] {
                self.prints(line, "?\nE 0\n");
            }
            let weights = |count: usize| " 1048576".to_string() + &" 0".repeat(count - 1);
            let opened = "turf 1 0 0 0 1\nhill 1 0 0 1 0 0 0 1\nriver 1 1 0 0 0 0";
            for (count, line) in [(24, "S 0 0 0"), (25, "X 6 3 0"), (26, "?")] {
                let script = format!("{opened}{}\n", weights(count));
                self.prints(&script, &format!("S 0 0 0\nS 0 0 0\n{line}\nE 0\n"));
            }
            let script = format!("{SMALL}turn 0\nclosing 0\nquestion 1025\nrain 0 1\npour 0\n");
            self.prints(&script, &format!("{SMALL_LINES}?\n?\n?\n?\n?\nE 0\n"));
        }

        fn worked_script(&mut self) {
            let script = "turf 524288 1000 900 100 10\n\
                hill 1 100 0 524288 1000 0 0 20\n\
                river 1048576 524288 0 100000 0 0 524288 524288\n\
                rain 0 600 0\nturn\ndraw 1\ndraw 0\nquestion 191\nclosing\n";
            let lines = "S 400 100 0\nS 0 0 0\nS 0 0 0\nR 0 5000 0 0\nT 1250 0\nD 1\nX 20 3 0\n\
                X 22 5 0\nC 6000 6000 1250 0 0 1 0 10749\nE 1\n";
            self.prints(script, lines);
            self.prints(script.trim_end(), lines);
        }

        /// Each figure of each making at its limit and above, and the order of the rules.
        fn refused_makings(&mut self) {
            let most = u64::MAX;
            for (figures, line) in [
                ("0 10 0 0 1", "X 6 3 0"),
                ("1048577 10 0 0 1", "X 6 3 0"),
                ("1 8000000000001 0 0 1", "X 6 3 0"),
                ("1 10 11 0 1", "X 17 3 0"),
                ("1 10 10 0 1", "S 0 0 0"),
                ("1 10 0 0 0", "X 8 4 0"),
                ("1 10 0 0 5000", "S 0 0 0"),
                ("1 10 0 0 5001", "X 8 4 0"),
                ("1 100000000 0 0 1", "S 0 0 0"),
                ("1 100000001 0 0 1", "X 8 4 0"),
                ("0 10 11 0 0", "X 6 3 0"),
                ("1 10 11 0 0", "X 17 3 0"),
            ] {
                self.prints(&format!("turf {figures}"), &format!("{line}\nE 0\n"));
            }
            for (figures, line) in [
                ("0 0 0 1 10 0 0 1", "X 6 3 0"),
                ("100001 0 0 1 10 0 0 1", "X 6 3 0"),
                ("1 100000001 0 1 10 0 0 1", "X 17 3 0"),
                ("1 100000001 0 0 10 0 0 1", "X 17 3 0"),
                ("1 0 524289 1 10 0 0 1", "X 6 3 0"),
                ("1 0 0 0 10 0 0 1", "X 6 3 0"),
                ("1 0 0 1 8000000000001 0 0 1", "X 6 3 0"),
                ("1 11 0 1 10 0 0 1", "X 7 3 0"),
                ("1 10 0 1 10 0 0 1", "S 0 0 0"),
                ("1 4 0 1 10 7 0 0", "X 17 3 0"),
                ("1 4 0 1 10 6 0 0", "X 8 4 0"),
                ("1 4 0 1 10 6 0 1", "S 0 0 0"),
                ("1 4 0 1 10 18446744073709551612 0 1", "X 17 3 0"),
                ("100000 100000000 0 1 8000000000000 0 0 1", "S 0 0 0"),
                ("1 0 0 1 10 0 0 5001", "X 8 4 0"),
            ] {
                let script = format!("turf 1 0 0 0 1\nhill {figures}\n");
                self.prints(&script, &format!("S 0 0 0\n{line}\nE 0\n"));
            }
            let plots = "turf 1 10 10 0 3\nhill 1 5 0 1 10 0 0 2\n";
            for (figures, line) in [
                ("0 1 0 99 0 0 1048576", "X 6 3 0"),
                ("1 0 0 99 0 0 1048576", "X 6 3 0"),
                ("1 1 524289 99 0 0 1048576", "X 6 3 0"),
                ("1 1 0 8000000000001 0 0 1048576", "X 6 3 0"),
                ("1 1 0 99 0 0", "X 6 3 0"),
                ("1 1 0 99 0 0 1048575", "X 6 3 0"),
                ("1 1 0 99 0 0 1048575 2", "X 6 3 0"),
                ("1 1 0 99 0 0 18446744073709551615 1048577", "X 6 3 0"),
                ("1 1 0 99 100 9 1048576", "X 17 3 0"),
                ("1 1 0 99 9 10 1048576", "X 20 3 0"),
                ("1 1 0 39 9 10 1048576", "X 20 3 0"),
                ("1 1 0 39 9 9 1048576", "X 10 5 0"),
                ("1 1 0 40 9 9 1048576", "S 0 0 0"),
                ("1 1 0 48 9 0 1048576", "X 10 5 0"),
                ("1 1 0 49 9 0 1048576", "S 0 0 0"),
            ] {
                let script = format!("{plots}river {figures}\n");
                self.prints(&script, &format!("S 0 0 0\nS 0 0 0\n{line}\nE 0\n"));
            }
            for script in [
                format!("turf {most} {most} {most} {most} {most}\n"),
                format!("turf 1 {most} 0 0 1\n"),
            ] {
                self.prints(&script, "X 6 3 0\nE 0\n");
            }
            let rows = "row 8 8\nrow 16 1\nrow 1 16\nrow 16 16\nrow 4 8\n";
            self.prints(rows, "N 16\nX 9 4 0\nX 9 4 0\nX 9 4 0\nN 12\nE 0\n");
        }

        /// Every rule of a rain, a draw and a question, and their order.
        fn refused_calls(&mut self) {
            let most = u64::MAX;
            for (call, line) in [
                ("rain 2 15000001 1000001".into(), "X 14 4 2".into()),
                (format!("rain {most} 0 0"), format!("X 14 4 {most}")),
                ("rain 1 15000001 1000001".into(), "X 15 5 1".into()),
                (format!("rain 0 {most} {most}"), "X 15 5 0".into()),
                ("rain 1 15000000 1000001".into(), "X 16 5 1".into()),
                (format!("rain 0 0 {most}"), "X 16 5 0".into()),
                ("rain 1 15000000 1000000".into(), "X 17 3 1".into()),
                ("rain 0 101 0".into(), "X 17 3 0".into()),
                ("rain 0 100 0".into(), "X 18 5 0".into()),
                ("rain 0 51 0".into(), "X 18 5 0".into()),
                ("rain 0 50 1000000".into(), "R 0 0 100 0".into()),
                ("rain 1 34 0".into(), "X 18 5 1".into()),
                ("rain 1 33 0".into(), "R 1 0 0 0".into()),
                ("rain 0 0 1000000".into(), "R 0 0 0 0".into()),
                ("draw 0".into(), "X 20 3 0".into()),
                ("draw 1".into(), "X 20 3 0".into()),
                (format!("draw {most}"), "X 20 3 0".into()),
                ("question 0".into(), "X 22 5 0".into()),
                ("question 191".into(), "X 22 5 0".into()),
                ("question 192".into(), "C 0 0 0 0 0 0 0 0".into()),
                ("question 1024".into(), "C 0 0 0 0 0 0 0 0".into()),
            ] {
                let script = format!("{SMALL}{call}\n");
                self.prints(&script, &format!("{SMALL_LINES}{line}\nE 0\n"));
            }
        }

        fn basins_given_up(&mut self) {
            let script = format!("{SMALL}hill 1 0 0 1 0 0 0 1\nriver 1 1 0 0 0 0 0\nturn\n");
            self.prints(&script, &format!("{SMALL_LINES}?\n?\nT 0 0\nE 0\n"));
            let script = format!("{SMALL}turf 0 0 0 0 0\nturn\nhill 1 0 0 1 0 0 0 1\nrow 1 2\n");
            self.prints(&script, &format!("{SMALL_LINES}X 6 3 0\n?\n?\nN 3\nE 0\n"));
            let script = format!("{SMALL}turf 0\nturn\nturf 1 1 1 0 1\nturn\nturf 1 1 0 0 1\n");
            self.prints(
                &script,
                &format!("{SMALL_LINES}?\nT 0 0\nS 0 0 0\n?\nS 0 0 0\nE 0\n"),
            );
        }

        /// A parcel of one basin goes into another, is poured once, and is booked out empty.
        fn parcels(&mut self) {
            let rich = "turf 1 1 0 0 1\nhill 1 0 0 1 1 0 0 1\nriver 1 1 0 200 200 0 1048576\n";
            let script = format!(
                "{rich}draw 150\ndraw 101\ndraw 50\nbook 2\npour 1\npour 1\nbook 1\npour 1\n\
                closing\n{SMALL}pour 0\nbook 0\nbook 0\n"
            );
            let lines =
                "S 0 0 0\nS 0 0 0\nS 0 0 0\nD 150\nX 20 3 0\nD 50\n?\nP 50\nX 21 5 0\nB 0\n\
                ?\nC 200 0 0 0 0 200 50 50\nS 0 0 0\nS 0 0 0\nS 0 0 0\nX 18 5 0\nB 150\n?\nE 0\n";
            self.prints(&script, lines);
            let script = format!("{rich}draw 100\ndraw 99\n{SMALL}pour 0\npour 1\nclosing\n");
            let lines = format!(
                "S 0 0 0\nS 0 0 0\nS 0 0 0\nD 100\nD 99\n{SMALL_LINES}P 100\nX 18 5 0\n\
                C 0 0 0 0 0 0 100 100\nE 99\n"
            );
            self.prints(&script, &lines);
            let script = format!("{rich}draw 1\ndraw 2\ndraw 4\nbook 0\nbook 0\nbook 0\n");
            let lines = "S 0 0 0\nS 0 0 0\nS 0 0 0\nD 1\nD 2\nD 4\nB 1\nB 2\nB 4\nE 0\n";
            self.prints(&script, lines);
        }

        /// The same water is drawn and poured until the book takes no more. A parcel of another
        /// basin waits at place 0.
        fn full_book(&mut self) {
            let mut script = Script::default();
            let mut call = |line: &str| script.answer(line.as_bytes());
            let rich = [
                "turf 1048576 100 0 0 1",
                "hill 1 0 0 1 1 0 0 1",
                "river 1 1 0 8000000000000 8000000000000 0 1048576",
            ];
            for line in rich.iter().chain(&["draw 7900000000000"]).chain(&rich) {
                call(line);
            }
            let most = 7_000_000_000_000;
            let times = MOST_BOOKED / most;
            for _ in 0..times {
                for line in [&format!("draw {most}"), "pour 1", "book 1", "turn"] {
                    call(line);
                }
            }
            let room = MOST_BOOKED - times * most;
            call(&format!("draw {}", room - 2));
            call("draw 3");
            let full = |place| Answer::Refused(Refusal::BookFull(place));
            let above_both = Answer::Refused(Refusal::BasinFull(0));
            self.same("all but two", call("pour 1"), Answer::Poured(room - 2));
            self.same("pour above the book", call("pour 2"), full(0));
            self.same("18 before 19", call("pour 0"), above_both);
            self.same("rain above the book", call("rain 0 3 0"), full(0));
            let rained = Answer::Rain(0, flows(2, 0, 0));
            self.same("rain to the limit", call("rain 0 2 0"), rained);
            self.same("rain above the book", call("rain 1 1 0"), full(1));
            let dry = Answer::Rain(1, flows(0, 0, 0));
            self.same("an hour without rain", call("rain 1 0 0"), dry);
            self.holds("closing", matches!(call("closing"), Answer::Book(_)));
            self.same("another book", call("pour 2"), Answer::Poured(3));
        }

        /// On scripts of chance, every book is the tally of its calls, and its sums are equal;
        /// over all basins, drawn water is poured, booked out or at hand.
        fn books(&mut self) {
            let mut chance = Chance(3);
            for _ in 0..300 {
                let mut script = Script::default();
                let mut tally = Tally::default();
                for _ in 0..200 {
                    let line = chance.line(&script);
                    let answer = script.answer(line.as_bytes());
                    self.tally(&mut tally, &script, &line, answer);
                }
                self.same("parcels", script.end(), tally.at_hand.into());
            }
        }

        fn tally(&mut self, tally: &mut Tally, script: &Script, line: &str, answer: Answer) {
            let call = Call::read(line.as_bytes());
            match (call, answer) {
                (Some(Call::Turf(turf)), Answer::Step(_)) => tally.areas[0] = turf.area,
                (Some(Call::Hill(hill)), Answer::Step(_)) => tally.areas[1] = hill.area,
                (Some(Call::River(_)), Answer::Step(_)) => {
                    let held = script.basin().map_or(0, Basin::held);
                    tally.book = Book::opened_with(held);
                }
                (Some(Call::Rain { depth, demand, .. }), Answer::Rain(segment, flows)) => {
                    let area = tally.areas[segment as usize];
                    tally.book.rain += depth * area;
                    tally.book.evaporated += flows.evaporated;
                    tally.book.deep += flows.deep;
                    self.holds("demand", flows.evaporated <= demand * area);
                }
                (_, Answer::Turn(flows)) => {
                    tally.book.streamflow += flows.release;
                    tally.book.deep += flows.deep;
                }
                (_, Answer::Drawn(amount)) => {
                    tally.book.drawn += amount;
                    tally.at_hand += amount;
                }
                (_, Answer::Poured(amount)) => {
                    tally.book.poured += amount;
                    tally.at_hand -= amount;
                }
                (_, Answer::Booked(amount)) => tally.at_hand -= amount,
                (Some(Call::Closing), Answer::Book(book)) => {
                    self.book(tally, book);
                    tally.book = Book::opened_with(book.held);
                }
                (_, Answer::Book(book)) => self.book(tally, book),
                _ => {}
            }
            if let Some(basin) = script.basin() {
                self.book(tally, basin.question());
            }
        }

        fn book(&mut self, tally: &Tally, book: Book) {
            let expected = Book {
                held: book.held,
                ..tally.book
            };
            self.same("tally", book, expected);
            let came = book.opening + book.rain + book.poured;
            let went = book.streamflow + book.evaporated + book.deep + book.drawn;
            self.same("sums of a book", came, went + book.held);
        }
    }

    /// What the calls and their answers come to.
    #[derive(Default)]
    struct Tally {
        areas: [u64; 2],
        book: Book,
        /// Water in parcels.
        at_hand: u64,
    }

    /// An empty basin of ceiling 100, with plots of 2 and 3 acres.
    const SMALL: &str = "turf 1 100 0 0 2\nhill 1 0 0 1 100 0 0 3\nriver 1 1 0 100 0 0 1048576\n";
    const SMALL_LINES: &str = "S 0 0 0\nS 0 0 0\nS 0 0 0\n";

    fn lines(script: &str) -> String {
        let mut output = Vec::new();
        super::run(script.as_bytes(), &mut output).expect("memory is read and written");
        String::from_utf8_lossy(&output).into_owned()
    }

    fn flows(release: u64, evaporated: u64, deep: u64) -> Flows {
        Flows {
            release,
            evaporated,
            deep,
        }
    }

    fn made<T>(made: Result<T, Refusal>) -> T {
        made.expect("figures within their limits")
    }

    fn recession(rate: u64, ceiling: u64) -> Recession {
        made(Recession::new(rate, ceiling))
    }

    fn delay(weights: &[u64], ceiling: u64) -> Delay {
        made(Delay::new(weights, ceiling))
    }

    fn text(word: &str, figures: &[u64]) -> String {
        let figure = |figure: &u64| format!(" {figure}");
        word.to_string() + &figures.iter().map(figure).collect::<String>()
    }

    /// Splitmix64.
    struct Chance(u64);

    impl Chance {
        fn next(&mut self) -> u64 {
            self.0 = self.0.wrapping_add(0x9e37_79b9_7f4a_7c15);
            let mut z = self.0;
            z = (z ^ (z >> 30)).wrapping_mul(0xbf58_476d_1ce4_e5b9);
            z = (z ^ (z >> 27)).wrapping_mul(0x94d0_49bb_1331_11eb);
            z ^ (z >> 31)
        }

        fn below(&mut self, count: u64) -> u64 {
            self.next() % count
        }

        /// Small figures as often as large ones.
        fn figure(&mut self) -> u64 {
            let bits = self.below(64);
            self.next() >> bits
        }

        fn up_to(&mut self, most: u64) -> u64 {
            match self.below(4) {
                0 => most,
                _ => self.figure() % (most + 1),
            }
        }

        /// A figure below a limit, at it or above it.
        fn near(&mut self, limit: u64) -> u64 {
            match self.below(8) {
                0 => limit + 1,
                1 => self.figure(),
                _ => self.up_to(limit),
            }
        }

        fn rate(&mut self) -> u64 {
            1 + self.up_to(N - 1)
        }

        fn weights(&mut self) -> Vec<u64> {
            let mut left = N;
            let mut weights = vec![0; 1 + self.below(HOURS as u64) as usize];
            for weight in &mut weights {
                *weight = self.up_to(left);
                left -= *weight;
            }
            weights[0] += left;
            weights
        }

        fn turf_line(&mut self) -> TurfLine {
            let ceiling = self.up_to(PLOT_CEILING);
            TurfLine {
                rate: self.rate(),
                ceiling,
                inflow: self.near(ceiling),
                demand: self.figure(),
                area: 1 + self.up_to(MOST_AREA - 1),
            }
        }

        fn hill_line(&mut self) -> HillLine {
            let water = self.up_to(PLOT_CEILING);
            let ceiling = water.max(self.up_to(PLOT_CEILING));
            HillLine {
                slope_rate: 1 + self.up_to(MOST_SLOPE_RATE - 1),
                water,
                loss: self.up_to(MOST_LOSS),
                rate: self.rate(),
                ceiling,
                inflow: self.near(ceiling - water),
                demand: self.figure(),
                area: 1 + self.up_to(MOST_AREA - 1),
            }
        }

        fn river_line(&mut self) -> RiverLine {
            let ceiling = self.up_to(MOST_CEILING);
            RiverLine {
                first_rate: self.rate(),
                second_rate: self.rate(),
                loss: self.up_to(MOST_LOSS),
                ceiling,
                inflow: self.up_to(ceiling),
                draw: 0,
                weights: self.weights(),
            }
        }

        fn river(&mut self) -> River {
            made(self.river_line().make()).0
        }

        /// A hill's chain, without the plot.
        fn hill(&mut self) -> Hill {
            let line = self.hill_line();
            let leak = Leak::new(line.loss, recession(line.rate, line.ceiling));
            made(Chain::new(made(line.make_slope()), made(leak)))
        }

        /// The next line of a basin's making, or a call.
        fn line(&mut self, script: &Script) -> String {
            match &script.site {
                Site::Bare => text("turf", &self.turf_line().figures()),
                Site::Turf(_) => text("hill", &self.hill_line().figures()),
                Site::Hill(..) => text("river", &self.river_line().figures()),
                Site::Open(basin) => self.call(basin, script.parcels.len() as u64),
            }
        }

        fn call(&mut self, basin: &Basin<Land, River>, parcels: u64) -> String {
            match self.below(20) {
                0..=8 => {
                    let segment = self.below(2);
                    let room = basin.bank.segment(segment).map_or(0, Segment::room);
                    let depth = self.near(room.min(MOST_RAIN));
                    let demand = self.near(MOST_DEMAND);
                    format!("rain {segment} {depth} {demand}")
                }
                9..=12 => "turn".into(),
                13..=14 => format!("draw {}", self.near(basin.channel.content())),
                15..=16 => format!("pour {}", self.below(parcels + 1)),
                17 => format!("book {}", self.below(parcels + 1)),
                18 => "closing".into(),
                _ if self.below(4) == 0 => "turf 0 0 0 0 0".into(),
                _ => "question 192".into(),
            }
        }
    }
}
