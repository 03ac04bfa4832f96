//! The reader of rule sheets.
//!
//! A sheet is read once, front to back. The same scan serves [`read`], which
//! keeps what it saw, and [`read_number`] and [`read_place`], which keep nothing
//! and allocate nothing: the scan is generic in a [`Keeper`] that is told of
//! each record.

/// The most letters a sheet may have.
pub const MOST_LETTERS: u8 = 24;
/// The most limits a sheet may have.
pub const MOST_LIMITS: u8 = 32;
/// The most promises a sheet may have.
pub const MOST_PROMISES: u8 = 16;
/// The most bytes a sheet may have.
pub const MOST_BYTES: usize = 4096;
/// The bytes before the first record.
pub const HEADER: usize = 8;

/// The first fault of a sheet.
#[derive(Clone, Copy, Debug, PartialEq, Eq)]
pub struct Fault {
    /// The fault's number in document 01, from 1 to 10.
    pub number: u32,
    /// The byte at fault: 0 for fault 1; the header's byte for 2 to 5; the
    /// record's length byte for 6 and 7 (the sheet's length if that byte is
    /// missing); the literal's byte for 8 and 9; the first surplus byte for 10.
    pub place: usize,
}

/// A limit on how many literals of a list are true.
#[derive(Clone, Copy, Debug, PartialEq, Eq)]
pub struct Limit<'s> {
    /// True for "exactly", false for "at most".
    pub exactly: bool,
    /// The number m of the limit.
    pub bound: u8,
    /// The list, strictly ascending.
    pub literals: &'s [i8],
}

/// A step rule: when all of the left side held before, some of the right side
/// holds after.
#[derive(Clone, Copy, Debug, PartialEq, Eq)]
pub struct Step<'s> {
    /// Joined by and; empty is true.
    pub left: &'s [i8],
    /// Joined by or; empty is false.
    pub right: &'s [i8],
}

/// A good sheet. Its lists are kept as spans of one array of signed bytes.
#[derive(Clone, Debug)]
pub struct Sheet {
    letters: u8,
    bytes: Vec<i8>,
    limits: Vec<(bool, u8, Span)>,
    first: Vec<Span>,
    steps: Vec<(Span, Span)>,
    promises: Vec<i8>,
}

/// A list's place in the sheet. A sheet has at most 4,096 bytes.
#[derive(Clone, Copy, Debug)]
struct Span {
    from: u16,
    to: u16,
}

impl Span {
    fn new(from: usize, length: usize) -> Span {
        debug_assert!(from + length <= MOST_BYTES);
        Span { from: from as u16, to: (from + length) as u16 }
    }
}

impl Sheet {
    /// The number of letters, 1 to 24.
    pub fn letters(&self) -> u32 {
        u32::from(self.letters)
    }

    /// The limits in the sheet's order.
    pub fn limits(&self) -> impl Iterator<Item = Limit<'_>> {
        self.limits.iter().map(|&(exactly, bound, list)| Limit {
            exactly,
            bound,
            literals: self.list(list),
        })
    }

    /// The first rules in the sheet's order.
    pub fn first_rules(&self) -> impl Iterator<Item = &[i8]> {
        self.first.iter().map(|&list| self.list(list))
    }

    /// The step rules in the sheet's order.
    pub fn step_rules(&self) -> impl Iterator<Item = Step<'_>> {
        self.steps
            .iter()
            .map(|&(left, right)| Step { left: self.list(left), right: self.list(right) })
    }

    /// The same sheet with only the step rules of these numbers, counted from 1.
    pub fn with_steps(&self, numbers: &[usize]) -> Sheet {
        let steps = numbers.iter().map(|&number| self.steps[number - 1]).collect();
        Sheet { steps, ..self.clone() }
    }

    /// The promises in the sheet's order; promise i stands at i - 1.
    pub fn promises(&self) -> &[i8] {
        &self.promises
    }

    fn list(&self, span: Span) -> &[i8] {
        &self.bytes[usize::from(span.from)..usize::from(span.to)]
    }
}

/// Reads a sheet, or names its first fault.
pub fn read(sheet: &[u8]) -> Result<Sheet, Fault> {
    let mut kept = Sheet {
        letters: 0,
        bytes: Vec::new(),
        limits: Vec::new(),
        first: Vec::new(),
        steps: Vec::new(),
        promises: Vec::new(),
    };
    scan(sheet, &mut kept)?;
    kept.bytes = sheet.iter().map(|&byte| byte as i8).collect();
    Ok(kept)
}

/// The reader's number and place: 0 and 0 for a good sheet.
pub fn read_place(sheet: &[u8]) -> (u32, u32) {
    match scan(sheet, &mut Nothing) {
        Ok(()) => (0, 0),
        Err(fault) => (fault.number, fault.place as u32),
    }
}

/// The reader's number alone: 0 for a good sheet, else 1 to 10.
pub fn read_number(sheet: &[u8]) -> u32 {
    match scan(sheet, &mut Nothing) {
        Ok(()) => 0,
        Err(fault) => fault.number,
    }
}

/// What the scan tells of a sheet as it goes along.
trait Keeper {
    fn header(&mut self, letters: u8, limits: u8, first: u8, steps: u8, promises: u8);
    fn limit(&mut self, exactly: bool, bound: u8, list: Span);
    fn first(&mut self, list: Span);
    fn step(&mut self, left: Span, right: Span);
    fn promise(&mut self, literal: i8);
}

impl Keeper for Sheet {
    fn header(&mut self, letters: u8, limits: u8, first: u8, steps: u8, promises: u8) {
        self.letters = letters;
        self.limits.reserve_exact(limits.into());
        self.first.reserve_exact(first.into());
        self.steps.reserve_exact(steps.into());
        self.promises.reserve_exact(promises.into());
    }
    fn limit(&mut self, exactly: bool, bound: u8, list: Span) {
        self.limits.push((exactly, bound, list));
    }
    fn first(&mut self, list: Span) {
        self.first.push(list);
    }
    fn step(&mut self, left: Span, right: Span) {
        self.steps.push((left, right));
    }
    fn promise(&mut self, literal: i8) {
        self.promises.push(literal);
    }
}

/// Keeps nothing, so the compiler leaves only the tests of the scan.
struct Nothing;

impl Keeper for Nothing {
    fn header(&mut self, _: u8, _: u8, _: u8, _: u8, _: u8) {}
    fn limit(&mut self, _: bool, _: u8, _: Span) {}
    fn first(&mut self, _: Span) {}
    fn step(&mut self, _: Span, _: Span) {}
    fn promise(&mut self, _: i8) {}
}

#[cold]
fn fault<T>(number: u32, place: usize) -> Result<T, Fault> {
    Err(Fault { number, place })
}

/// One pass over the sheet, in document 01's order of faults.
#[inline]
fn scan(sheet: &[u8], keeper: &mut impl Keeper) -> Result<(), Fault> {
    let &[version, high, low, letters, limits, first, steps, promises, ..] = sheet else {
        return fault(1, 0);
    };
    if sheet.len() > MOST_BYTES {
        return fault(1, 0);
    }
    if version != 1 {
        return fault(2, 0);
    }
    if usize::from(u16::from_be_bytes([high, low])) != sheet.len() {
        return fault(3, 1);
    }
    if letters == 0 || letters > MOST_LETTERS {
        return fault(4, 3);
    }
    if limits > MOST_LIMITS {
        return fault(5, 4);
    }
    if promises > MOST_PROMISES {
        return fault(5, 7);
    }
    keeper.header(letters, limits, first, steps, promises);

    // `at` is the length byte of the record in hand; its bytes begin one later.
    let mut at = HEADER;
    for _ in 0..limits {
        let body = record(sheet, at)?;
        match body {
            [kind, bound, list @ ..] if *kind <= 1 => {
                literals(list, at + 3, letters)?;
                keeper.limit(*kind == 0, *bound, Span::new(at + 3, list.len()));
            }
            _ => return fault(7, at),
        }
        at += 1 + body.len();
    }
    for _ in 0..first {
        let list = record(sheet, at)?;
        literals(list, at + 1, letters)?;
        keeper.first(Span::new(at + 1, list.len()));
        at += 1 + list.len();
    }
    for _ in 0..steps {
        let body = record(sheet, at)?;
        let Some((left, right)) = sides(body) else {
            return fault(7, at);
        };
        let middle = at + 2 + left.len();
        literals(left, at + 2, letters)?;
        literals(right, middle, letters)?;
        keeper.step(Span::new(at + 2, left.len()), Span::new(middle, right.len()));
        at += 1 + body.len();
    }
    for _ in 0..promises {
        let body = record(sheet, at)?;
        let &[literal] = body else {
            return fault(7, at);
        };
        literals(body, at + 1, letters)?;
        keeper.promise(literal as i8);
        at += 2;
    }
    if at < sheet.len() {
        return fault(10, at);
    }
    Ok(())
}

/// The bytes of the record whose length byte stands at `at`, or fault 6. An
/// earlier record never reaches past the end, so `at` is at most the length.
#[inline]
fn record(sheet: &[u8], at: usize) -> Result<&[u8], Fault> {
    let Some((&length, rest)) = sheet.get(at..).and_then(<[u8]>::split_first) else {
        return fault(6, sheet.len());
    };
    match rest.get(..usize::from(length)) {
        Some(body) => Ok(body),
        None => fault(6, at),
    }
}

/// A step rule's two sides, unless the record is empty or its count too large.
#[inline]
fn sides(body: &[u8]) -> Option<(&[u8], &[u8])> {
    let (&count, lists) = body.split_first()?;
    lists.split_at_checked(usize::from(count))
}

/// Judges one list whose first literal stands at `place`: every size from 1 to
/// `letters` (fault 8), strictly ascending (fault 9).
#[inline]
fn literals(list: &[u8], place: usize, letters: u8) -> Result<(), Fault> {
    // Below every good literal; -128 itself fails on its size.
    let mut last = i8::MIN;
    for (offset, &byte) in list.iter().enumerate() {
        let literal = byte as i8;
        // Size 0 wraps round to 255; -128 has size 128. Neither is good.
        let bad_size = literal.unsigned_abs().wrapping_sub(1) >= letters;
        // One branch for a good literal; the fault is told apart on the way out.
        if bad_size | (literal <= last) {
            return fault(if bad_size { 8 } else { 9 }, place + offset);
        }
        last = literal;
    }
    Ok(())
}
