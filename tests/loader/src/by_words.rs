//! The descriptor reader by the words of the documents, one by one and on exact numbers: slow, for the
//! tests alone.

use crate::{Refusal, Step};

/// A number in its shortest form.
pub fn uleb(mut value: u128) -> Vec<u8> {
    let mut out = Vec::new();
    while value >= 128 {
        out.push((value % 128 + 128) as u8);
        value /= 128;
    }
    out.push(value as u8);
    out
}

/// A number as it stands in a table.
pub struct Number {
    pub value: u128,
    pub bytes: usize,
}

impl Number {
    /// The number at the front of some bytes: ten bytes at most, the tenth 0 or 1.
    pub fn read(bytes: &[u8]) -> Option<Number> {
        let count = 1 + bytes.iter().position(|&byte| byte < 128)?;
        if count > 10 || count == 10 && bytes[9] > 1 {
            return None;
        }
        let digits = bytes[..count].iter().rev();
        let value = digits.fold(0, |value, byte| 128 * value + u128::from(byte % 128));
        Some(Number { value, bytes: count })
    }

    pub fn padded(&self) -> bool {
        self.bytes > uleb(self.value).len()
    }
}

/// A descriptor as it stands in a table.
pub struct Form {
    pub first: Number,
    pub second: Option<Number>,
}

impl Form {
    /// The descriptor at the front of some bytes.
    pub fn read(bytes: &[u8]) -> Option<Form> {
        let first = Number::read(bytes)?;
        let second = match first.value % 8 {
            0 => Some(Number::read(&bytes[first.bytes..])?),
            _ => None,
        };
        Some(Form { first, second })
    }

    pub fn bytes(&self) -> usize {
        self.first.bytes + self.second.as_ref().map_or(0, |second| second.bytes)
    }

    pub fn distance(&self) -> u128 {
        self.first.value / 8
    }

    pub fn granules(&self) -> u128 {
        self.second.as_ref().map_or(self.first.value % 8, |second| second.value + 1)
    }

    /// The shortest descriptor that says the same.
    pub fn shortest(&self) -> Vec<u8> {
        match self.granules() {
            granules @ 1..8 => uleb(8 * self.distance() + granules),
            granules => [uleb(8 * self.distance()), uleb(granules - 1)].concat(),
        }
    }

    /// A number is padded, or there is a second one where the size is below 8; all others are as short as
    /// can be.
    pub fn long(&self) -> bool {
        let padded = self.first.padded() || self.second.as_ref().is_some_and(Number::padded);
        let long = padded || self.second.is_some() && self.granules() < 8;
        assert_eq!(long, self.bytes() > self.shortest().len());
        long
    }
}

pub fn step(table: &[u8], position: u64, last_end: u64, index: u64) -> Result<Step, Refusal> {
    let refused = |number| Err(Refusal { number, position: index });
    if position > table.len() as u64 {
        return refused(8);
    }
    if last_end % 16 != 0 || last_end > 1 << 48 {
        return refused(9);
    }
    if position == table.len() as u64 {
        return Ok(Step::Finished);
    }
    let Some(form) = Form::read(&table[position as usize..]) else { return refused(8) };
    if form.long() {
        return refused(16);
    }
    let start = u128::from(last_end) + 16 * form.distance();
    let end = start + 16 * form.granules();
    if end > 1 << 48 {
        return refused(9);
    }
    Ok(Step::Global {
        start: start as u64,
        granules: form.granules() as u64,
        position: position + form.bytes() as u64,
        end: end as u64,
    })
}

/// The descriptors of a table, where each of them reads.
pub fn forms(table: &[u8]) -> Option<Vec<Form>> {
    let (mut list, mut at) = (Vec::new(), 0);
    while at < table.len() {
        list.push(Form::read(&table[at..])?);
        at += list.last()?.bytes();
    }
    Some(list)
}
