//! Document 01's "Question file, sheet, marking" and refusals 10 to 14, written from the document's sentences and from
//! no other code. What an event does is the oracle's.

use crate::event::{Event, Frame};
use crate::limits::{LEAST_FILE, MOST_EVENTS, MOST_FILE};
use crate::oracle::Oracle;
use std::fmt::Write;

/// "Its output buffer is 32,768 bytes."
pub const BUFFER: usize = 32_768;

/// A question file that is not refused.
#[derive(Debug)]
pub struct Paper {
    pub wide: bool,
    pub events: Vec<Event>,
}

impl Paper {
    /// Reads a file, or gives its refusal: 10, 11 or 12, the lowest that applies.
    pub fn read(file: &[u8]) -> Result<Self, u32> {
        let (count, wide) = header(file).ok_or(10_u32)?;
        let bodies = bodies(file, count).ok_or(11_u32)?;
        let events = bodies.into_iter().map(event).collect();
        let events = Option::<Vec<Event>>::ok_or(events, 12_u32)?;
        Ok(Self { wide, events })
    }

    /// The fresh controller of its air.
    pub fn controller(&self) -> Oracle {
        Oracle::for_air(self.wide)
    }

    /// The sheet: a line an event.
    pub fn sheet(&self) -> String {
        let mut oracle = self.controller();
        let mut sheet = String::new();
        for (number, event) in (1..).zip(&self.events) {
            let line = line(&mut oracle, number, event);
            sheet.push_str(&line);
        }
        sheet
    }

    /// The marks, right and counted: "one answer byte an event, right if it equals the choice after that event; refused
    /// events don't count". 14 if there are more answers or fewer.
    pub fn marks(&self, answers: &[u8]) -> Result<(u32, u32), u32> {
        if answers.len() != self.events.len() {
            return Err(14);
        }
        let (mut right, mut counted) = (0, 0);
        for (&answer, choice) in answers.iter().zip(self.choices()) {
            right += u32::from(choice == Some(answer.into()));
            counted += u32::from(choice.is_some());
        }
        Ok((right, counted))
    }

    /// The choice after each event, none where the event is refused.
    pub fn choices(&self) -> Vec<Option<usize>> {
        let mut oracle = self.controller();
        let mut choice = |event| {
            let accepted = oracle.take(event).verdict == 0;
            accepted.then(|| oracle.rate.choice())
        };
        self.events.iter().map(&mut choice).collect()
    }
}

/// The sheet of a file, or the refusal: 10 to 12.
pub fn sheet(file: &[u8]) -> Result<String, u32> {
    Ok(Paper::read(file)?.sheet())
}

/// The sheet in an output slice of a length: 13 if "the whole sheet is longer".
pub fn fitted(sheet: Result<&str, u32>, room: usize) -> Result<&str, u32> {
    match sheet {
        Ok(sheet) if sheet.len() > room => Err(13),
        other => other,
    }
}

/// What the program `sheet` prints for a file: the sheet, or "`refused` and the number".
pub fn printed(file: &[u8]) -> String {
    let sheet = sheet(file);
    let whole = sheet.as_deref().map_err(|number| *number);
    match fitted(whole, BUFFER) {
        Ok(sheet) => sheet.to_owned(),
        Err(number) => format!("refused {number}\n"),
    }
}

/// "event (from 1), choice, tried rung or `-`, OFDM refused, ended, begun; or event, `refused`, number"
fn line(oracle: &mut Oracle, number: u32, event: &Event) -> String {
    let answer = oracle.take(event);
    if answer.verdict != 0 {
        return format!("{number} refused {}\n", answer.verdict);
    }
    let mut line = format!("{number} {} ", oracle.rate.choice());
    match oracle.rate.probing() {
        Some(rung) => write!(line, "{rung}"),
        None => write!(line, "-"),
    }
    .expect("a string takes any text");
    let marks = [oracle.ofdm_refused(), answer.ended, answer.begun];
    for mark in marks.map(u8::from) {
        write!(line, " {mark}").expect("a string takes any text");
    }
    line + "\n"
}

/// Event count, and whether the air is wide; none for "under 8 or over 65,536 bytes, unknown air, over 1,000 events".
fn header(file: &[u8]) -> Option<(usize, bool)> {
    if file.len() < LEAST_FILE || file.len() > MOST_FILE {
        return None;
    }
    let (count, air) = (whole(file, 0)?, whole(file, 4)?);
    if count > MOST_EVENTS || (air != 1 && air != 2) {
        return None;
    }
    Some((count as usize, air == 1))
}

/// The bodies; none if the pairs break their rule: "first body follows the pairs, each next where the last ended, the
/// final one at the file's end".
fn bodies(file: &[u8], count: usize) -> Option<Vec<&[u8]>> {
    let mut end = 8 + 8 * count;
    let mut bodies = Vec::new();
    for pair in 0..count {
        let offset = whole(file, 8 + 8 * pair)? as usize;
        let length = whole(file, 12 + 8 * pair)? as usize;
        if offset != end {
            return None;
        }
        end += length;
        bodies.push(file.get(offset..end)?);
    }
    (end == file.len()).then_some(bodies)
}

fn whole(file: &[u8], at: usize) -> Option<u32> {
    let bytes = file.get(at..at + 4)?;
    Some(u32::from_le_bytes(bytes.try_into().ok()?))
}

/// The event of a body; none if it "breaks its kind's form".
pub fn event(body: &[u8]) -> Option<Event> {
    let (&kind, fields) = body.split_first()?;
    let mut fields = Fields(fields);
    let event = match kind {
        1 => {
            let snr_db = fields.reading()?;
            let mut frames = Vec::new();
            while !fields.0.is_empty() {
                frames.push(fields.frame()?);
            }
            Event::Frames { snr_db, frames }
        }
        2 => Event::Echo {
            share: fields.reading()?,
            snr_db: fields.value()?,
        },
        3 => Event::Silence(u32::from_le_bytes(fields.take()?)),
        4 => Event::Snr(fields.reading()?),
        5 => Event::Families {
            own_floor: fields.mark()?,
            other_floor: fields.mark()?,
        },
        6 => {
            let [floor_s, ordinary_s] = [fields.value()?, fields.value()?];
            let gap_s = fields.value()?;
            let mut bursts = Vec::new();
            while !fields.0.is_empty() {
                bursts.push(u16::from_le_bytes(fields.take()?));
            }
            Event::Prices {
                floor_s,
                ordinary_s,
                gap_s,
                bursts,
            }
        }
        7 => Event::Seed(fields.value()?),
        _ => return None,
    };
    fields.0.is_empty().then_some(event)
}

/// What is left of a body.
struct Fields<'a>(&'a [u8]);

impl Fields<'_> {
    fn take<const N: usize>(&mut self) -> Option<[u8; N]> {
        let (taken, left) = self.0.split_first_chunk()?;
        self.0 = left;
        Some(*taken)
    }

    fn value(&mut self) -> Option<f64> {
        self.take().map(f64::from_le_bytes)
    }

    fn mark(&mut self) -> Option<bool> {
        match self.take()? {
            [0] => Some(false),
            [1] => Some(true),
            _ => None,
        }
    }

    /// "one byte 0/1 and f64 bits, zero if missing"
    fn reading(&mut self) -> Option<Option<f64>> {
        let known = self.mark()?;
        let value = self.value()?;
        if known {
            Some(Some(value))
        } else {
            (value.to_bits() == 0).then_some(None)
        }
    }

    /// "rung u8, flags u8 (1 detected, 2 decoded, 4 combined), capacity u16, air f64"
    fn frame(&mut self) -> Option<Frame> {
        let [rung, flags] = self.take()?;
        if flags > 7 {
            return None;
        }
        Some(Frame {
            rung,
            detected: flags & 1 != 0,
            decoded: flags & 2 != 0,
            combined: flags & 4 != 0,
            capacity: u16::from_le_bytes(self.take()?),
            air_s: self.value()?,
        })
    }
}

/// The file of these bodies, whatever they hold.
pub fn file(air: u32, bodies: &[Vec<u8>]) -> Vec<u8> {
    let mut file = Vec::new();
    let mut put = |number: usize| file.extend((number as u32).to_le_bytes());
    put(bodies.len());
    put(air as usize);
    let mut at = 8 + 8 * bodies.len();
    for body in bodies {
        put(at);
        put(body.len());
        at += body.len();
    }
    bodies.iter().for_each(|body| file.extend(body));
    file
}

#[cfg(test)]
mod tests {
    use super::*;
    use crate::draw::samples::{self, sample_frame as frame, sent};

    fn wide(events: &[Event]) -> Vec<u8> {
        let bodies: Vec<Vec<u8>> = events.iter().map(Event::body).collect();
        file(1, &bodies)
    }

    /// The sheet that document 01 prints.
    #[test]
    fn printed_example() {
        let file = wide(&samples::printed_example());
        let wanted = "1 19 - 0 0 0\n2 17 - 0 0 0\n3 0 - 0 0 0\n4 refused 8\n";
        assert_eq!(printed(&file), wanted);
        assert_eq!(fitted(Ok(wanted), wanted.len() - 1), Err(13));
        assert_eq!(fitted(Ok(wanted), wanted.len()), Ok(wanted));
        let paper = Paper::read(&file).unwrap();
        assert_eq!(paper.marks(&[19, 17, 1, 0]), Ok((2, 3)));
        assert_eq!(paper.marks(&[19, 17, 1]), Err(14));
    }

    /// Document 01's examples that are "Checked by a program".
    #[test]
    fn checked_examples() {
        let mut events = vec![sent(vec![frame(0, true)]); 6];
        events.push(sent(vec![frame(1, false); 3]));
        let printed_lines = printed(&wide(&events));
        let lines: Vec<&str> = printed_lines.lines().collect();
        assert_eq!(lines[5..], ["6 0 1 0 0 1", "7 0 - 0 1 0"]);
        let lost = wide(&[sent(vec![frame(7, false)])]);
        assert_eq!(printed(&lost), "1 0 - 1 0 0\n");
        let most = wide(&[
            sent(vec![frame(0, true); 256]),
            sent(vec![frame(0, true); 257]),
        ]);
        assert!(printed(&most).ends_with("2 refused 7\n"));
    }

    #[test]
    fn refused_files() {
        assert_eq!(printed(&[]), "refused 10\n");
        assert_eq!(printed(&file(1, &[])), "");
        assert_eq!(printed(&file(3, &[])), "refused 10\n");
        let mut longer = file(2, &[]);
        longer.push(0);
        assert_eq!(printed(&longer), "refused 11\n");
        assert_eq!(printed(&file(1, &[vec![]])), "refused 12\n");
        let mut missing = vec![4, 0];
        missing.extend((-0.0_f64).to_le_bytes());
        assert_eq!(printed(&file(1, &[missing])), "refused 12\n");
        let nan = Event::Snr(Some(f64::NAN)).body();
        assert_eq!(printed(&file(1, &[nan])), "1 refused 8\n");
    }
}
