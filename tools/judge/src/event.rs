//! The calls on a controller, as events, and their bodies in the form of document 01's "Question file".

/// One call on a controller.
#[derive(Clone, Debug)]
pub enum Event {
    Frames {
        snr_db: Option<f64>,
        frames: Vec<Frame>,
    },
    Echo {
        share: Option<f64>,
        snr_db: f64,
    },
    Silence(u32),
    Snr(Option<f64>),
    Families {
        own_floor: bool,
        other_floor: bool,
    },
    Prices {
        floor_s: f64,
        ordinary_s: f64,
        gap_s: f64,
        bursts: Vec<u16>,
    },
    Seed(f64),
}

/// One frame of a transmission.
#[derive(Clone, Copy, Debug)]
pub struct Frame {
    pub rung: u8,
    pub detected: bool,
    pub decoded: bool,
    pub combined: bool,
    pub capacity: u16,
    pub air_s: f64,
}

/// The kinds' names, kind 1 first.
pub const KINDS: [&str; 7] = [
    "frames", "echo", "silence", "SNR", "families", "prices", "seed",
];

impl Event {
    /// The kind, as the body's first byte has it.
    pub const fn kind(&self) -> u8 {
        match self {
            Self::Frames { .. } => 1,
            Self::Echo { .. } => 2,
            Self::Silence(_) => 3,
            Self::Snr(_) => 4,
            Self::Families { .. } => 5,
            Self::Prices { .. } => 6,
            Self::Seed(_) => 7,
        }
    }

    /// The frames that the call carries.
    pub fn frames(&self) -> &[Frame] {
        match self {
            Self::Frames { frames, .. } => frames,
            _ => &[],
        }
    }

    /// The body: the kind and the fields, little-endian.
    pub fn body(&self) -> Vec<u8> {
        let mut body = vec![self.kind()];
        match self {
            Self::Frames { snr_db, frames } => {
                body.extend(reading(*snr_db));
                frames.iter().for_each(|frame| body.extend(frame.bytes()));
            }
            Self::Echo { share, snr_db } => {
                body.extend(reading(*share));
                body.extend(snr_db.to_le_bytes());
            }
            Self::Silence(steps) => body.extend(steps.to_le_bytes()),
            Self::Snr(snr_db) => body.extend(reading(*snr_db)),
            Self::Families {
                own_floor,
                other_floor,
            } => body.extend([u8::from(*own_floor), u8::from(*other_floor)]),
            Self::Prices {
                floor_s,
                ordinary_s,
                gap_s,
                bursts,
            } => {
                let lengths = [floor_s, ordinary_s, gap_s];
                body.extend(lengths.iter().flat_map(|x| x.to_le_bytes()));
                body.extend(bursts.iter().flat_map(|n| n.to_le_bytes()));
            }
            Self::Seed(snr_db) => body.extend(snr_db.to_le_bytes()),
        }
        body
    }
}

impl Frame {
    fn bytes(&self) -> [u8; 12] {
        let detected = u8::from(self.detected);
        let flags = detected + 2 * u8::from(self.decoded) + 4 * u8::from(self.combined);
        let mut bytes = [0; 12];
        bytes[..2].copy_from_slice(&[self.rung, flags]);
        bytes[2..4].copy_from_slice(&self.capacity.to_le_bytes());
        bytes[4..].copy_from_slice(&self.air_s.to_le_bytes());
        bytes
    }
}

/// "A reading is one byte 0/1 and f64 bits, zero if missing."
pub fn reading(value: Option<f64>) -> [u8; 9] {
    let mut bytes = [0; 9];
    if let Some(value) = value {
        bytes[0] = 1;
        bytes[1..].copy_from_slice(&value.to_le_bytes());
    }
    bytes
}
