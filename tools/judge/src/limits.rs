//! Document 01's limits: "ends included, NaN and infinities outside".

/// The limits of a value.
#[derive(Clone, Copy)]
pub struct Limits {
    pub low: f64,
    pub high: f64,
}

/// "dB values -200 to 200"
pub const DB: Limits = Limits::new(-200.0, 200.0);
/// "slope 0.125 to 16"
pub const SLOPE: Limits = Limits::new(0.125, 16.0);
/// "frame time and air 0.001 to 60 s"
pub const AIR_S: Limits = Limits::new(0.001, 60.0);
/// "control lengths and gap 0 to 60 s"
pub const CONTROL_S: Limits = Limits::new(0.0, 60.0);
/// "echo share and limit 0 to 1"
pub const SHARE: Limits = Limits::new(0.0, 1.0);
/// "payload and capacity 0 to 4,096"
pub const MOST_BYTES: u32 = 4096;
/// "burst count 0 to 1,000"
pub const MOST_BURST: u32 = 1000;

/// "over 32 entries", "over 32 burst counts"
pub const MOST_ENTRIES: usize = 32;
/// "over 256 frames"
pub const MOST_FRAMES: usize = 256;
/// "question file under 8 or over 65,536 bytes"
pub const LEAST_FILE: usize = 8;
pub const MOST_FILE: usize = 65_536;
/// "over 1,000 events"
pub const MOST_EVENTS: u32 = 1000;

impl Limits {
    const fn new(low: f64, high: f64) -> Self {
        Self { low, high }
    }

    pub fn hold(self, x: f64) -> bool {
        self.low <= x && x <= self.high
    }

    /// A missing reading breaks no limit.
    pub fn hold_reading(self, reading: Option<f64>) -> bool {
        reading.is_none_or(|x| self.hold(x))
    }
}

#[cfg(test)]
mod tests {
    use super::*;

    #[test]
    fn ends_included() {
        assert!(DB.hold(-200.0) && DB.hold(200.0) && SHARE.hold(-0.0));
        assert!(!DB.hold(200.0_f64.next_up()) && !SHARE.hold(0.0_f64.next_down()));
        for x in [f64::NAN, f64::INFINITY, f64::NEG_INFINITY] {
            assert!(!DB.hold(x) && !DB.hold_reading(Some(x)));
        }
        assert!(DB.hold_reading(None));
    }
}
