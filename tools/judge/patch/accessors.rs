// Appended to each copy of the Rust source: a read-only view of what the controller keeps to itself. An absent time or
// wait reads as the controller reads it (0.0 and 6).
impl RateController {
    /// The choice as a place on the front.
    pub const fn seen_index(&self) -> usize {
        self.index
    }

    pub const fn seen_snr_db(&self) -> Option<f64> {
        self.smoothed_snr_db
    }

    pub const fn seen_echo(&self) -> Option<f64> {
        self.echo
    }

    pub fn seen_since(&self, mode: usize) -> f64 {
        self.since(mode)
    }

    pub fn seen_wait(&self, mode: usize) -> usize {
        self.wait(mode)
    }

    pub fn seen_wait_s(&self, mode: usize) -> f64 {
        self.wait_s(mode)
    }

    pub fn seen_priced(&self, mode: usize, per_air: f64) -> f64 {
        self.priced(mode, per_air)
    }

    pub fn seen_estimate_at(&self, mode: usize, snr_db: Option<f64>) -> f64 {
        self.estimate_at(mode, snr_db)
    }

    pub fn seen_usable(&self, index: usize) -> bool {
        self.usable(index)
    }

    pub fn seen_echo_limit(&self, mode: usize) -> Option<f64> {
        self.echo_limit.get(mode).copied().flatten()
    }

    pub const fn seen_probe_tries(&self) -> usize {
        self.probe_tries
    }

    pub const fn seen_try_frames(&self) -> usize {
        self.try_frames
    }

    pub const fn seen_clean_at(&self) -> Option<usize> {
        self.clean_at
    }

    pub const fn seen_ofdm_failed(&self) -> bool {
        self.ofdm_failed
    }

    /// Whether the rung above, `mode`, would be tried without its wait.
    pub fn seen_clean_climb(&self, mode: usize) -> bool {
        self.clean_climb(mode)
    }

    /// The control lengths set, `[floor, ordinary]`.
    pub const fn seen_control_s(&self) -> Option<[f64; 2]> {
        self.control_s
    }

    pub const fn seen_gap_s(&self) -> f64 {
        self.gap_s
    }

    pub fn seen_burst_frames(&self) -> &[usize] {
        &self.burst_frames
    }

    pub const fn seen_families(&self) -> Option<(bool, bool)> {
        self.families
    }

    /// The margin and gain that `for_air` sets.
    pub const fn seen_air_settings(&self) -> (f64, f64) {
        (self.prior_margin_db, self.family_gain_db)
    }

    pub const fn seen_floor_modes(&self) -> usize {
        self.floor_modes
    }
}
