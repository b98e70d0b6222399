//! Solver configuration.
use crate::Error;

/// Configurable parameters used during solving.
#[derive(Clone, Debug, PartialEq)]
pub struct SolverConfig {
    /// Multiplicative decay for the VSIDS decision heuristic, from 0.5 to 1.0, in thousandths and at most 0.999.
    pub vsids_decay: f32,
    /// Multiplicative decay for clause activities, from 0.5 to 1.0, in thousandths and at most 0.999.
    pub clause_activity_decay: f32,
    /// Number of conflicts between local clause reductions, from 1 on.
    pub reduce_locals_interval: u64,
    /// Number of conflicts between mid clause reductions, from 1 on.
    pub reduce_mids_interval: u64,
    /// Scaling factor for luby sequence based restarts (number of conflicts), from 1 on.
    pub luby_restart_interval_scale: u64,
}

impl Default for SolverConfig {
    fn default() -> Self {
        SolverConfig {
            vsids_decay: 0.95,
            clause_activity_decay: 0.999,
            reduce_locals_interval: 15000,
            reduce_mids_interval: 10000,
            luby_restart_interval_scale: 128,
        }
    }
}

/// The parameters of a [`SolverConfig`] that are to change.
#[derive(Clone, Debug, Default, PartialEq)]
pub struct SolverConfigUpdate {
    pub vsids_decay: Option<f32>,
    pub clause_activity_decay: Option<f32>,
    pub reduce_locals_interval: Option<u64>,
    pub reduce_mids_interval: Option<u64>,
    pub luby_restart_interval_scale: Option<u64>,
}

impl SolverConfigUpdate {
    /// An update that changes nothing.
    pub fn new() -> SolverConfigUpdate {
        SolverConfigUpdate::default()
    }

    /// Whether it changes nothing.
    pub fn is_empty(&self) -> bool {
        *self == SolverConfigUpdate::default()
    }

    /// Takes what the other update changes, too. Of a parameter that both change its value is taken.
    pub fn merge(&mut self, other: SolverConfigUpdate) {
        self.vsids_decay = other.vsids_decay.or(self.vsids_decay);
        self.clause_activity_decay = other.clause_activity_decay.or(self.clause_activity_decay);
        self.reduce_locals_interval = other.reduce_locals_interval.or(self.reduce_locals_interval);
        self.reduce_mids_interval = other.reduce_mids_interval.or(self.reduce_mids_interval);
        self.luby_restart_interval_scale = other.luby_restart_interval_scale.or(self.luby_restart_interval_scale);
    }

    /// Changes the configuration, if all values are in their ranges.
    pub fn apply(&self, config: &mut SolverConfig) -> Result<(), Error> {
        for (name, decay) in [("vsids_decay", self.vsids_decay), ("clause_activity_decay", self.clause_activity_decay)] {
            if decay.is_some_and(|it| !(0.5..1.0).contains(&it)) {
                return Err(format!("{name} is not in the range 0.5..1.0").into());
            }
        }
        let numbers = [
            ("reduce_locals_interval", self.reduce_locals_interval),
            ("reduce_mids_interval", self.reduce_mids_interval),
            ("luby_restart_interval_scale", self.luby_restart_interval_scale),
        ];
        if let Some((name, _)) = numbers.iter().find(|(_, value)| *value == Some(0)) {
            return Err(format!("{name} is not in the range 1..").into());
        }
        config.vsids_decay = self.vsids_decay.unwrap_or(config.vsids_decay);
        config.clause_activity_decay = self.clause_activity_decay.unwrap_or(config.clause_activity_decay);
        config.reduce_locals_interval = self.reduce_locals_interval.unwrap_or(config.reduce_locals_interval);
        config.reduce_mids_interval = self.reduce_mids_interval.unwrap_or(config.reduce_mids_interval);
        config.luby_restart_interval_scale = self.luby_restart_interval_scale.unwrap_or(config.luby_restart_interval_scale);
        Ok(())
    }
}
