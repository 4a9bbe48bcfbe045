//! The record of settings that mask.rs takes from its own repository: the five fields it reads.

pub struct Config {
    pub alpha_threshold: i64,
    pub key_bg: bool,
    pub key_bg_fringe: i64,
    pub key_bg_tolerance: f64,
    pub crop_to_alpha: bool,
}
