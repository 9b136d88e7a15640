//! Which processor the figures are of.

use std::process::Command;

pub fn name() -> String {
    let architecture = std::env::consts::ARCH;
    let listed = Command::new("lscpu").output().map(|output| output.stdout).unwrap_or_default();
    let text = String::from_utf8_lossy(&listed);
    let model = text.lines().find_map(|line| line.strip_prefix("Model name:"));
    format!("processor: {} ({architecture})", model.map_or("of unknown model", str::trim))
}
