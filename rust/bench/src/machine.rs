//! The machine that the times are taken on.

use std::fs;
use std::thread;

/// The processor's name and the number of its cores, as far as the system tells them.
pub fn kind() -> String {
    let told = fs::read_to_string("/proc/cpuinfo").unwrap_or_default();
    let named = told.lines().find_map(|line| line.strip_prefix("model name"));
    let name =
        named.and_then(|rest| rest.split_once(':')).map_or("unknown", |(_, name)| name.trim());
    let cores = thread::available_parallelism().map_or("unknown".into(), |cores| cores.to_string());
    format!("{name}, cores: {cores}")
}
