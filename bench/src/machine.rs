//! What is known of the machine and of the peers installed on it.

use std::process::Command;
use std::{env, fs};

/// One line: processor, cores, memory, and the load when the benchmark began.
pub fn description() -> String {
    let processor = |key| value_in("/proc/cpuinfo", key).unwrap_or("unknown".to_string());
    let cores = std::thread::available_parallelism().map_or(1, usize::from);
    let memory = value_in("/proc/meminfo", "MemTotal").unwrap_or("unknown".to_string());
    let load = fs::read_to_string("/proc/loadavg").unwrap_or_default();
    format!(
        "{}, {} MHz, cores: {cores}, memory: {memory}, load at the start: {}",
        processor("model name"),
        processor("cpu MHz"),
        load.split(' ').next().unwrap_or_default()
    )
}

fn value_in(file: &str, key: &str) -> Option<String> {
    let text = fs::read_to_string(file).ok()?;
    let line = text.lines().find(|line| line.starts_with(key))?;
    Some(line.split_once(':')?.1.trim().to_string())
}

pub fn on_path(program: &str) -> bool {
    let path = env::var_os("PATH").unwrap_or_default();
    env::split_paths(&path).any(|folder| folder.join(program).is_file())
}

/// The first line that the program prints about its version.
pub fn version(program: &str, option: &str) -> String {
    if !on_path(program) {
        return "not installed".to_string();
    }
    let output = match Command::new(program).arg(option).output() {
        Ok(output) => output,
        Err(error) => return error.to_string(),
    };
    let text = String::from_utf8_lossy(&output.stdout);
    let line = text.lines().find(|line| !line.trim().is_empty());
    line.unwrap_or("unknown version").trim().to_string()
}
