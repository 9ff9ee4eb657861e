//! What the times depend on: the processor and the compiler of the crate's loops.
use std::fs;

fn processor() -> Option<String> {
    let text = fs::read_to_string("/proc/cpuinfo").ok()?;
    let line = text.lines().find(|line| line.starts_with("model name"))?;
    let (_, name) = line.split_once(':')?;
    Some(name.trim().to_string())
}

pub fn print_names() {
    let processor = processor().unwrap_or_else(|| "unknown processor".to_string());
    println!("\n{processor}, {}", env!("COMPILER"));
}
