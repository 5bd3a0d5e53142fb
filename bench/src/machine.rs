//! What the figures were measured on, and what speaks against trusting them.
use std::env::consts::ARCH;
use std::fs::read_to_string;

/// What /proc/cpuinfo says.
fn cpuinfo() -> String {
    read_to_string("/proc/cpuinfo").unwrap_or_default()
}

/// The first value that it has under a name.
fn named<'a>(info: &'a str, name: &str) -> Option<&'a str> {
    let (_, value) = info.lines().filter_map(|line| line.split_once(':')).find(|(key, _)| key.trim() == name)?;
    Some(value.trim())
}

fn model(info: &str) -> String {
    let arm =
        || Some(format!("Arm, implementer {}, part {}", named(info, "CPU implementer")?, named(info, "CPU part")?));
    let model = named(info, "model name").map(String::from);
    model.or_else(arm).unwrap_or_else(|| "an unknown processor".into())
}

/// The sizes of the first core's caches for data.
fn caches() -> Option<String> {
    let mut sizes = vec![];
    for k in 0..8 {
        let folder = format!("/sys/devices/system/cpu/cpu0/cache/index{k}");
        let read = |name: &str| read_to_string(format!("{folder}/{name}")).map(|s| s.trim().to_string());
        let (Ok(level), Ok(kind), Ok(size)) = (read("level"), read("type"), read("size")) else { break };
        if kind != "Instruction" {
            sizes.push(format!("L{level} {size}"));
        }
    }
    (!sizes.is_empty()).then(|| sizes.join(", "))
}

fn cores() -> usize {
    std::thread::available_parallelism().map_or(1, |n| n.get())
}

/// The machine, and what `bench/run` says about the compilers: BENCH_FACTS has a line for each.
pub fn facts() -> Vec<String> {
    let mut facts = vec![format!("{}, {ARCH}, {} cores", model(&cpuinfo()), cores())];
    facts.extend(caches().map(|sizes| format!("caches: {sizes}")));
    facts.extend(std::env::var("BENCH_FACTS").unwrap_or_default().lines().map(String::from));
    facts
}

/// Whether another processor seems to play this one: it is named so, or has the marks of the other kind.
fn emulated(arch: &str, info: &str) -> bool {
    let foreign = match arch {
        "x86_64" => named(info, "CPU implementer").is_some(),
        "aarch64" => named(info, "vendor_id").is_some(),
        _ => false,
    };
    foreign || ["QEMU", "TCG"].iter().any(|word| model(info).contains(word))
}

/// Whether there are more programs that want to run than cores.
fn crowded() -> bool {
    let load = read_to_string("/proc/loadavg").ok().and_then(|s| s.split(' ').next()?.parse::<f64>().ok());
    load.is_some_and(|load| load > cores() as f64)
}

pub fn warnings() -> Vec<String> {
    let emulated_text =
        "This processor seems to be emulated: the times say nothing about a real one, and the ratios little.";
    let crowded_text = "Other programs were running, more than there are cores: the figures are unsteady.";
    let found = [(emulated_text, emulated(ARCH, &cpuinfo())), (crowded_text, crowded())];
    found.iter().filter(|(_, holds)| *holds).map(|(text, _)| text.to_string()).collect()
}

#[cfg(test)]
mod tests {
    use super::emulated;

    #[test]
    fn an_emulated_processor_is_found() {
        let (intel, arm) = ("vendor_id : GenuineIntel\nmodel name : Intel", "CPU implementer : 0x41\nCPU part : 0xd40");
        assert!(!emulated("x86_64", intel) && !emulated("aarch64", arm));
        assert!(emulated("x86_64", arm) && emulated("aarch64", intel));
        assert!(emulated("x86_64", "vendor_id : AuthenticAMD\nmodel name : QEMU TCG CPU version 2.5+"));
    }
}
