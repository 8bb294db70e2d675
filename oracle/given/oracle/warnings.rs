//! Keeps the crate's warnings, so that flags can be compared.

use log::{Level, LevelFilter, Log, Metadata, Record};
use std::sync::Mutex;

static SEEN: Mutex<Vec<String>> = Mutex::new(Vec::new());

struct Recorder;

impl Log for Recorder {
    fn enabled(&self, metadata: &Metadata) -> bool {
        metadata.level() <= Level::Warn
    }

    fn log(&self, record: &Record) {
        if self.enabled(record.metadata()) {
            SEEN.lock().expect("one thread").push(record.args().to_string());
        }
    }

    fn flush(&self) {}
}

/// Installs the recorder; once, before the first call.
pub fn record_from_now_on() {
    log::set_logger(&Recorder).expect("no other logger");
    log::set_max_level(LevelFilter::Warn);
}

/// Runs a call and hands back what it warned of.
pub fn during<T>(call: impl FnOnce() -> T) -> (T, Vec<String>) {
    SEEN.lock().expect("one thread").clear();
    let result = call();
    (result, std::mem::take(&mut *SEEN.lock().expect("one thread")))
}

/// Whether a warning begins so.
pub fn any_begins(warnings: &[String], beginning: &str) -> bool {
    warnings.iter().any(|text| text.starts_with(beginning))
}
