//! Answers request records by the crate; `-` where the crate has no such call.

fn main() -> std::process::ExitCode {
    crate_oracle::oracle::warnings::record_from_now_on();
    records::serve("crate-oracle", crate_oracle::oracle::answer)
}
