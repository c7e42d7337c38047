//! Wrong runs: mistakes with the lent buffer.

use crate::model::room_for_run;
use crate::network_file::read_network;
use crate::stand_in::{change, put_what_fits, report, report_from, text, Report};
use crate::tried::Wrong;

fn wrong(
    name: &'static str,
    does: impl Fn(&[u8], &[u8], &mut [u8]) -> Result<usize, u64> + 'static,
) -> Wrong<Box<Report>> {
    let does = Box::new(does);
    Wrong { name, does }
}

/// All wrong runs.
pub fn all() -> Vec<Wrong<Box<Report>>> {
    let mut all = wrong_texts();
    all.extend(wrong_refusals());
    all
}

/// Mistakes with what is put, and with what is left.
fn wrong_texts() -> Vec<Wrong<Box<Report>>> {
    vec![
        wrong("a byte after the text changed", |file, calls, out| {
            let length = report(file, calls, out)?;
            change(out, length);
            Ok(length)
        }),
        wrong("rest of the buffer cleared", |file, calls, out| {
            let length = report(file, calls, out)?;
            out[length..].fill(0);
            Ok(length)
        }),
        wrong("length without the last newline", |file, calls, out| {
            Ok(report(file, calls, out)? - 1)
        }),
        wrong("text put before 20 is refused", |file, calls, out| {
            put_what_fits(&text(file, calls), out);
            report(file, calls, out)
        }),
        wrong("a byte changed where 20 is refused", |file, calls, out| {
            let last = out.len().wrapping_sub(1);
            report(file, calls, out).inspect_err(|_| change(out, last))
        }),
    ]
}

/// Mistakes with the length from which on a buffer isn't refused.
fn wrong_refusals() -> Vec<Wrong<Box<Report>>> {
    vec![
        wrong("20 one byte too early", |file, calls, out| {
            report_from(room_for_run(calls) + 1, file, calls, out)
        }),
        wrong("20 one byte too late", |file, calls, out| {
            report_from(room_for_run(calls) - 1, file, calls, out)
        }),
        wrong("20 by the text's own length", |file, calls, out| {
            report_from(0, file, calls, out)
        }),
        wrong("20 by all call bytes", |file, calls, out| {
            report_from(22 + 11 * calls.len(), file, calls, out)
        }),
        wrong("20 by at most 65,535 call bytes", |file, calls, out| {
            report_from(22 + 11 * calls.len().min(65_535), file, calls, out)
        }),
        wrong(
            "no 20 where the file is refused",
            |file, calls, out| match read_network(file) {
                Ok(_) => report(file, calls, out),
                Err(_) => report_from(0, file, calls, out),
            },
        ),
    ]
}
