//! What is printed of a finding: how to run it again, both answers, and all that was lent.

use crate::case::{Case, Work};
use crate::check::{check, Disagreement};
use crate::library::Library;
use crate::run::Finding;
use crate::shrink::shrink;
use crate::tally::Tally;

/// Longer lists are cut.
const MOST: usize = 2000;

pub fn report(library: &dyn Library, seed: u64, finding: &Finding) -> String {
    let Finding { number, case, disagreement } = finding;
    let mut text = format!("case {number} of seed {seed} ({}): the two differ\n", case.family);
    text += &describe(disagreement, &case.work);
    let work = shrink(library, &case.work, case.margins);
    let smaller = Case { work, ..case.clone() };
    if let Err(disagreement) = check(library, &smaller, &mut Tally::default()) {
        text += "\nmade smaller:\n";
        text += &describe(&disagreement, &smaller.work);
    }
    text + &format!("\nagain: make compare SEED={seed} CASE={number}\n")
}

fn describe(disagreement: &Disagreement, work: &Work) -> String {
    let Disagreement { call, what, library, second } = disagreement;
    let mut text =
        format!("  call      {call}, {what}\n  library   {library}\n  second    {second}\n");
    let mut row = |name: &str, value: String| text += &format!("  {name:<9} {value}\n");
    match work {
        Work::Reading(reading) => {
            row("bases", reading.bases.to_string());
            row("reference", hex(&reading.reference));
            row("input", hex(&reading.input));
            row("lent", format!("{:?}", reading.room));
            row("section", reading.section.to_string());
        }
        Work::Writing(writing) => {
            row("bases", writing.bases.to_string());
            row("reference", hex(&writing.reference));
            row("letters", cut(&String::from_utf8_lossy(&writing.letters)));
            row("ends", cut(&format!("{:?}", writing.ends)));
            row("names", cut(&writing.names.escape_ascii().to_string()));
            row("name_ends", cut(&format!("{:?}", writing.name_ends)));
            row("positions", cut(&format!("{:?}", writing.positions)));
            row("strands", cut(&format!("{:?}", writing.strands)));
            row("lefts", cut(&format!("{:?}", writing.lefts)));
            row("rights", cut(&format!("{:?}", writing.rights)));
            row("b_id", format!("{}, c_time {}", writing.b_id, writing.c_time));
            row("lent", writing.lent.to_string());
        }
    }
    text
}

fn cut(text: &str) -> String {
    match text.char_indices().nth(MOST) {
        None => text.to_string(),
        Some((end, _)) => format!("{} ... ({} characters in all)", &text[..end], text.len()),
    }
}

fn hex(bytes: &[u8]) -> String {
    let shown: Vec<String> = bytes.iter().take(MOST).map(|byte| format!("{byte:02X}")).collect();
    let more = if bytes.len() > MOST { " ..." } else { "" };
    format!("{} bytes: {}{more}", bytes.len(), shown.join(" "))
}
