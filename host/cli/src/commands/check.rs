//! The list of every bad slot.

use super::Source;
use crate::answer::Answer;
use crate::failure::Failure;
use crate::json::Json;
use crate::pair::Pair;
use crate::survey::{Bad, Survey};
use crate::wording::{listed, named};

pub fn check(source: &dyn Source) -> Result<Answer, Failure> {
    let Pair { pool, records } = source.load()?;
    let survey = Survey::new(&pool, &records)?;
    let (refused, reads): (Vec<_>, Vec<_>) =
        survey.blobs.iter().partition(|blob| blob.length.is_err());
    let [refused, reads]: [Vec<u64>; 2] =
        [refused, reads].map(|blobs| blobs.iter().map(|blob| blob.root).collect());
    let mut lines: Vec<String> = survey.bad.iter().map(line).collect();
    if !survey.cut_off.is_empty() {
        lines.push(format!("cut off, but not bad: {}", named("slot", &survey.cut_off)));
    }
    if survey.bad.is_empty() {
        lines.push("no bad slot is found".into());
    }
    lines.push(format!("blobs that read whole: {}", listed(&reads, "and")));
    if let Err(refusal) = survey.audit {
        lines.push(format!("blobs that are refused: {}", listed(&refused, "and")));
        lines.push(format!("audit: {refusal}; no change is made until it passes"));
    }
    let fields = vec![
        ("bad", Json::List(survey.bad.iter().map(row).collect())),
        ("reads", Json::numbers(&reads)),
        ("refused", Json::numbers(&refused)),
        ("cut_off", Json::numbers(&survey.cut_off)),
    ];
    let mut answer = Answer::line(lines.join("\n"), fields);
    answer.failure = survey.audit.err().map(Failure::from);
    Ok(answer)
}

/// One bad slot's blobs are all listed up to so many. Of more, only a few are, and
/// the others are counted: every bad slot may hurt every blob.
const MOST_LISTED: usize = 1_024;
const FEW: usize = 12;

/// The blobs to list, and how many more there are.
fn some(hurts: &[u64]) -> (&[u64], usize) {
    let shown = if hurts.len() > MOST_LISTED { FEW } else { hurts.len() };
    (&hurts[..shown], hurts.len() - shown)
}

fn line(Bad { refusal, hurts, cut_off }: &Bad) -> String {
    let (shown, more) = some(hurts);
    let blobs = match (shown.len(), cut_off) {
        (0, false) => "hurts no blob".into(),
        (0, true) => "cut off".into(),
        (_, false) => format!("hurts {}", named("blob", shown)),
        (_, true) => format!("cut off from blob {}", listed(shown, "or")),
    };
    let more = if more > 0 { format!(", and {more} more") } else { String::new() };
    format!("{refusal}; {blobs}{more}")
}

fn row(bad: &Bad) -> Json {
    let (shown, more) = some(&bad.hurts);
    let mut row = vec![
        ("slot", Json::slot(bad.refusal.slot)),
        ("refusal", Json::Number(bad.refusal.number)),
        ("words", Json::text(bad.refusal.words())),
        ("hurts", Json::numbers(shown)),
    ];
    if more > 0 {
        row.push(("hurts_more", Json::Number(more as u64)));
    }
    Json::Object(row)
}
