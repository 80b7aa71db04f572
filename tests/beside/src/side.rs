//! A side: something that takes the records of a stream one by one and replies in text.

use crate::records::{Known, Reader, Record};

pub trait Side {
    /// The reply to one record: empty, or whole lines.
    fn take(&mut self, record: &Record) -> String;

    /// Booked total and latest end (0 where nothing is booked) of the diary in hand and of each
    /// diary on the board, in board order. No record asks for these, so they are compared here.
    fn totals(&self) -> Vec<(u64, u64)>;
}

/// The reply to each record of a stream, `refused 9` being the last where the stream is bad.
pub fn replies(side: &mut dyn Side, bytes: &[u8], known: Known) -> Vec<String> {
    Reader::new(bytes, known)
        .map(|record| match record {
            Ok(record) => side.take(&record),
            Err(()) => "refused 9\n".to_string(),
        })
        .collect()
}

/// The replies to records that are known to be whole.
pub fn take_all(side: &mut dyn Side, records: &[Record]) -> Vec<String> {
    records.iter().map(|r| side.take(r)).collect()
}

/// The reply to an ask of a diary.
pub fn fit_line(found: Option<(u64, u64)>) -> String {
    found.map_or("none\n".to_string(), |(start, end)| format!("fit {start} {end}\n"))
}

/// The reply to an ask of a work end.
pub fn end_line(found: Option<u64>) -> String {
    found.map_or("none\n".to_string(), |end| format!("end {end}\n"))
}

/// One entry as number, setup, units, companion.
pub type Row = (u64, u64, u64, bool);

/// The reply to an accepted placing: choosing instant, then start, end and entries; an absent
/// choosing instant is 'none', an absent placement 'chosen, none'.
pub fn placing_lines(choosing: Option<u64>, placed: Option<(u64, u64, &[Row])>) -> String {
    let Some(choosing) = choosing else {
        return "none\n".to_string();
    };
    let Some((start, end, rows)) = placed else {
        return format!("chosen {choosing} none\n");
    };
    let mut text = format!("placed {choosing} {start} {end} {}\n", rows.len());
    for &(number, setup, units, companion) in rows {
        text += &format!("entry {number} {setup} {units} {}\n", u8::from(companion));
    }
    text
}
