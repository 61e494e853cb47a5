//! Runs a program over rows and holds every byte of its answers to the oracle's.
//! Rows go to the program on a thread of their own, so that neither side waits for the other.

use crate::counts::Counts;
use crate::entries;
use crate::measure::Measures;
use crate::ranges::NO_ENTRY;
use crate::row::{Answer, Row, ANSWER};
use std::io::{self, BufReader, BufWriter, Read, Write};
use std::process::{Command, Stdio};
use std::sync::mpsc::{channel, Sender};
use std::thread;

/// How many differences are shown.
const SHOWN: u64 = 10;

/// Whether all answers are equal. Entries that are not ported may answer 255.
pub fn run(
    rows: impl Iterator<Item = Row> + Send + 'static,
    ported: &[u8],
    command: &[String],
) -> Result<bool, String> {
    let program = command.first().ok_or("compare needs a command after --")?;
    let mut child = Command::new(program)
        .args(&command[1..])
        .stdin(Stdio::piped())
        .stdout(Stdio::piped())
        .spawn()
        .map_err(|e| format!("{program} cannot be run: {e}"))?;
    let (sender, receiver) = channel();
    let stdin = child.stdin.take().expect("it is piped");
    let feeder = thread::spawn(move || feed(rows, sender, stdin));
    let mut stdout = BufReader::new(child.stdout.take().expect("it is piped"));

    let (mut counts, mut measures) = (Counts::default(), Measures::default());
    let mut unanswered = 0u64;
    for row in receiver {
        let mut bytes = [0; ANSWER];
        if unanswered > 0 || stdout.read_exact(&mut bytes).is_err() {
            unanswered += 1;
            continue;
        }
        let answer = entries::answer(&row);
        if answer.refusal == 0 {
            measures.add(&row, &answer);
        }
        let waits = !ported.contains(&row.entry) && row.entry != 0;
        if waits && bytes == Answer::refused(NO_ENTRY).bytes() && answer.refusal != NO_ENTRY {
            counts.skip(row.entry, answer.refusal);
            continue;
        }
        let same = bytes == answer.bytes();
        counts.add(row.entry, answer.refusal, same);
        if !same && counts.differ() <= SHOWN {
            show(counts.rows() + unanswered, &row, &answer.bytes(), &bytes);
        }
    }
    let extra = io::copy(&mut stdout, &mut io::sink()).map_err(|e| e.to_string())?;
    let ended = child.wait().map_err(|e| e.to_string())?;
    let fed = feeder.join().expect("the feeding thread ends by itself");

    print!("{counts}{measures}");
    let early: Vec<u8> = counts
        .answered()
        .into_iter()
        .filter(|e| !ported.contains(e))
        .collect();
    if !early.is_empty() {
        println!("answered already, though not named as ported: {early:?}");
    }
    if unanswered > 0 || extra > 0 {
        println!("{unanswered} rows without an answer, {extra} bytes after the last one");
    }
    if !ended.success() {
        println!("the program ended with {ended}");
    }
    if let Err(e) = fed {
        println!("rows could not be handed over: {e}");
    }
    let compared = counts.rows() - counts.skipped();
    println!(
        "rows {compared} differ {} skipped {}",
        counts.differ(),
        counts.skipped()
    );
    Ok(counts.differ() == 0 && unanswered == 0 && extra == 0 && compared > 0 && ended.success())
}

fn feed(rows: impl Iterator<Item = Row>, sender: Sender<Row>, to: impl Write) -> io::Result<()> {
    let mut to = BufWriter::with_capacity(1 << 16, to);
    let mut broken = Ok(());
    for row in rows {
        if broken.is_ok() {
            broken = to.write_all(&row.bytes());
        }
        if sender.send(row).is_err() {
            break;
        }
    }
    broken.and_then(|()| to.flush())
}

fn show(number: u64, row: &Row, wanted: &[u8], got: &[u8]) {
    println!(
        "row {number}: entry {} whole {} first {:?} ({:016x}) second {:?} ({:016x})",
        row.entry,
        row.whole,
        row.first,
        row.first.to_bits(),
        row.second,
        row.second.to_bits()
    );
    for (side, bytes) in [("oracle ", wanted), ("program", got)] {
        let answer = Answer::read(bytes);
        let letter = if answer.letter == 0 {
            '-'
        } else {
            answer.letter as char
        };
        println!(
            "  {side} refusal {} letter {letter} {:?}",
            answer.refusal, answer.numbers
        );
    }
    if wanted[2..8] != got[2..8] {
        println!(
            "  bytes 2 to 7: oracle {:?}, program {:?}",
            &wanted[2..8],
            &got[2..8]
        );
    }
}
