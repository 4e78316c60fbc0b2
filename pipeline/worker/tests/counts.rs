// The program as a user calls it, to count hours and print totals: months with repeats, workers at once, workers killed, and every refusal.
mod common;

use common::{answer, Folder};
use pivotshade::{encode_to_vec, Table};
use std::fs;
use std::io::{BufRead, BufReader};
use std::os::unix::fs::symlink;
use std::path::Path;
use std::process::{Child, Stdio};
use std::thread::sleep;
use std::time::Duration;
use worker::disk::{Disk, RealDisk};
use worker::table::{from_bytes, to_bytes};

const WIDTH: usize = 5;
const HEIGHT: usize = 3;
const CELLS: usize = WIDTH * HEIGHT;

/// A cell's rain in an hour's frame, of which several may be sent.
fn rain(hour: u64, cell: usize, frame: u32) -> u32 {
    (hour as u32 * 7919 + cell as u32 * 104_729).wrapping_mul(2_654_435_761) ^ frame
}

fn message(hour: u64, width: usize, height: usize, frame: u32) -> Vec<u8> {
    let cells = (0..width * height).flat_map(|cell| rain(hour, cell, frame).to_be_bytes());
    encode_to_vec(cells.collect::<Vec<u8>>(), width as u32, height as u32).unwrap()
}

/// The totals of these hours, each once.
fn once(hours: &[u64]) -> Vec<u64> {
    let total = |cell| {
        hours
            .iter()
            .map(|&hour| u64::from(rain(hour, cell, 0)))
            .sum()
    };
    (0..CELLS).map(total).collect()
}

/// A folder with the first frame of each of these hours.
fn sent(test: &str, hours: &[u64]) -> Folder {
    let folder = Folder::new(test);
    for &hour in hours {
        folder.write(&format!("{hour}.qoi"), &message(hour, WIDTH, HEIGHT, 0));
    }
    folder
}

fn count(hour: u64) -> String {
    format!("count {hour}.qoi --hour {hour} --table t")
}

fn counted(hour: u64) -> String {
    format!("hour {hour} counted: {CELLS} cells\n")
}

fn already(hour: u64) -> String {
    format!("hour {hour} was counted already\n")
}

/// What FILE must print and mark, once these hours are counted.
fn has(folder: &Folder, hours: &[u64]) {
    let totals = once(hours);
    let lines: Vec<String> = totals.iter().map(|total| format!("{total}\n")).collect();
    folder.prints("totals --table t", &lines.concat());
    let table = table_of(folder);
    let marked = (0..Table::HOURS as u64).filter(|&hour| table.is_marked(hour));
    let mut sorted = hours.to_vec();
    sorted.sort_unstable();
    assert_eq!(marked.collect::<Vec<u64>>(), sorted);
}

fn table_of(folder: &Folder) -> Table {
    from_bytes(&folder.read("t"), Path::new("t")).unwrap()
}

fn bytes_of(table: &Table) -> Vec<u8> {
    to_bytes(table, Path::new("t")).unwrap()
}

/// Starts a worker and does not wait for it.
fn spawned(folder: &Folder, line: &str) -> Child {
    let mut command = folder.command(line);
    command.stdout(Stdio::piped()).stderr(Stdio::piped());
    command.spawn().unwrap()
}

#[test]
fn a_month_with_repeats() {
    let hours = [743, 0, 17, 18, 400, 1];
    let folder = sent("month", &hours);
    for (place, &hour) in hours.iter().enumerate() {
        folder.prints(&count(hour), &counted(hour));
        for &before in &hours[..=place] {
            let old = folder.read("t");
            folder.prints(&count(before), &already(before));
            assert_eq!(folder.read("t"), old);
        }
        has(&folder, &hours[..=place]);
    }
    // another frame for an hour that is counted, and one that is none, are not looked at
    folder.write("17.qoi", &message(17, WIDTH, HEIGHT, 1));
    folder.write("18.qoi", b"");
    for hour in [17, 18] {
        folder.prints(&count(hour), &already(hour));
    }
    has(&folder, &hours);
    assert_eq!(folder.names()[6..], ["t", "t.lock"]);
}

#[test]
fn workers_at_once_lose_nothing() {
    let hours: Vec<u64> = (0..40).map(|place| place * 19).collect();
    let folder = sent("at-once", &hours);
    let sent_twice = hours.iter().chain(hours.iter().rev());
    let workers: Vec<(u64, Child)> = sent_twice
        .map(|&hour| (hour, spawned(&folder, &count(hour))))
        .collect();
    let mut answers: Vec<(u64, String)> = Vec::new();
    for (hour, worker) in workers {
        let (status, printed, words) = answer(worker.wait_with_output().unwrap());
        assert_eq!((status, words), (0, String::new()));
        answers.push((hour, printed));
    }
    answers.sort();
    let expected = hours
        .iter()
        .map(|&hour| [(hour, counted(hour)), (hour, already(hour))]);
    assert_eq!(answers, expected.collect::<Vec<_>>().concat());
    has(&folder, &hours);
    assert_eq!(folder.names().len(), hours.len() + 2);
}

#[test]
fn one_worker_has_the_lock() {
    let folder = sent("lock", &[3]);
    let held = RealDisk.lock(&folder.path("t.lock")).unwrap();
    let mut waiting = spawned(&folder, &count(3));
    sleep(Duration::from_millis(200));
    assert!(waiting.try_wait().unwrap().is_none());
    assert_eq!(folder.names(), ["3.qoi", "t.lock"]);
    drop(held);
    let ended = answer(waiting.wait_with_output().unwrap());
    assert_eq!(ended, (0, counted(3), String::new()));
    has(&folder, &[3]);
}

/// Killed at some instant, it leaves the old table or the new one, and no lock; the same command then finds out which.
#[test]
fn a_kill_leaves_the_old_table_or_the_new_one() {
    const SIDE: usize = 500;
    let folder = Folder::new("kill");
    let mut table = Table::fresh(SIDE * SIDE);
    let mut frame = vec![0; SIDE * SIDE * 4];
    let mut cut_off = 0;
    for hour in 0..40 {
        let sent = message(hour, SIDE, SIDE, 0);
        folder.write("m.qoi", &sent);
        let line = format!("count m.qoi --hour {hour} --table t");
        let old = fs::read(folder.path("t")).ok();
        let _ = table.count(sent, hour, &mut frame).unwrap();
        let new = Some(bytes_of(&table));

        let mut worker = spawned(&folder, &line);
        sleep(Duration::from_micros(hour * 400));
        worker.kill().unwrap();
        let ended = worker.wait_with_output().unwrap();
        cut_off += usize::from(!ended.status.success());
        let left = fs::read(folder.path("t")).ok();
        assert!(left == old || left == new, "hour {hour}");

        let printed = match left == new {
            true => already(hour),
            false => format!("hour {hour} counted: {} cells\n", SIDE * SIDE),
        };
        folder.prints(&line, &printed);
        assert!(fs::read(folder.path("t")).ok() == new, "hour {hour}");
    }
    assert!(cut_off > 0);
    assert_eq!(folder.names(), ["m.qoi", "t", "t.lock"]);
}

#[test]
fn what_killed_workers_left_beside_the_table_goes() {
    let folder = sent("beside", &[5]);
    folder.write("t.0123456789abcdef.beside", b"half");
    folder.write("t.lock.0123456789abcdef.beside", b"of another file");
    folder.prints(&count(5), &counted(5));
    assert_eq!(
        folder.names(),
        ["5.qoi", "t", "t.lock", "t.lock.0123456789abcdef.beside"]
    );
}

#[test]
fn refused_first_and_good_later() {
    let folder = sent("refused", &[5]);
    let good = folder.read("5.qoi");
    let three = encode_to_vec([7; CELLS * 3], WIDTH as u32, HEIGHT as u32).unwrap();
    let mut unmarked = good.clone();
    *unmarked.last_mut().unwrap() = 0;
    let mut channels = good.clone();
    channels[12] = 7;
    let refused = [
        (&three[..], 2, "invalid number of channels: 3"),
        (&channels, 2, "invalid number of channels: 7"),
        (&good[..20], 1, "unexpected input buffer end while decoding"),
        (b"", 1, "unexpected input buffer end while decoding"),
        (&unmarked, 8, "invalid padding (stream end marker mismatch)"),
    ];
    let refuse_all = || {
        for (bytes, status, words) in refused {
            folder.write("bad.qoi", bytes);
            let line = "count bad.qoi --hour 6 --table t";
            folder.refuses(line, status, &format!("bad.qoi: {words}"));
        }
        for hour in ["744", "1000", "18446744073709551615"] {
            let line = format!("count 5.qoi --hour {hour} --table t");
            let words = format!("5.qoi: invalid hour: {hour} (expected 0 to 743)");
            folder.refuses(&line, 19, &words);
        }
    };
    refuse_all();
    // no table is made
    assert_eq!(folder.names(), ["5.qoi", "bad.qoi", "t.lock"]);
    folder.prints(&count(5), &counted(5));
    has(&folder, &[5]);
    refuse_all();
    folder.write("bad.qoi", &message(6, 3, 2, 0));
    let words = "bad.qoi: invalid number of cells: 6 pixels for 15 cells";
    folder.refuses("count bad.qoi --hour 6 --table t", 20, words);
    has(&folder, &[5]);
    folder.write("6.qoi", &message(6, WIDTH, HEIGHT, 0));
    folder.prints(&count(6), &counted(6));
    has(&folder, &[5, 6]);
}

#[test]
fn a_full_total_is_refused() {
    let folder = sent("full", &[5]);
    let left = u64::from(rain(5, 9, 0));
    let mut totals = vec![0; CELLS];
    totals[9] = u64::MAX - left;
    let filled = |totals: &[u64]| bytes_of(&Table::from_parts(totals.to_vec(), [0; 744]));
    folder.write("t", &filled(&totals));
    folder.prints(&count(5), &counted(5));
    assert_eq!(table_of(&folder).totals()[9], u64::MAX);
    totals[9] += 1;
    folder.write("t", &filled(&totals));
    let words = "5.qoi: total too large: cell 9 would pass 18446744073709551615";
    folder.refuses(&count(5), 21, words);
    assert_eq!(folder.read("t"), filled(&totals));
}

#[test]
fn a_damaged_table_is_refused_and_stays() {
    let folder = sent("damaged", &[5, 6]);
    folder.prints(&count(5), &counted(5));
    let good = folder.read("t");
    let mut flipped = good.clone();
    flipped[800] ^= 4;
    let message = folder.read("5.qoi");
    for bad in [&flipped, &good[1..], &good[..good.len() - 8], &message, b""] {
        folder.write("t", bad);
        let words = "t: the table is damaged, or this is none";
        for line in [count(5), count(6), "totals --table t".to_owned()] {
            folder.refuses(&line, 65, words);
        }
        assert_eq!(folder.read("t"), bad);
    }
    folder.write("t", &good);
    folder.prints(&count(6), &counted(6));
    has(&folder, &[5, 6]);
}

#[test]
fn many_totals_are_printed_or_that_is_said() {
    let folder = Folder::new("many");
    let totals: Vec<u64> = (0..300_000).map(|cell| cell * cell).collect();
    let lines: Vec<String> = totals.iter().map(|total| format!("{total}\n")).collect();
    folder.write("t", &bytes_of(&Table::from_parts(totals, [0; 744])));
    folder.prints("totals --table t", &lines.concat());

    let mut worker = spawned(&folder, "totals --table t");
    let mut first = String::new();
    let mut printed = BufReader::new(worker.stdout.take().unwrap());
    printed.read_line(&mut first).unwrap();
    drop(printed);
    let words = "worker: standard output: cannot write: Broken pipe (os error 32)\n";
    let ended = answer(worker.wait_with_output().unwrap());
    assert_eq!(
        (first.as_str(), ended),
        ("0\n", (74, String::new(), words.to_owned()))
    );
}

#[test]
fn wrong_arguments_and_files() {
    let folder = sent("wrong", &[5]);
    let usage = "; worker --help says what it takes";
    folder.refuses(
        "count 5.qoi --hour x --table t",
        64,
        &format!("--hour does not take x{usage}"),
    );
    folder.refuses("totals", 64, &format!("--table is missing{usage}"));
    folder.refuses(
        "count 5.qoi --hour 5 --table ./5.qoi",
        64,
        "./5.qoi is given twice",
    );
    folder.refuses(
        "count t.lock --hour 5 --table t",
        64,
        "t.lock is given twice",
    );
    let none = "none: cannot read: No such file or directory (os error 2)";
    folder.refuses("count none --hour 5 --table t", 74, none);
    folder.refuses("totals --table none", 74, none);
    let words = "none/t.lock: cannot lock: No such file or directory (os error 2)";
    folder.refuses("count 5.qoi --hour 5 --table none/t", 74, words);
    fs::create_dir(folder.path("folder")).unwrap();
    fs::create_dir(folder.path("locked.lock")).unwrap();
    symlink("nowhere", folder.path("link")).unwrap();
    for (table, other) in [
        ("folder", "folder"),
        ("link", "link"),
        ("/dev/null", "/dev/null"),
        ("locked", "locked.lock"),
    ] {
        let line = format!("count 5.qoi --hour 5 --table {table}");
        folder.refuses(&line, 74, &format!("{other} is no ordinary file"));
    }
    assert_eq!(folder.names(), ["5.qoi", "folder", "link", "locked.lock"]);
}
