// The program as a user calls it, to encode, check and decode: statuses, words, and what stands in the files after each answer.
mod common;

use common::Folder;
use pivotshade::{encode_to_vec, Channels, Decoder};
use std::fs;
use std::os::unix::fs::symlink;
use worker::saved;

const WIDTH: u32 = 40;
const HEIGHT: u32 = 30;
const DECODE: &str = "decode m.qoi out --record rec --number 17 --every 50";
/// The same for the next message.
const DECODE_NEXT: &str = "decode m.qoi out --record rec --number 18 --every 50";

/// A picture with runs, repeats and changes of each size.
fn picture() -> Vec<u8> {
    let pixels = 0..WIDTH * HEIGHT;
    let pixel = |i: u32| [i / 100, i / 7, i * i / 500, 255 - i / 300].map(|n| n as u8);
    pixels.flat_map(pixel).collect()
}

fn message() -> Vec<u8> {
    encode_to_vec(picture(), WIDTH, HEIGHT).unwrap()
}

/// A folder with a message whose decode is done.
fn decoded(test: &str) -> Folder {
    let folder = Folder::new(test);
    folder.write("m.qoi", &message());
    folder.works(DECODE);
    folder
}

fn pixels_done(folder: &Folder) -> usize {
    let (record, _) = saved::from_bytes(&folder.read("rec"), 17).expect("a whole record");
    record.pixels_done()
}

#[test]
fn encodes_checks_and_decodes() {
    let folder = Folder::new("all");
    folder.write("px", &picture());
    folder.works("encode px m.qoi --width 40 --height 30");
    assert_eq!(folder.read("m.qoi"), message());
    let chunks = pivotshade::strict(message()).unwrap().chunks;
    let expected = format!("ok 40 30 4 0 {chunks} {}\n", message().len());
    folder.prints("check m.qoi", &expected);
    folder.works(DECODE);
    assert_eq!(folder.read("out"), picture());
    assert_eq!(folder.names(), ["m.qoi", "out", "px", "rec"]);

    folder.works("encode px linear.qoi --width 40 --height 30 --linear");
    assert_eq!(folder.read("linear.qoi")[13], 1);
}

#[test]
fn decodes_to_other_channels() {
    let folder = Folder::new("channels");
    folder.write("m.qoi", &message());
    folder.works("decode m.qoi out --record rec --number 17 --channels 3");
    let message = message();
    let mut decoder = Decoder::new(&message).unwrap().with_channels(Channels::Rgb);
    let three = decoder.decode_to_vec().unwrap();
    assert_eq!(folder.read("out"), three);
    let words = "rec: the record is of a decode to other channels; --restart begins anew";
    folder.refuses(DECODE, 9, words);
    folder.works(&format!("{DECODE} --restart"));
    assert_eq!(folder.read("out"), picture());
}

#[test]
fn a_message_delivered_again_changes_nothing() {
    let folder = decoded("again");
    let record = folder.read("rec");
    assert_eq!(pixels_done(&folder), (WIDTH * HEIGHT) as usize);
    let written = fs::metadata(folder.path("out"))
        .unwrap()
        .modified()
        .unwrap();
    folder.works(DECODE);
    assert_eq!(folder.read("out"), picture());
    assert_eq!(folder.read("rec"), record);
    let still = fs::metadata(folder.path("out"))
        .unwrap()
        .modified()
        .unwrap();
    assert_eq!(written, still);
}

#[test]
fn what_stood_in_the_output_does_not_matter() {
    for (place, length) in [0, 7, 4799, 4800, 4801, 10_000].into_iter().enumerate() {
        let folder = Folder::new(&format!("stood-{place}"));
        folder.write("m.qoi", &message());
        folder.write("out", &vec![0xee; length]);
        folder.works(DECODE);
        assert_eq!(folder.read("out"), picture(), "{length} bytes stood there");
    }
}

/// A message that is refused leaves the output as an undisturbed decode does, and is refused at once when it comes again.
fn refused_as_undisturbed(test: &str, message: &[u8], status: i32, words: &str) {
    let folder = Folder::new(test);
    let mut undisturbed = vec![0xee; picture().len()];
    folder.write("m.qoi", message);
    folder.write("out", &undisturbed);
    let error = Decoder::new(message)
        .unwrap()
        .decode_to_buf(&mut undisturbed)
        .unwrap_err();
    assert_eq!(error.number(), status as u64);
    for _ in 0..2 {
        folder.refuses(DECODE, status, &format!("m.qoi: {words}"));
        assert_eq!(folder.read("out"), undisturbed);
        assert_eq!(folder.names(), ["m.qoi", "out", "rec"]);
    }
    let done = pixels_done(&folder) * 4;
    assert!(undisturbed[..done] == picture()[..done]);
    assert!(undisturbed[done..].iter().all(|&byte| byte == 0xee));
}

#[test]
fn refused_messages() {
    let whole = message();
    let ended = "unexpected input buffer end while decoding";
    for cut in [
        14,
        15,
        whole.len() / 3,
        whole.len() / 2 + 1,
        whole.len() - 9,
    ] {
        refused_as_undisturbed(&format!("cut-{cut}"), &whole[..cut], 1, ended);
    }
    let mut marked = whole;
    *marked.last_mut().unwrap() = 0;
    refused_as_undisturbed(
        "marker",
        &marked,
        8,
        "invalid padding (stream end marker mismatch)",
    );
}

#[test]
fn a_refused_header_leaves_no_file() {
    let folder = Folder::new("header");
    let mut bytes = message();
    bytes[12] = 7;
    folder.write("m.qoi", &bytes);
    folder.refuses(DECODE, 2, "m.qoi: invalid number of channels: 7");
    folder.refuses("check m.qoi", 2, "m.qoi: invalid number of channels: 7");
    assert_eq!(folder.names(), ["m.qoi"]);
}

/// The words for a damaged record, of which the reader tells this.
fn damaged(told: &str) -> String {
    format!("rec: the record is damaged, or names no message{told}; --restart begins anew")
}

#[test]
fn a_damaged_record_is_refused_and_restarted() {
    let good = decoded("damaged-good").read("rec");
    // within the slots, where every byte may stand
    let mut flipped = good.clone();
    flipped[100] ^= 4;
    // the number, a byte, stands before the two sums
    let mut unnamed = good[..good.len() - saved::SUM].to_vec();
    unnamed.remove(unnamed.len() - saved::SUM - 1);
    saved::add_sum(&mut unnamed);
    let no_number = ": record is bad at byte 279 (unexpected end)";
    let damages: [(&[u8], &str); 6] = [
        (&flipped, ""),
        (&unnamed, no_number),
        (&good[1..], ""),
        (&good[..good.len() - 1], no_number),
        (&[&good[..], &[0]].concat(), ": record is bad at byte 280"),
        (b"", ": record is bad at byte 0 (unexpected end)"),
    ];
    for (place, (bad, told)) in damages.into_iter().enumerate() {
        let words = damaged(told);
        let folder = decoded(&format!("damaged-{place}"));
        folder.write("rec", bad);
        folder.write("out", &[0xee; 4800]);
        // whichever message is asked for
        for line in [DECODE, DECODE_NEXT] {
            folder.refuses(line, 9, &words);
            assert_eq!(folder.read("out"), [0xee; 4800]);
            assert_eq!(folder.read("rec"), bad);
        }
        folder.works(&format!("{DECODE} --restart"));
        assert_eq!(folder.read("out"), picture());
        assert_eq!(folder.read("rec"), good);
    }
}

/// Which number is bad is told by where it starts, whether the sums of the file fit or not.
#[test]
fn the_bad_number_of_a_record_is_told() {
    let good = decoded("number-good").read("rec");
    assert_eq!(good.len(), 280 + 2 * saved::SUM);
    // the pixel position, 1200
    assert_eq!(good[17..19], [0xb0, 0x09]);
    for (start, last) in [(14, 14), (15, 16), (17, 18), (279, 279)] {
        // a group of zeros put in at its end: not the shortest form
        let mut bad = good.clone();
        bad[last] |= 0x80;
        bad.insert(last + 1, 0);
        let mut fitting = bad[..bad.len() - saved::SUM].to_vec();
        saved::add_sum(&mut fitting);
        for (place, bad) in [fitting, bad].iter().enumerate() {
            let folder = decoded(&format!("number-{start}-{place}"));
            folder.write("rec", bad);
            let words = damaged(&format!(": record is bad at byte {start}"));
            for line in [DECODE, DECODE_NEXT] {
                folder.refuses(line, 9, &words);
            }
            assert_eq!((&folder.read("rec"), folder.read("out")), (bad, picture()));
        }
    }
}

/// Where the sums fit, whatever the reader refuses is told.
#[test]
fn what_the_reader_refuses_is_told() {
    let good = decoded("refused-good").read("rec");
    for (at, byte, told) in [
        (
            0,
            b'p',
            "invalid magic: expected 1903126886, got [112, 111, 105, 102]",
        ),
        (14, 5, "invalid number of channels: 5"),
    ] {
        let mut bad = good[..good.len() - saved::SUM].to_vec();
        bad[at] = byte;
        saved::add_sum(&mut bad);
        let folder = decoded(&format!("refused-{at}"));
        folder.write("rec", &bad);
        folder.refuses(DECODE, 9, &damaged(&format!(": {told}")));
    }
}

/// The previous hour's record, whose field has the same size: whether its output is there or not, both files stay as they are.
#[test]
fn a_record_of_another_message_is_refused() {
    let folder = decoded("another");
    let words = "rec: the record is of another message, number 17; --restart begins anew";
    let mut next = picture();
    next.rotate_left(WIDTH as usize * 4);
    folder.write("m.qoi", &encode_to_vec(&next, WIDTH, HEIGHT).unwrap());
    let record = folder.read("rec");
    folder.refuses(DECODE_NEXT, 12, words);
    assert_eq!(
        (folder.read("out"), folder.read("rec")),
        (picture(), record)
    );
    // the number alone tells it: another header, other channels and another length come after
    folder.write("m.qoi", &encode_to_vec([7; 12], 2, 2).unwrap());
    folder.refuses(DECODE_NEXT, 12, words);
    folder.write("m.qoi", &message());
    folder.refuses(&format!("{DECODE_NEXT} --channels 3"), 12, words);
    fs::remove_file(folder.path("out")).unwrap();
    folder.refuses(DECODE_NEXT, 12, words);
    assert_eq!(folder.names(), ["m.qoi", "rec"]);

    folder.write("m.qoi", &encode_to_vec(&next, WIDTH, HEIGHT).unwrap());
    folder.works(&format!("{DECODE_NEXT} --restart"));
    assert_eq!(folder.read("out"), next);
    let words = "rec: the record is of another message, number 18; --restart begins anew";
    folder.refuses(DECODE, 12, words);
    folder.works(DECODE_NEXT);
}

/// The broker gives one number to the same bytes alone; where it does not, the sum of the message tells it.
#[test]
fn other_bytes_under_the_same_number_are_refused() {
    let folder = decoded("other-bytes");
    let words = "rec: the record is of other bytes under the same number; --restart begins anew";
    let longer = [message(), vec![0]].concat();
    let record = folder.read("rec");
    for other in [longer, encode_to_vec([7; 12], 2, 2).unwrap()] {
        folder.write("m.qoi", &other);
        for line in [DECODE.to_owned(), format!("{DECODE} --channels 3")] {
            folder.refuses(&line, 9, words);
        }
    }
    assert_eq!(
        (folder.read("out"), folder.read("rec")),
        (picture(), record)
    );
}

#[test]
fn every_number_is_taken_up_again() {
    for number in [0, 1 << 63, u64::MAX] {
        let folder = Folder::new(&format!("number-{number}"));
        folder.write("m.qoi", &message());
        let line = format!("decode m.qoi out --record rec --number {number}");
        for _ in 0..2 {
            folder.works(&line);
            assert_eq!(folder.read("out"), picture());
        }
        let words = format!(
            "rec: the record is of another message, number {number}; --restart begins anew"
        );
        folder.refuses(DECODE, 12, &words);
    }
}

#[test]
fn an_output_that_is_gone_is_refused() {
    let folder = decoded("gone");
    fs::remove_file(folder.path("out")).unwrap();
    let words = "out: the output is not there, though its record is; --restart begins anew";
    folder.refuses(DECODE, 9, words);
    folder.write("out", &[0; 4799]);
    let words = "out: the output has another length than its record says; --restart begins anew";
    folder.refuses(DECODE, 9, words);
    folder.works(&format!("{DECODE} --restart"));
    assert_eq!(folder.read("out"), picture());
}

#[test]
fn what_killed_workers_left_beside_the_record_goes() {
    let folder = Folder::new("beside");
    folder.write("m.qoi", &message());
    folder.write("rec.0123456789abcdef.beside", b"half");
    let others = [
        "rec.notes.beside",
        "rec.x.0123456789abcdef.beside",
        "record.0123456789abcdef.beside",
    ];
    for other in others {
        folder.write(other, b"of another file");
    }
    folder.works(DECODE);
    assert_eq!(folder.names()[..3], ["m.qoi", "out", "rec"]);
    assert_eq!(folder.names()[3..], others);
}

#[test]
fn only_ordinary_files_are_written() {
    let folder = decoded("ordinary");
    fs::create_dir(folder.path("folder")).unwrap();
    symlink("rec", folder.path("link")).unwrap();
    symlink("nowhere", folder.path("loose")).unwrap();
    for other in ["folder", "link", "loose", "/dev/null"] {
        let words = format!("{other} is no ordinary file");
        folder.refuses(
            &format!("decode m.qoi {other} --record new --number 17"),
            74,
            &words,
        );
        folder.refuses(
            &format!("decode m.qoi new --record {other} --number 17 --restart"),
            74,
            &words,
        );
        folder.refuses(
            &format!("encode out {other} --width 40 --height 30"),
            74,
            &words,
        );
    }
    assert_eq!(
        folder.names(),
        ["folder", "link", "loose", "m.qoi", "out", "rec"]
    );
}

#[test]
fn wrong_arguments_and_files() {
    let folder = Folder::new("wrong");
    folder.write("m.qoi", &message());
    folder.refuses(
        "decode m.qoi m.qoi --record rec --number 17",
        64,
        "m.qoi is given twice",
    );
    folder.refuses(
        "decode m.qoi out --record ./out --number 17",
        64,
        "./out is given twice",
    );
    folder.refuses(
        "encode m.qoi m.qoi --width 1 --height 1",
        64,
        "m.qoi is given twice",
    );
    fs::hard_link(folder.path("m.qoi"), folder.path("linked")).unwrap();
    folder.refuses(
        "decode m.qoi linked --record rec --number 17",
        64,
        "linked is given twice",
    );
    let words = "OUTPUT is missing; worker --help says what it takes";
    folder.refuses("decode m.qoi --record rec --number 17", 64, words);
    let words = "--number is missing; worker --help says what it takes";
    folder.refuses("decode m.qoi out --record rec", 64, words);
    let none = "none: cannot read: No such file or directory (os error 2)";
    folder.refuses("decode none out --record rec --number 17", 74, none);
    folder.refuses("check none", 74, none);
    let (status, _, words) = folder.worker("decode m.qoi none/out --record rec --number 17");
    assert_eq!(
        (status, words.starts_with("worker: none/out: cannot make: ")),
        (74, true)
    );
    let (status, usage, words) = folder.worker("--help");
    assert_eq!(
        (status, usage.starts_with("usage: "), words),
        (0, true, String::new())
    );
    assert_eq!(folder.names(), ["linked", "m.qoi"]);
}
