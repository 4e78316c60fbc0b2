// The command `peers`: other programs read the files that the port encodes, and the port reads the files that they write. The pixels must be the
// same either way, alpha being 255 where there are three channels; whether the bytes of the two files are the same is counted, and may differ.
use crate::answer::Answer;
use crate::images::{self, Image};
use crate::pictures::{self, Picture};
use crate::port;
use crate::random::Random;
use std::fs;
use std::path::Path;
use std::process::{Command, ExitCode};

/// The files that are handed to the programs, in a folder of their own.
const OURS: &str = "ours.qoi";
const THEIRS: &str = "theirs.qoi";
const RAW: &str = "picture.raw";
const PAM: &str = "picture.pam";
const PNG: &str = "picture.png";

/// Another program: how it reads OURS, whose picture is this, to RGBA pixels, and how it encodes a picture.
struct Peer {
    name: &'static str,
    read: fn(&Path, &Picture) -> Result<Vec<u8>, String>,
    write: fn(&Path, &Picture) -> Result<Vec<u8>, String>,
}

const PEERS: [Peer; 3] = [
    Peer {
        name: "ffmpeg",
        read: ffmpeg_reads,
        write: ffmpeg_writes,
    },
    Peer {
        name: "qoiconv",
        read: qoiconv_reads,
        write: qoiconv_writes,
    },
    Peer {
        name: "netpbm",
        read: netpbm_reads,
        write: netpbm_writes,
    },
];

/// What a command prints; or what it complains of.
fn call(folder: &Path, command: &str) -> Result<Vec<u8>, String> {
    let mut words = command.split(' ');
    let program = words.next().expect("split gives one at least");
    let ended = Command::new(program)
        .args(words)
        .current_dir(folder)
        .output()
        .map_err(|e| format!("{program}: {e}"))?;
    if ended.status.success() {
        Ok(ended.stdout)
    } else {
        let complaint = String::from_utf8_lossy(&ended.stderr);
        Err(format!("{program}: {}, {}", ended.status, complaint.trim()))
    }
}

fn put(folder: &Path, name: &str, bytes: &[u8]) -> Result<(), String> {
    fs::write(folder.join(name), bytes).map_err(|e| format!("{name}: {e}"))
}

/// A file that a program has just written; it is taken away, so that no later one is mistaken for it.
fn take(folder: &Path, name: &str) -> Result<Vec<u8>, String> {
    let path = folder.join(name);
    fs::read(&path)
        .and_then(|bytes| fs::remove_file(&path).map(|()| bytes))
        .map_err(|e| format!("{name}: {e}"))
}

fn rgba(pixels: &[u8], channels: usize) -> Vec<u8> {
    if channels == 4 {
        return pixels.to_vec();
    }
    let opaque = |pixel: &[u8]| [pixel[0], pixel[1], pixel[2], 255];
    pixels.chunks_exact(3).flat_map(opaque).collect()
}

fn pam(picture: &Picture) -> Vec<u8> {
    let (width, height, depth) = (picture.width, picture.height, picture.channels);
    let kind = if depth == 3 { "RGB" } else { "RGB_ALPHA" };
    let mut file = format!(
        "P7\nWIDTH {width}\nHEIGHT {height}\nDEPTH {depth}\nMAXVAL 255\nTUPLTYPE {kind}\nENDHDR\n"
    )
    .into_bytes();
    file.extend(&picture.pixels);
    file
}

/// The RGBA pixels of a PAM file that has the picture's size.
fn pam_pixels(file: &[u8], picture: &Picture) -> Result<Vec<u8>, String> {
    const END: &[u8] = b"ENDHDR\n";
    let end = file
        .windows(END.len())
        .position(|window| window == END)
        .ok_or("no PAM file")?;
    let header = String::from_utf8_lossy(&file[..end]);
    let number = |name: &str| -> Option<usize> {
        let line = header.lines().find_map(|line| line.strip_prefix(name))?;
        line.trim().parse().ok()
    };
    let size = [number("WIDTH"), number("HEIGHT"), number("MAXVAL")];
    if size
        != [
            Some(picture.width as usize),
            Some(picture.height as usize),
            Some(255),
        ]
    {
        return Err(format!("a PAM file of another size: {header}"));
    }
    match number("DEPTH") {
        Some(depth @ (3 | 4)) => Ok(rgba(&file[end + END.len()..], depth)),
        _ => Err(format!("a PAM file of other channels: {header}")),
    }
}

// ffmpeg, to PAM files and from raw pixels

fn raw_format(picture: &Picture) -> &'static str {
    if picture.channels == 3 {
        "rgb24"
    } else {
        "rgba"
    }
}

fn ffmpeg_reads(folder: &Path, picture: &Picture) -> Result<Vec<u8>, String> {
    let command = format!("ffmpeg -v error -i {OURS} -c:v pam -f image2pipe -");
    pam_pixels(&call(folder, &command)?, picture)
}

fn ffmpeg_writes(folder: &Path, picture: &Picture) -> Result<Vec<u8>, String> {
    put(folder, RAW, &picture.pixels)?;
    let (format, width, height) = (raw_format(picture), picture.width, picture.height);
    let source =
        format!("-f rawvideo -pixel_format {format} -video_size {width}x{height} -i {RAW}");
    call(
        folder,
        &format!("ffmpeg -v error {source} -c:v qoi -f image2pipe -"),
    )
}

// netpbm, through PAM files

fn netpbm_reads(folder: &Path, picture: &Picture) -> Result<Vec<u8>, String> {
    pam_pixels(&call(folder, &format!("qoitopam {OURS}"))?, picture)
}

fn netpbm_writes(folder: &Path, picture: &Picture) -> Result<Vec<u8>, String> {
    put(folder, PAM, &pam(picture))?;
    call(folder, &format!("pamtoqoi {PAM}"))
}

// qoiconv, through PNG files, which netpbm makes and reads

fn qoiconv_reads(folder: &Path, picture: &Picture) -> Result<Vec<u8>, String> {
    call(folder, &format!("qoiconv {OURS} {PNG}"))?;
    let file = call(folder, &format!("pngtopam -alphapam {PNG}"))?;
    take(folder, PNG)?;
    pam_pixels(&file, picture)
}

fn qoiconv_writes(folder: &Path, picture: &Picture) -> Result<Vec<u8>, String> {
    put(folder, PAM, &pam(picture))?;
    put(folder, PNG, &call(folder, &format!("pamtopng {PAM}"))?)?;
    call(folder, &format!("qoiconv {PNG} {THEIRS}"))?;
    take(folder, PNG)?;
    take(folder, THEIRS)
}

/// The port's file of a picture.
fn encode(picture: &Picture) -> Result<Vec<u8>, String> {
    let mut file = vec![0; picture.room()];
    let answer = port::encode(&picture.pixels, picture.width, picture.height, 0, &mut file);
    if !answer.is_accepted() {
        return Err(format!("the port's encode answers {answer}"));
    }
    file.truncate(answer.figures[0] as usize);
    Ok(file)
}

/// The RGBA pixels that the port decodes of a whole file, which must have the picture's size.
fn decode(file: &[u8], picture: &Picture) -> Result<Vec<u8>, String> {
    let header = port::header(file);
    let [width, height, channels, _] = header.figures;
    if !header.is_accepted() || (width as u32, height as u32) != picture.size() {
        return Err(format!("the port's header answers {header}"));
    }
    let size = width * height * channels;
    let mut pixels = vec![0; size as usize];
    let answer = port::decode(file, channels, &mut pixels);
    if answer != Answer::accepted([size, file.len() as u64, 0, 0]) {
        return Err(format!("the port's decode answers {answer}"));
    }
    Ok(rgba(&pixels, channels as usize))
}

fn is_same(pixels: &[u8], picture: &Picture) -> Result<(), String> {
    let expected = rgba(&picture.pixels, picture.channels);
    if pixels == expected {
        return Ok(());
    }
    let place = pixels.iter().zip(&expected).position(|(a, b)| a != b);
    Err(match place {
        Some(place) => format!("pixel {} is another", place / 4),
        None => format!("{} bytes of pixels for {}", pixels.len(), expected.len()),
    })
}

/// The published images, the large pictures, rows that show single rules of the encoder, parts of the large ones, and small ones of odd sizes.
fn all_pictures(images: &[Image]) -> Vec<(String, Picture)> {
    let mut all: Vec<_> = images.iter().flat_map(Image::pictures).collect();
    all.extend(pictures::large());
    let (black, red, nothing) = ([0, 0, 0, 255], [100, 0, 0, 255], [0; 4]);
    let rows: [&[[u8; 4]]; 6] = [
        &[black],
        &[nothing],
        &[black; 63],
        &[black, black, red],
        &[red, black, red, red, black],
        &[nothing, nothing, red, nothing, nothing, black],
    ];
    for (i, row) in rows.iter().enumerate() {
        for channels in [3, 4] {
            all.push((format!("row {i}, {channels}"), Picture::row(channels, row)));
        }
    }
    let named = |picture: Picture| {
        let (width, height, channels) = (picture.width, picture.height, picture.channels);
        (format!("{width}x{height}, {channels}"), picture)
    };
    let mut random = Random::new(1);
    for (_, picture) in pictures::large() {
        all.push(named(picture.part(&mut random, 61)));
    }
    for most in [1, 2, 5, 17, 99, 500, 2000, 9000] {
        all.push(named(pictures::textured(&mut random, most)));
    }
    all
}

pub fn run(folder: &Path, images: &Path) -> ExitCode {
    let images = images::read(images);
    if images.is_empty() {
        println!("no images at hand: nothing is shown of them");
    }
    let pictures = all_pictures(&images);
    println!(
        "{} pictures. How many of them each program reads from our file, how many",
        pictures.len()
    );
    println!("we read from its file, and how many of those files are ours byte for byte:");
    println!(
        "{:10} {:>10} {:>10} {:>10}",
        "program", "it reads", "we read", "same bytes"
    );
    let mut differences = Vec::new();
    for peer in &PEERS {
        let [mut reads, mut writes, mut same] = [0; 3];
        for (name, picture) in &pictures {
            let ours = encode(picture);
            let read = ours
                .clone()
                .and_then(|file| put(folder, OURS, &file))
                .and_then(|()| (peer.read)(folder, picture))
                .and_then(|pixels| is_same(&pixels, picture));
            let theirs = (peer.write)(folder, picture);
            same += usize::from(theirs.is_ok() && theirs == ours);
            let written = theirs
                .and_then(|file| decode(&file, picture))
                .and_then(|pixels| is_same(&pixels, picture));
            reads += usize::from(read.is_ok());
            writes += usize::from(written.is_ok());
            for (way, result) in [("reads ours", read), ("writes for us", written)] {
                if let Err(text) = result {
                    differences.push(format!("{name}: {} {way}: {text}", peer.name));
                }
            }
        }
        println!("{:10} {reads:10} {writes:10} {same:10}", peer.name);
    }
    for difference in &differences {
        println!("{difference}");
    }
    let files = 2 * PEERS.len() * pictures.len();
    println!("{files} files, {} differences", differences.len());
    ExitCode::from(u8::from(!differences.is_empty()))
}
