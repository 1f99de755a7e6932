//! A blob of several rows goes out in pieces: whole and in part, to a file and to
//! standard output.

use crate::support::{shell, skipped, there_is, Folder};

const SIZE: usize = 40_000;

/// Bytes of which no two leaves, and no two rows, are alike.
fn long() -> Vec<u8> {
    (0..SIZE).map(|at| (at * 7 + at / 48 * 5 + at / 576) as u8).collect()
}

fn with_long_blob(name: &str) -> Folder {
    let folder = Folder::with_store(name, 1024);
    folder.run(&["create"]).gives("0\n");
    folder.run_with(&["put", "0"], &long()).gives("blob 0 has 40000 bytes\n");
    folder
}

/// Every way out of a part gives its bytes, and tells its size.
fn goes_out(folder: &Folder, options: &[&str], wanted: &[u8]) {
    let printed = folder.run(&[&["get", "0"], options].concat());
    assert_eq!((printed.status, printed.err.as_str()), (0, ""), "{options:?}");
    assert!(printed.out == wanted, "{options:?}");
    let plural = if wanted.len() == 1 { "" } else { "s" };
    let saved = folder.run(&[&["get", "0", "out"], options].concat());
    saved.gives(&format!("{} byte{plural} to out\n", wanted.len()));
    assert!(folder.read("out") == wanted, "{options:?}");
    let hex: String = wanted.iter().map(|byte| format!("{byte:02x}")).collect();
    let object = folder.run(&[&["get", "0", "--json"], options].concat());
    let end = format!("\"size\":{},\"hex\":\"{hex}\"}}\n", wanted.len());
    assert!(object.status == 0 && object.text().ends_with(&end), "{options:?}");
}

#[test]
fn whole_and_in_part() {
    let folder = with_long_blob("pieces_part");
    let all = long();
    goes_out(&folder, &[], &all);
    goes_out(&folder, &["--offset", "0", "--size", "40000"], &all);
    goes_out(&folder, &["--offset", "1"], &all[1..]);
    goes_out(&folder, &["--offset", "6911", "--size", "20000"], &all[6_911..26_911]);
    goes_out(&folder, &["--offset", "31000"], &all[31_000..]);
    goes_out(&folder, &["--size", "8193"], &all[..8_193]);
    goes_out(&folder, &["--offset", "575", "--size", "2"], &all[575..577]);
    goes_out(&folder, &["--offset", "39999"], &all[39_999..]);
    goes_out(&folder, &["--offset", "40000"], b"");
    goes_out(&folder, &["--offset", "20000", "--size", "0"], b"");
}

/// A shorter output takes the place of a longer one.
#[test]
fn nothing_is_left_of_what_was_there() {
    let folder = with_long_blob("pieces_shorter");
    folder.write("out", &[7; 100_000]);
    folder.run(&["get", "0", "out"]).gives("40000 bytes to out\n");
    assert!(folder.read("out") == long());
}

/// What is refused is refused before the first byte goes out.
#[test]
fn refused_first() {
    let folder = with_long_blob("pieces_refused");
    folder.write("out", b"what was there");
    let beyond = "tjornsaki: refused 10: the range or the leaf lies beyond the blob\n";
    let huge = u64::MAX.to_string();
    let parts: [&[&str]; 6] = [
        &["--offset", "40001"],
        &["--size", "40001"],
        &["--offset", "1", "--size", "40000"],
        &["--offset", "40001", "--size", "0"],
        &["--offset", &huge, "--size", &huge],
        &["--offset", "1", "--size", &huge],
    ];
    for part in parts {
        for file in [&[][..], &["out"], &["new"]] {
            let ended = folder.run(&[&["get", "0"], file, part].concat());
            ended.fails(10, "refused 10");
            assert_eq!(ended.err, beyond, "{part:?}");
        }
    }
    let last = folder.read("store.pool").chunks(64).rposition(|block| block[0] != 0).unwrap();
    folder.spoil(64 * last, &[0]);
    for file in [&[][..], &["out"], &["new"]] {
        folder.run(&[&["get", "0"], file].concat()).fails(4, &format!("slot {last} is spoiled"));
    }
    assert_eq!(folder.read("out"), b"what was there");
    assert!(!folder.file("new").exists());
}

/// What lies in the pipe before leaves no room for the whole blob: its reader
/// goes while it is written.
#[test]
fn a_reader_that_closes_early() {
    if !there_is("bash") {
        return skipped("no bash");
    }
    let folder = with_long_blob("pieces_early");
    let reader = "{ head -c 1000 > /dev/null; sleep 0.5; }";
    let line = format!("{{ head -c 60000 /dev/zero; t get 0; }} | {reader}");
    let (status, out, err) = shell(&folder, &line);
    let words = "tjornsaki: nobody reads standard output to its end\n";
    assert_eq!((status, out, err.as_str()), (74, vec![], words));
}

/// A reader that is slow gets every byte, and so does one at a pipe with a name.
#[test]
fn readers_that_stay() {
    if !there_is("bash") || !there_is("mkfifo") {
        return skipped("no bash, or no mkfifo");
    }
    let folder = with_long_blob("pieces_slow");
    let line = "{ head -c 60000 /dev/zero; t get 0; } | { sleep 0.5; tail -c 40000; }";
    let (status, out, err) = shell(&folder, line);
    assert!((status, err.as_str()) == (0, "") && out == long(), "{status} {err}");
    let line = "mkfifo p; cat p > got & t get 0 p && wait";
    let (status, out, err) = shell(&folder, line);
    assert_eq!((status, out, err.as_str()), (0, b"40000 bytes to p\n".to_vec(), ""));
    assert!(folder.read("got") == long());
}
