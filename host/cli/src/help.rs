//! The commands and their help.

/// A command: its words, those in brackets optional, and its options.
pub struct Command {
    pub name: &'static str,
    pub words: &'static [&'static str],
    /// Options with a value.
    pub options: &'static [&'static str],
    /// Options without.
    pub flags: &'static [&'static str],
    /// One line for the list of commands.
    pub short: &'static str,
    /// The rest of its help.
    pub long: &'static str,
}

impl Command {
    /// Its name and its words.
    pub fn usage(&self) -> String {
        format!("{} {}", self.name, [self.words, &["[OPTIONS]"]].concat().join(" "))
    }
}

const FILE: &str = "[FILE|-]";

#[rustfmt::skip]
pub const COMMANDS: &[Command] = &[
    Command { name: "init", words: &[], options: &["--slots"],
        flags: &["--force", "--forget-history"],
        short: "make an empty store",
        long: "\
Makes a pool and records with N slots, all free.

  --slots N           how many slots, 1 to 65536 (16). A blob of up to 48 bytes
                      takes one; one of 100 bytes four: three for its bytes,
                      one above them.
  --force --forget-history
                      replace files that exist; what they held is lost. All
                      versions start again at 0: a pool of the old store, kept
                      by somebody, may then pass as a pool of the new one. If
                      the records are lost, bring them back from a copy; if
                      there is none, make the new store elsewhere and keep the
                      old pool until you know what it held." },
    Command { name: "create", words: &[], options: &[], flags: &[],
        short: "make an empty blob, and print its number",
        long: "\
Makes an empty blob in the lowest usable free slot. Prints the number of that
slot: it is the blob's ROOT in all other commands, as long as the blob lives." },
    Command { name: "ls", words: &[], options: &[], flags: &[],
        short: "list the blobs",
        long: "\
Lists the blobs by their roots: length in bytes, leaves, blocks (slots taken),
and the root's version. A blob that the store refuses is listed with the
refusal; the exit status is that of the first one." },
    Command { name: "length", words: &["ROOT"], options: &[], flags: &[],
        short: "print a blob's length",
        long: "Prints the blob's length in bytes." },
    Command { name: "put", words: &["ROOT", FILE], options: &[], flags: &["--empty"],
        short: "make a blob's bytes those of a file",
        long: "\
Makes the blob exactly the bytes of FILE, or of standard input: it is resized
and then written, both or nothing. A standard input or a pipe without bytes is
refused: it may be that of a command that failed. A plain FILE may be empty.

  --empty   make the blob empty; nothing is read" },
    Command { name: "get", words: &["ROOT", FILE], options: &["--offset", "--size"], flags: &[],
        short: "write a blob's bytes to a file",
        long: "\
Writes the blob's bytes to FILE, or to standard output. The whole blob is
checked before the first byte is written; then it goes out in pieces.

  --offset N   from this byte on (0)
  --size N     so many bytes (all that follow)

With --json and no FILE the bytes stand in the answer, in hexadecimal." },
    Command { name: "write", words: &["ROOT", "OFFSET", FILE], options: &[], flags: &[],
        short: "put bytes into a blob",
        long: "\
Puts the bytes of FILE, or of standard input, into the blob from OFFSET on.
They must lie inside its length: write never lengthens a blob, resize does. A
standard input or a pipe without bytes is refused." },
    Command { name: "resize", words: &["ROOT", "LENGTH"], options: &[], flags: &[],
        short: "make a blob longer or shorter",
        long: "Makes the blob LENGTH bytes long, with zeros at its end, or cuts it." },
    Command { name: "show", words: &["ROOT", "LEAF"], options: &[], flags: &[],
        short: "write one leaf of a blob",
        long: "\
Writes the bytes of one leaf of the blob to standard output. Leaves are counted
from 0 and hold 48 bytes each, the last one the rest." },
    Command { name: "delete", words: &["ROOT"], options: &[], flags: &[],
        short: "delete a blob",
        long: "Deletes the blob; its slots are free again and keep their versions." },
    Command { name: "audit", words: &[], options: &[], flags: &[],
        short: "check the whole store",
        long: "\
Checks every block and every free slot against the records, and counts the
slots in use. It stops at the first bad slot; `check` lists them all." },
    Command { name: "check", words: &[], options: &[], flags: &[],
        short: "list every bad slot, and the blobs it hurts",
        long: "\
Goes on where audit stops: lists every bad slot with its refusal and the blobs
it hurts, then the blobs that read whole and those that are refused. Below a
bad block nothing is reached; what is there is called cut off, and is bad only
if it is bad by itself. Where one slot hurts more than 1024 blobs, 12 are listed
and the others counted. Like audit it cannot know forged bytes under a right
header. The exit status is that of audit." },
    Command { name: "status", words: &[], options: &[], flags: &[],
        short: "tell how full the store is",
        long: "\
Counts slots and blobs, and tells how long a new blob can be. A worn slot is at
its last version: a free one is never used again, and a blob with one can only
be read and deleted. All this is by the records alone. The pool is not judged:
audit and check do that." },
    Command { name: "draw", words: &[], options: &["--out"], flags: &[],
        short: "draw a picture of the store",
        long: "\
Draws the slots with their versions and the blobs as trees. Every slot that
`check` lists is red, with the reason; the command itself then still succeeds.

Of more than 1024 slots each is a dot, without its version. Below them up to 60
refused slots are drawn large, and up to 60 blobs, refused ones before others:
of a tree what leads to refused and worn blocks and to its end. Other neighbours
are one box that counts them and what is below. What else is left out is told.

  --out FILE.svg   write it there (standard output)" },
    Command { name: "demo", words: &[], options: &["--out"], flags: &[],
        short: "see what this is for, in a minute",
        long: "\
Plays three nights on which rented storage hands back a block that is old,
moved, or deleted, with a store in memory. It touches no store of yours.

  --out FOLDER   also write a picture of each night, and the files to try
                 the other commands on" },
];

const USAGE: &str = "\
tjornsaki: keeps blobs in a pool of small blocks, and notices when one of its
own blocks comes back old, moved, or after it was deleted

Usage: tjornsaki COMMAND [WORDS] [OPTIONS]

Commands:
";

const EVERYWHERE: &str = "
Options of every command:
  --pool FILE      the pool (TJORNSAKI_POOL, else store.pool)
  --records FILE   the records (TJORNSAKI_RECORDS, else store.records)
  --wait SECONDS   wait so long for another command to finish (1)
  --json           answer with one JSON object, also when something fails
  --help           tell more about a command
";

const MORE: &str = "
What it notices. The pool may lie on rented storage. Every block that a command
reads is held against the records: its slot, its version, and its place in the
blob. So a block of the store's own past, old, moved or brought back, never
passes.

What it does not notice. It keeps no checksum of a block's bytes. Payload that
was forged or flipped under a right head passes, and so does the pool of another
store that is at the same versions: sign or encrypt the pool where somebody
might do that. If pool and records are put back together, no one can tell: keep
the records where nobody else writes.

How a change is made. A changing command first writes the new records and the
new pool into one file beside the records (.tj-log). With that it is made; no
byte of it is on the pool's side before. Then it replaces pool and records, and
the log goes. If it fails or the power does, the store is as before the log was
there, or as the log says: commands read from it, and the next change carries it
on. Owner and mode of the files are kept. While a command runs, the store is
locked (.tj-lock stays; it is empty). Names with .tj- in them are the store's
own.

Exit status:
  0         done
  1 to 12   refused by the store; nothing was changed:
            1 wrong lengths   2 broken record   3 not a root      4 spoiled
            5 moved           6 rolled back     7 ahead           8 wrong shape
            9 reintroduced   10 out of range   11 no room        12 worn
  64        the command line is wrong
  65        standard input, or a pipe, has no bytes
  66        a file or a folder is missing
  70        a fault of this program
  73        a file exists that would be replaced; a log waits for another pool
  74        a file cannot be read or written
  75        the store is locked by another command
  77        a file may not be read or written
";

/// The help of one command, or of them all.
pub fn help(command: Option<&Command>) -> String {
    match command {
        Some(command) => {
            let usage = command.usage();
            format!("Usage: tjornsaki {usage}\n\n{}\n{EVERYWHERE}", command.long)
        }
        None => {
            let line = |command: &Command| format!("  {:8} {}\n", command.name, command.short);
            let list: String = COMMANDS.iter().map(line).collect();
            format!("{USAGE}{list}{EVERYWHERE}{MORE}")
        }
    }
}
