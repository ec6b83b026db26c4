//! The reading commands on small cards, and their statuses.

mod common;

use common::{busy, emptied, lane, on, put_number, range, whole_image, Folder, Maker};
use lane::BLOCK;
use std::fs;
use std::process::{Command, Stdio};

/// What a check says of a card, its last line.
fn refusal(card: &[u8]) -> String {
    let folder = Folder::new();
    let image = folder.file("card", card);
    let answer = on("check", &image, &[]);
    assert_eq!((answer.status, answer.err.as_str()), (1, ""));
    assert_eq!(fs::read(image).unwrap(), card, "it was written");
    let lines: Vec<&str> = answer.out.lines().collect();
    assert_eq!(lines.len(), 2, "{lines:?}");
    let number = lines[1].split(':').next().unwrap();
    assert!(
        lines[0].starts_with(&format!("refused {number}: ")),
        "{lines:?}"
    );
    lines[1].into()
}

fn with_number(mut card: Vec<u8>, at: usize, number: u32) -> String {
    put_number(&mut card, at, number);
    refusal(&card)
}

#[test]
fn check_accepts_a_good_card() {
    let folder = Folder::new();
    let image = folder.file("card", busy());
    assert_eq!(
        on("check", &image, &[]).done(),
        "accepted: commit 3, A 24, 2 ranges, 6 entries committed, 123 pages, 151 blocks\n\
         range 0: OIDs 100 to 202, 103 pages, blocks 25 to 129\n\
         range 1: OIDs 1000 to 1019, 20 pages, blocks 130 to 150\n"
    );
}

#[test]
fn check_says_when_few_commits_are_left() {
    let mut card = whole_image();
    let folder = Folder::new();
    for (commit, few) in [(4_100_000_000, false), (4_294_967_290, true)] {
        put_number(&mut card, 4, commit);
        put_number(&mut card, 4 * BLOCK + 496, commit);
        let said = on("check", &folder.file("card", &card), &[]).done();
        assert_eq!(said.contains("5 commits are left"), few, "{said}");
    }
}

#[test]
fn check_explains_a_refused_card() {
    let whole = whole_image();
    let mut longer = whole.clone();
    longer.push(0);
    assert_eq!(refusal(&longer), "3: 5,633 bytes are no whole blocks");
    assert_eq!(
        refusal(&[]),
        "3: 0 blocks are too few, a card has at least 11"
    );
    assert_eq!(with_number(whole.clone(), 0, 7), "4: the layout is 7");
    let mut filled = Maker::new(27, &[range(0, 200)]).card;
    filled.resize(231 * BLOCK, 0);
    assert_eq!(
        refusal(&filled),
        "5: the ranges end at block 230, the card has 231"
    );
    assert_eq!(with_number(whole.clone(), 12, 7), "5: A is 7, not 8 to 512");
    let mut unsettled = whole.clone();
    put_number(&mut unsettled, 4, 5);
    assert_eq!(with_number(unsettled, 8, 0), "6: commit 5 with trailer 0");
    assert_eq!(
        with_number(whole, 4, 5),
        "7: the trailer in block 4 is of commit 1, the header of 5"
    );
}

#[test]
fn check_reads_no_more_than_a_card_can_have() {
    let folder = Folder::new();
    let image = folder.file("card", whole_image());
    let file = fs::OpenOptions::new().write(true).open(&image).unwrap();
    file.set_len(1 << 40).unwrap();
    let said = on("check", &image, &[]).out;
    let why = "3: 2,147,483,648 blocks are too many, a card has at most 65,536\n";
    assert!(said.ends_with(why), "{said}");
}

#[test]
fn check_explains_a_refused_generation() {
    let mut maker = Maker::new(256, &[range(0, 4)]);
    maker.write(0, &[1]).write(1, &[1]).write(2, &[1]).commit();
    let card = maker.card;
    let trailer = 6 * BLOCK + 496;
    let mut high = card.clone();
    put_number(&mut high, trailer + 12, 128);
    let high = with_number(high, trailer + 8, 128);
    assert_eq!(high, "7: size 131 is above H 128");
    assert_eq!(
        with_number(card.clone(), trailer + 8, 2),
        "7: e 4 is above p 2"
    );
    let frame = 5 * BLOCK + 8 * 3;
    assert_eq!(
        with_number(card.clone(), frame, 12),
        "8: entry 3 names frame 12, which is no home block"
    );
    assert_eq!(
        with_number(card, frame + 4, 5),
        "8: entry 3 names block 5, which is no page block (1 to 4)"
    );
}

#[test]
fn dump_tells_every_block() {
    let folder = Folder::new();
    let said = on("dump", &folder.file("card", whole_image()), &[]).done();
    let wanted = "\
header, block 0
  layout    1
  commit    1
  trailer   4
  A         8
  ranges    1
  range 0   first OID 100, n 1
ranges
  range 0   OID 100, 1 page, blocks 9 to 10
trailer, block 4
  commit    1
  first     1
  p         2
  e         2
  size      4
  H         4, the most that a size may be
directory, block 3
  entry 0   frame 9 in block 2: pot of OID 100
  entry 1   frame 10 in block 1: OID 100
blocks
  0               header
  1               area, page block: OID 100
  2               area, page block: pot of OID 100
  3               area, directory
  4               area, trailer
  5 to 8          area, free; the next generation begins at block 5
  9               home, pot of OID 100; committed in area block 2
  10              home, OID 100: count 0, not empty; committed in area block 1
";
    assert_eq!(said, wanted);
}

#[test]
fn dump_folds_what_is_alike() {
    let folder = Folder::new();
    let said = on("dump", &folder.file("card", busy()), &[]).done();
    for line in [
        "  1               area, trailer",
        "  2 to 16         area, free; the next generation begins at block 2",
        "  17              area, page block that no entry names",
        "  27              home, OID 101: count 2, empty; home may hold any bytes",
        "  31 to 126       home, OIDs 105 to 200: count 0, empty; home may hold any bytes",
        "  128             home, pot of OID 202",
    ] {
        assert!(said.lines().any(|said| said == line), "{line}\n{said}");
    }
    let many = Maker::new(8, &[range(0, 1_000), range(5_000, 3)]);
    let said = on("dump", &folder.file("card", many.card), &[]).done();
    let blocks: Vec<&str> = said.lines().skip_while(|line| *line != "blocks").collect();
    assert_eq!(
        blocks[3..],
        [
            "  9 to 1018       home, 10 pots, and OIDs 0 to 999: count 0, \
             empty; home may hold any bytes",
            "  1019            home, pot of OIDs 5000 to 5002",
            "  1020 to 1022    home, OIDs 5000 to 5002: count 0, empty; home may hold any bytes",
        ]
    );
}

#[test]
fn dump_tells_of_a_page_that_is_passed_over() {
    let folder = Folder::new();
    let said = on("dump", &folder.file("card", emptied()), &[]).done();
    let blocks: Vec<&str> = said.lines().skip_while(|line| *line != "blocks").collect();
    assert_eq!(
        blocks[2..],
        [
            "  1               area, page block: OID 100, passed over",
            "  2               area, page block: pot of OIDs 100 to 101",
            "  3               area, directory",
            "  4               area, trailer",
            "  5 to 8          area, free; the next generation begins at block 5",
            "  9               home, pot of OIDs 100 to 101; committed in area block 2",
            "  10              home, OID 100: count 1, empty; home may hold any bytes",
            "  11              home, OID 101: count 0, empty; home may hold any bytes",
        ]
    );
}

/// Neither what stands at home nor what the area has of it.
#[test]
fn an_empty_page_is_shown_and_exported_as_zeros() {
    let folder = Folder::new();
    let card = emptied();
    assert_eq!((card[BLOCK], card[10 * BLOCK]), (7, 9));
    let image = folder.file("card", card);
    let wanted = "\
OID     100
count   1
flag    set
pot     area block 2, committed for home block 9
page    empty; home block 10 may hold any bytes
00000000: 00 00 00 00 00 00 00 00 00 00 00 00 00 00 00 00  ................
*
000001f0: 00 00 00 00 00 00 00 00 00 00 00 00 00 00 00 00  ................
";
    assert_eq!(on("page", &image, &["100"]).done(), wanted);
    let exported = "lane export 1 area 8 range 100:2\npage 100 count 1 zeros\nend 1\n";
    assert_eq!(on("export", &image, &[]).done(), exported);
}

#[test]
fn dump_of_a_refused_card_shows_what_can_be_told() {
    let folder = Folder::new();
    let shown = |at: usize, number: u32| {
        let mut card = whole_image();
        put_number(&mut card, at, number);
        let answer = on("dump", &folder.file("card", card), &[]);
        assert_eq!((answer.status, answer.err.as_str()), (1, ""));
        let parts = ["\nranges\n", "\ntrailer, ", "\ndirectory, ", "\nblocks\n"];
        assert!(answer.out.starts_with("header, block 0\n"));
        assert!(answer.out.contains("\nrefused "), "{}", answer.out);
        parts.map(|part| answer.out.contains(part))
    };
    assert_eq!(shown(0, 2), [false, false, false, false]);
    assert_eq!(shown(12, 600), [false, false, false, false]);
    assert_eq!(shown(8, 600), [true, false, false, false]);
    assert_eq!(shown(4, 2), [true, true, false, false]);
    assert_eq!(shown(3 * BLOCK, 700), [true, true, true, false]);
    let short = on("dump", &folder.file("card", [1; 9]), &[]);
    assert!(short.out.ends_with("3: 9 bytes are no whole blocks\n"));
}

#[test]
fn page_shows_a_page_as_a_start_does() {
    let folder = Folder::new();
    let image = folder.file("card", busy());
    let said = on("page", &image, &["104"]).done();
    let wanted = "\
OID     104
count   0
flag    clear
pot     area block 19, committed for home block 25
page    area block 23, committed for home block 30
00000000: 61 67 61 69 6e 68 68 68 68 68 68 68 68 68 68 68  againhhhhhhhhhhh
00000010: 68 68 68 68 68 68 68 68 68 68 68 68 68 68 68 68  hhhhhhhhhhhhhhhh
*
000001f0: 68 68 68 68 68 68 68 68 68 68 68 68 68 68 68 68  hhhhhhhhhhhhhhhh
";
    assert_eq!(said, wanted);
    let empty = on("page", &image, &["101"]).done();
    assert!(empty.contains("count   2\nflag    set\npot     area block 19"));
    let home = on("page", &image, &["202"]).done();
    assert!(home.contains("pot     home block 128\npage    home block 129\n"));
}

#[test]
fn an_oid_in_no_range_is_status_1() {
    let folder = Folder::new();
    let image = folder.file("card", busy());
    for (oid, number, why) in [
        ("99", 9, "is below the first range or above the last"),
        ("203", 21, "lies between two ranges"),
        ("999", 21, "lies between two ranges"),
        ("1020", 9, "is below the first range or above the last"),
    ] {
        let why = format!("refused {number}: the OID {why}\n");
        let oids = format!("{number}: no OID {oid}, the OIDs are 100 to 202, 1000 to 1019\n");
        for words in [why, oids] {
            on("page", &image, &[oid]).failed(1, &words);
        }
    }
    for oid in ["x", "1:1", "4294967296"] {
        on("page", &image, &[oid]).failed(2, "OID");
    }
}

#[test]
fn a_refused_card_is_neither_shown_nor_exported_nor_drawn() {
    let folder = Folder::new();
    let mut card = whole_image();
    put_number(&mut card, 4, 5);
    let image = folder.file("card", card);
    let out = folder.path("out");
    for (command, more) in [
        ("page", vec!["100"]),
        ("export", vec!["--out", out.to_str().unwrap()]),
        ("map", vec!["--out", out.to_str().unwrap()]),
    ] {
        let answer = on(command, &image, &more);
        assert_eq!(answer.out, "");
        answer.failed(
            1,
            "7: the trailer in block 4 is of commit 1, the header of 5",
        );
        assert!(!out.exists());
    }
}

#[test]
fn what_the_system_refuses_is_status_3() {
    let folder = Folder::new();
    let none = folder.path("none");
    for command in ["check", "dump", "export", "map"] {
        on(command, &none, &[]).failed(3, "none: No such file");
        on(command, &folder.path(""), &[]).failed(3, "neither a file nor a block device");
    }
    on("page", &none, &["1"]).failed(3, "none: No such file");
    let image = folder.file("card", busy());
    on("export", &image, &["--out", "/dev/full"]).failed(3, "/dev/full: No space left");
    on("map", &image, &["--out", "/nowhere/map"]).failed(3, "/nowhere/map: No such file");
}

#[test]
fn the_card_is_never_the_output() {
    let folder = Folder::new();
    let image = folder.file("card", busy());
    let link = folder.path("link");
    fs::hard_link(&image, &link).unwrap();
    for command in ["export", "map"] {
        on(command, &image, &["--out", link.to_str().unwrap()]).failed(2, "are one file");
    }
    assert_eq!(fs::read(&image).unwrap(), busy());
}

#[test]
fn a_reader_that_has_enough_is_no_error_in_words() {
    let mut maker = Maker::new(200, &[range(0, 100)]);
    for oid in 0..50 {
        maker.write(oid, &[1; BLOCK]);
    }
    maker.commit().settle();
    for oid in 50..100 {
        maker.write(oid, &[1; BLOCK]);
    }
    maker.commit();
    let folder = Folder::new();
    let image = folder.file("card", maker.card);
    // More than a pipe holds, so that it is still writing when the pipe is closed.
    assert!(on("export", &image, &[]).done().len() > 65_536);
    let mut child = Command::new(env!("CARGO_BIN_EXE_lane"))
        .args(["export".as_ref(), image.as_os_str()])
        .stdout(Stdio::piped())
        .stderr(Stdio::piped())
        .spawn()
        .unwrap();
    drop(child.stdout.take());
    let output = child.wait_with_output().unwrap();
    assert_eq!(output.status.code(), Some(3));
    assert_eq!(output.stderr, b"");
}

#[test]
fn words_that_no_command_takes_are_status_2() {
    lane::<&str>(&[]).failed(2, "no command");
    lane(&["frobnicate"]).failed(2, "no command frobnicate");
    lane(&["check"]).failed(2, "IMAGE is missing");
    lane(&["check", "a", "b"]).failed(2, "b is a word too many");
    lane(&["check", "a", "--out", "b"]).failed(2, "no option --out");
    lane(&["export", "a", "--out"]).failed(2, "--out has no value");
    lane(&["help", "check", "dump"]).failed(2, "no command help");
}

#[test]
fn every_command_has_help() {
    let all = lane(&["help"]).done();
    assert_eq!(lane(&["--help"]).done(), all);
    for status in ["0  done", "1  refused", "2  usage", "3  the system"] {
        assert!(all.contains(status), "{all}");
    }
    for name in ["format", "check", "dump", "page", "export", "import", "map"] {
        assert!(all.contains(&format!("\n  {name} IMAGE")), "{all}");
        let help = lane(&[name, "--help"]).done();
        assert!(help.starts_with(&format!("usage: lane {name} IMAGE")));
        assert_eq!(lane(&["help", name]).done(), help);
        assert!(help.lines().all(|line| line.len() <= 100), "{help}");
    }
    assert!(lane(&["--version"]).done().starts_with("lane 0.1.0"));
}
