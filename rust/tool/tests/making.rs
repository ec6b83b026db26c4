//! Format and import, which write; export, which import takes.

mod common;

use common::{busy, on, range, Folder, Maker};
use lane::file::{Options, Promise};
use lane::{Store, BLOCK};
use std::fs;
use std::path::Path;
use std::time::Duration;

const KILL: [&str; 2] = ["--promise", "kill"];

fn format(image: &Path, more: &str) -> common::Answer {
    let more: Vec<&str> = more.split_whitespace().chain(KILL).collect();
    on("format", image, &more)
}

fn import(image: &Path, file: &Path, more: &str) -> common::Answer {
    let file = file.to_str().unwrap();
    let more: Vec<&str> = [file]
        .into_iter()
        .chain(more.split_whitespace())
        .chain(KILL)
        .collect();
    on("import", image, &more)
}

fn export(image: &Path) -> String {
    on("export", image, &[]).done()
}

#[test]
fn format_makes_the_card_that_the_library_makes() {
    let folder = Folder::new();
    let image = folder.path("card");
    let said = format(&image, "--area 8 --range 100:103 --range=1000:20").done();
    let wanted = format!("formatted {}: A 8, 2 ranges, 123 pages\n", image.display());
    assert_eq!(said, wanted);
    let library = Maker::new(8, &[range(100, 103), range(1000, 20)]).card;
    assert!(fs::read(&image).unwrap() == library);
    format(&image, "--area 8 --range 100:1").failed(1, "--replace asks for it");
    assert!(fs::read(&image).unwrap() == library);
    format(&image, "--area 8 --range 100:1 --replace").done();
    assert!(fs::read(&image).unwrap() == Maker::new(8, &[range(100, 1)]).card);
}

#[test]
fn a_geometry_that_is_refused_touches_nothing() {
    let folder = Folder::new();
    let image = folder.path("card");
    for (words, why) in [
        ("--area 7 --range 1:9", "5: A is 7, not 8 to 512"),
        ("--area 8 --range 1:0 --range 2:9", "5: range 0 has no page"),
        (
            "--area 8 --range 0:1 --range 0:1",
            "5: range 1 begins at OID 0, the one before it ends at OID 0",
        ),
        (
            "--area 8 --range 4294967295:2",
            "5: range 0 ends at OID 4294967296, above 4294967295",
        ),
        ("--area 8 --range 0:64891", "3: 65,537 blocks are too many"),
        (
            "--area 8 --range 0:4294967295",
            "3: 4,337,074,827 blocks are too many",
        ),
        (
            "--area 4294967295 --range 0:1",
            "3: 4,294,967,298 blocks are too many",
        ),
        ("--area 600 --range 0:1", "5: A is 600, not 8 to 512"),
    ] {
        let answer = format(&image, words);
        assert!(!answer.err.contains("defect"), "{answer:?}");
        answer.failed(1, why);
        assert!(!image.exists());
    }
    let nine: Vec<String> = (0..9).map(|i| format!("--range {i}:1")).collect();
    let nine = format!("--area 8 {}", nine.join(" "));
    format(&image, &nine).failed(1, "5: the number of ranges is 9, not 1 to 8");
}

#[test]
fn format_wants_all_its_words() {
    let folder = Folder::new();
    let image = folder.path("card");
    for (words, why) in [
        ("--range 1:1", "--area is missing"),
        ("--area 8", "--range is missing"),
        ("--area 8 --range 1", "--range is FIRST:PAGES, not 1"),
        ("--area x --range 1:1", "--area x"),
        ("--area 8 --range 1:1 --counts keep", "no option --counts"),
    ] {
        format(&image, words).failed(2, why);
    }
    let words = ["--area", "8", "--range", "1:1", "--promise", "perhaps"];
    on("format", &image, &words).failed(2, "--promise is asked, vouched or kill, not perhaps");
    assert!(!image.exists());
}

#[test]
fn an_import_has_what_was_exported() {
    let folder = Folder::new();
    let old = folder.file("old", busy());
    let text = export(&old);
    assert!(text
        .starts_with("lane export 1 area 24 range 100:103 range 1000:20\npage 100 count 0\n6464"));
    assert!(
        text.contains("\npage 101 count 2 zeros\npage 102 count 0\n"),
        "{text}"
    );
    assert!(text.ends_with("\nend 10\n"), "{text}");
    let file = folder.file("text", &text);
    let new = folder.path("new");
    let said = import(&new, &file, "").done();
    assert!(
        said.contains("A 24, 2 ranges, 123 pages\ncounts kept: 3 rescinds of 2 pages\n"),
        "{said}"
    );
    assert!(
        said.ends_with("; 123 pages read back and compared\n"),
        "{said}"
    );
    assert_eq!(export(&new), text);
    assert_eq!(old.metadata().unwrap().len(), new.metadata().unwrap().len());
}

#[test]
fn export_writes_the_same_to_a_file() {
    let folder = Folder::new();
    let image = folder.file("card", busy());
    let out = folder.path("out");
    assert_eq!(
        on("export", &image, &["--out", out.to_str().unwrap()]).done(),
        ""
    );
    assert_eq!(fs::read_to_string(out).unwrap(), export(&image));
    assert_eq!(fs::read(image).unwrap(), busy());
}

/// An area that holds one page and its pot makes a commit for each page.
#[test]
fn another_area_commits_as_often_as_it_must() {
    let folder = Folder::new();
    let text = export(&folder.file("old", busy()));
    let file = folder.file("text", &text);
    let new = folder.path("new");
    let said = import(&new, &file, "--area 8").done();
    assert!(said.contains("\n8 commits; "), "{said}");
    assert_eq!(export(&new), text.replace("area 24", "area 8"));
}

#[test]
fn counts_are_kept_or_reset_as_asked() {
    let folder = Folder::new();
    let text =
        |count: u32| format!("lane export 1 area 8 range 5:2\npage 6 count {count} zeros\nend 1\n");
    let new = folder.path("new");
    let low = folder.file("low", text(1_000));
    assert!(import(&new, &low, "")
        .done()
        .contains("1,000 rescinds of 1 page\n"));
    let high = folder.file("high", text(1_001));
    let before = fs::read(&new).unwrap();
    import(&new, &high, "--replace").failed(1, "OID 6 has count 1,001, above 1,000");
    assert!(fs::read(&new).unwrap() == before);
    import(&new, &high, "--replace --counts keep").done();
    assert_eq!(export(&new), text(1_001));
    let said = import(&new, &high, "--replace --counts reset").done();
    assert!(
        said.contains("counts reset: 1 page had one above 0\n"),
        "{said}"
    );
    assert_eq!(export(&new), "lane export 1 area 8 range 5:2\nend 0\n");
    import(&new, &high, "--counts some").failed(2, "--counts is keep or reset, not some");
}

/// What is put in place of what in an export, and what import says of it.
const DAMAGE: [(&str, &str, &str); 11] = [
    ("lane", "line", "line 1: not the first line of an export"),
    (
        "export 1",
        "export 2",
        "line 1: an export of format 2, not 1",
    ),
    (":20\n", "\n", "line 1: no range"),
    ("area 24", "area -4", "line 1: -4 is no number"),
    ("area 24", "area 9000", "5: A is 9,000, not 8 to 512"),
    ("64", "6g", "line 3: not 32 bytes as hexadecimal digits"),
    ("page 104", "page 100", "OID 100 does not rise"),
    ("page 1019", "page 1020", "OID 1020 is in no range"),
    ("page 101 ", "leaf 101 ", "neither a page nor the end"),
    ("end 10", "end 9", "the end is of 9 pages, 10 came"),
    ("end 10\n", "end 10\n\n", "something behind the end"),
];

#[test]
fn a_damaged_export_is_not_imported() {
    let folder = Folder::new();
    let good = export(&folder.file("card", busy()));
    let new = folder.path("new");
    for (from, to, why) in DAMAGE {
        let damaged = good.replacen(from, to, 1);
        assert_ne!(damaged, good, "{from}");
        import(&new, &folder.file("text", damaged), "").failed(1, why);
        assert!(!new.exists(), "{why}");
    }
    for lines in [0, 1, 2, 30] {
        let cut: Vec<&str> = good.lines().take(lines).collect();
        let cut = folder.file("text", cut.join("\n"));
        import(&new, &cut, "").failed(1, "it was cut short");
    }
    import(&new, &folder.file("text", [0xff]), "").failed(1, "no text");
    import(&new, &folder.path("none"), "").failed(3, "none: No such file");
    let one = folder.file("one", &good);
    import(&one, &one, "--replace").failed(2, "are one file");
    assert_eq!(fs::read_to_string(one).unwrap(), good);
}

#[test]
fn how_far_it_is_goes_to_standard_error_if_asked() {
    let folder = Folder::new();
    let image = folder.file("card", busy());
    let answer = on("export", &image, &["--progress"]);
    assert_eq!((answer.status, &answer.out), (0, &export(&image)));
    assert!(
        answer.err.starts_with("\rexport: 0 of 123 pages\r"),
        "{}",
        answer.err
    );
    assert!(
        answer.err.ends_with("\rexport: 123 of 123 pages\n"),
        "{}",
        answer.err
    );
    let file = folder.file("text", answer.out);
    let answer = import(&folder.path("new"), &file, "--progress");
    assert_eq!(answer.status, 0);
    assert!(
        answer.err.ends_with("\rimport: 10 of 10 pages\n"),
        "{}",
        answer.err
    );
}

/// What is in use is read, and never written.
#[test]
fn a_card_in_use_is_read_and_not_made_anew() {
    let folder = Folder::new();
    let image = folder.path("card");
    let mut options = Options::new();
    options.promise(Promise::Kill);
    let mut lane = options.create(&image, 8, &[range(5, 2)]).unwrap();
    let key = lane.key(5).unwrap();
    lane.write(key, 0, b"paid").unwrap();
    lane.commit().unwrap();
    assert!(on("check", &image, &[])
        .done()
        .starts_with("accepted: commit 1, "));
    assert!(on("page", &image, &["5"]).done().contains("70 61 69 64"));
    let file = folder.file("text", export(&image));
    format(&image, "--area 8 --range 1:1 --replace").failed(3, "is open already");
    import(&image, &file, "--replace").failed(3, "is open already");
    let mut page = [0; BLOCK];
    lane.read(key, &mut page).unwrap();
    drop(lane);
    let bytes = fs::read(&image).unwrap();
    assert!(Store::start(&bytes, &[0; 4 * BLOCK]).is_ok());
}

/// A lane commits while the card is read: the first and the last page, which change together, are
/// never seen apart. Every other commit is of a page between them, so that both are read at home,
/// and the card is large, so that commits come between the one and the other.
#[test]
fn what_is_read_of_a_live_card_is_of_one_commit() {
    let folder = Folder::new();
    let image = folder.path("card");
    let mut options = Options::new();
    options.promise(Promise::Kill);
    let mut lane = options.create(&image, 12, &[range(0, PAGES)]).unwrap();
    let path = image.clone();
    std::thread::scope(|scope| {
        let reader = scope.spawn(move || (0..60).filter(|_| alike(&path)).count());
        let mut number = 0u8;
        while !reader.is_finished() {
            number = number.wrapping_add(1);
            for pages in [&[0, PAGES - 1][..], &[9]] {
                for oid in pages {
                    let key = lane.key(*oid).unwrap();
                    lane.write(key, 0, &[number; BLOCK]).unwrap();
                }
                lane.commit().unwrap();
            }
            if number.is_multiple_of(4) {
                std::thread::sleep(Duration::from_millis(5));
            }
        }
        assert!(reader.join().unwrap() > 5);
    });
}

const PAGES: u32 = 8_000;

/// Whether the card could be read; both pages are then one number throughout.
fn alike(image: &Path) -> bool {
    let Ok(card) = tool::started::Started::read(image) else {
        return false;
    };
    let [one, two] = [0, PAGES - 1].map(|oid| card.page(card.key(oid).unwrap()).unwrap());
    assert_eq!(one, [one[0]; BLOCK]);
    assert!(one == two, "{} beside {}", one[0], two[0]);
    true
}
