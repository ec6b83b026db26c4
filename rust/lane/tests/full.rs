//! A disk without room for a card. The disk is a small one in memory, which a process of its own
//! mounts for itself; where the system does not let it, nothing is tried, and the test says so.

use lane::file::{Doing, Error, Options, Promise};
use lane::Range;
use std::env;
use std::fs;
use std::io::ErrorKind;
use std::path::Path;
use std::process::Command;

/// Names the folder that the small disk is mounted on.
const FOLDER: &str = "LANE_FULL_DISK";

const MOUNT: &str = r#"mount -t tmpfs -o size=64k tmpfs "$LANE_FULL_DISK" && exec "$@""#;

#[test]
fn a_card_without_room_is_told_and_leaves_no_file() {
    match env::var_os(FOLDER) {
        Some(folder) => on_a_small_disk(Path::new(&folder)),
        None => with_a_small_disk(),
    }
}

/// Runs this test once more, with a disk of 128 blocks.
fn with_a_small_disk() {
    let folder = env::temp_dir().join(format!("lane-full-{}", std::process::id()));
    fs::create_dir(&folder).unwrap();
    let told = Command::new("unshare")
        .args(["--map-root-user", "--mount", "sh", "-c", MOUNT, "sh"])
        .arg(env::current_exe().unwrap())
        .args(["--exact", "a_card_without_room_is_told_and_leaves_no_file"])
        .env(FOLDER, &folder)
        .output();
    fs::remove_dir(&folder).unwrap();
    match told {
        Ok(told) if told.stdout.is_empty() => {
            eprintln!(
                "no disk of its own: {}",
                String::from_utf8_lossy(&told.stderr)
            );
        }
        Ok(told) => assert!(told.status.success(), "{told:?}"),
        Err(why) => eprintln!("no disk of its own: {why}"),
    }
}

fn on_a_small_disk(folder: &Path) {
    let mut options = Options::new();
    options.promise(Promise::Kill);
    let range = |pages| [Range { first: 100, pages }];
    let card = folder.join("card");
    let Err(Error::Drive { doing, source }) = options.create(&card, 8, &range(200)) else {
        panic!("a card of 211 blocks on a disk of 128");
    };
    assert_eq!(
        (doing, source.kind()),
        (Doing::Write, ErrorKind::StorageFull)
    );
    assert!(!card.exists());
    // What is there has its room: a smaller card fits, and stays when the disk is full.
    let mut lane = options.create(&card, 8, &range(50)).unwrap();
    fs::write(folder.join("rest"), vec![1; 60 * 1024]).unwrap_err();
    let key = lane.key(100).unwrap();
    lane.write(key, 0, b"paid").unwrap();
    lane.commit().unwrap();
}
