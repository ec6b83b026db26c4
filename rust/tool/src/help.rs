//! What `lane help` and `lane COMMAND --help` say.

pub const ALL: &str = "\
lane: makes cards, checks, shows, exports, imports and draws them

usage: lane COMMAND IMAGE ...

  format IMAGE      make an empty card
  check IMAGE       see whether a start accepts the card, and if not, why
  dump IMAGE        show header, trailer, directory, and what each block is
  page IMAGE OID    show one page
  export IMAGE      write all pages and counts as text
  import IMAGE FILE make a card of an export
  map IMAGE         draw the card and its ring as SVG

  help [COMMAND], COMMAND --help, --version

IMAGE is a file or a block device. All but format and import read it only, take no lock, and may be
used while a lane runs on the card: what they show is of one commit.

Exit statuses:
  0  done
  1  refused or found bad: a card that a start refuses, an OID in no range
  2  usage: the words of the command line
  3  the system failed: a file that is not there, not readable, in use
Errors go to standard error, as lines that begin with \"lane: \".
";

/// What --promise takes, said at format and import.
macro_rules! promise {
    () => {
        "
  --promise WORD      what the drive must promise:
        asked         the card survives a power cut: O_DIRECT, sectors of 512 bytes, a file system
                      that writes in place. Else it is refused. This is the default
        vouched       you vouch for sectors and file system; O_DIRECT is still needed
        kill          the card survives a kill of the program, and perhaps no power cut
"
    };
}

pub const FORMAT: &str = concat!(
    "\
usage: lane format IMAGE --area A --range FIRST:PAGES [--range ...] [--replace] [--promise WORD]

Makes an empty card in a new file or on a block device.

  --area A            blocks of the checkpoint area, 8 to 512: twice the size of the largest
                      commit at least, three times never to wait
  --range FIRST:PAGES a home range: its first OID, and how many pages. 1 to 8 of them, OIDs rising
  --replace           format over what is there",
    promise!()
);

pub const CHECK: &str = "\
usage: lane check IMAGE

A dry start: reads the card, writes nothing, takes no lock. Accepted, it says the commit number, A,
the ranges, the entries of the committed generation, and the pages (status 0). Refused, it says the
number of the question that was answered \"no\", the question, and the numbers behind it (status 1).

  3 length   4 layout   5 area and ranges   6 commit number   7 trailer   8 directory

No block has a checksum: pots and pages are taken as they stand.
";

pub const DUMP: &str = "\
usage: lane dump IMAGE

Shows the header, the ranges with their blocks, trailer and directory of the committed generation,
and then what each block is. Neighbours that are alike are shown as one. Of a card that a start
refuses it shows as much as can be told, and why it is refused (status 1).

A page whose flag is set is empty: it reads as zeros, and no block is read for it. Migration passes
over it, so its home block may hold any bytes.
";

pub const PAGE: &str = "\
usage: lane page IMAGE OID

Shows a page as a start does: its count, its flag, where it stands, and its bytes. A page whose flag
is set is empty: it reads as zeros, whatever its home block holds. A star stands for lines like the
one before. An OID in no range is status 1.
";

pub const EXPORT: &str = "\
usage: lane export IMAGE [--out FILE] [--progress]

Writes all pages and counts as text, which lane import takes. Pages of zeros with count 0 are left
out. A card that a start refuses is not exported (status 1).

  --out FILE          write to FILE, and not to standard output
  --progress          show how far it is, also where standard error is no terminal
";

pub const IMPORT: &str = concat!(
    "\
usage: lane import IMAGE FILE [--area A] [--counts WORD] [--replace] [--promise WORD] [--progress]

Makes a card with the area and ranges of an export, brings all pages and counts to it, and then
reads all back and compares. Until it is done the card is not whole, and a start may accept it all
the same: an import that was cut is made again, with --replace.

Counts begin at 0 on a new card, and only a rescind raises one, by 1: so each page is rescinded as
often as its count says, and keys to the old card's pages are keys to those of the new one.

  --area A            another area than the export's
  --counts WORD       by default counts are kept, and an export with a count above 1,000 is refused
        keep          keep all counts, however many rescinds it takes
        reset         leave all counts 0: programs take all keys anew
  --replace           format over what is there
  --progress          show how far it is, also where standard error is no terminal",
    promise!()
);

pub const MAP: &str = "\
usage: lane map IMAGE [--out FILE.svg]

Draws the card as SVG: the ring of the checkpoint area with the committed generation and where the
next one begins, and the home ranges, a row for each pot and its pages, by where their bytes are. An
empty page, one whose flag is set, has none: it reads as zeros, and its home may hold any bytes.

  --out FILE.svg      write to FILE.svg, and not to standard output
";
