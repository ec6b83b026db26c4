//! `lane export`: all pages and counts as text.

use crate::arguments::Arguments;
use crate::exported::{write_end, write_first, Page};
use crate::failure::Failure;
use crate::output::Output;
use crate::progress::Progress;
use crate::started::Started;

pub fn run(arguments: &Arguments) -> Result<(), Failure> {
    let image = arguments.path(0);
    let card = Started::read(image)?;
    let out = arguments.value_path("--out");
    let mut out = Output::to(out.as_deref(), image)?;
    let mut progress = progress(&card, &out, arguments.has("--progress"));
    write_first(card.header.area, &card.header.ranges, &mut out)?;
    let mut written = 0;
    for (done, oid) in card.oids().enumerate() {
        let page = Page::of(&card, oid).map_err(|refusal| Failure::Bad(refusal.to_string()))?;
        if let Some(page) = page {
            page.write(&mut out)?;
            written += 1;
        }
        progress.at(done);
    }
    write_end(written, &mut out)?;
    out.finish()?;
    progress.end();
    Ok(())
}

/// On a terminal the pages themselves show how far it is.
fn progress(card: &Started, out: &Output, asked: bool) -> Progress {
    if out.terminal && !asked {
        return Progress::none();
    }
    Progress::new("export", card.geometry.pages(), asked)
}
