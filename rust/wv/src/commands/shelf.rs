//! Shelves of prepared roots.

use super::files::ShelfFiles;
use super::Command;
use crate::args::Args;
use crate::failure::Failure;
use crate::fresh;
use crate::names::counted;
use crate::report::Report;
use wivulameno::limits::{MAX_SLOTS, ROOT_LEN};
use wivulameno::store::{Standing, Status, Trouble};
use wivulameno::Refusal;

pub const NEW: Command = Command {
    name: "shelf new",
    usage: "PAGE --log LOG --slots S [--lost] [--wait SECONDS]",
    about: "Make a shelf page without roots, and begin its log.",
    help: "\
A page or a log that is there already is not touched.

  --log LOG       the file that counts the draws
  --slots S       room for so many roots, 1 to 255
  --lost          the page of this log is lost: begin a new page under it; every
                  older page is refused from then on
  --wait SECONDS  how long to wait for a shelf that another process has open

The log has to outlive the page. Keep it where no rollback, restore or snapshot
reaches it, and never delete it or put an older copy in its place.
",
    example: "  wv shelf new shelf.page --log /var/lib/depot/shelf.log --slots 255\n",
    places: 1,
    times: 1,
    options: &["log", "slots", "wait"],
    repeated: &[],
    flags: &["lost"],
    run: new,
};

fn new(args: &Args, _: &mut Report) -> Result<(), Failure> {
    let files = ShelfFiles::of(args, args.place(0))?;
    args.needed("slots")?;
    let slots: u32 = args.number("slots")?.expect("it is there");
    match u16::try_from(slots) {
        Ok(slots @ 1..=MAX_SLOTS) => files.begin(slots, args.flag("lost")),
        _ => {
            let text = format!("--slots {slots}: a shelf has 1 to {MAX_SLOTS} slots");
            Err(Failure::Usage(text))
        }
    }
}

pub const STOCK: Command = Command {
    name: "shelf stock",
    usage: "PAGE --log LOG (--fresh N | --root ROOT) [--wait SECONDS]",
    about: "Put roots on a shelf.",
    help: "\
Prints how many roots were stocked.

  --log LOG       the file that counts the draws
  --fresh N       N new roots from the operating system's random source
  --root ROOT     this root, of 16 bytes; it must be random, stocked once, and
                  no copy of it may be kept
  --wait SECONDS  how long to wait for a shelf that another process has open

A root is a secret: --root takes a file, `-` or `fd:N`, and nothing that is
typed, because other users see the command line in the process list, and the
shell keeps it in its history.

Refused with 14 for a damaged page, 15 for one that is not present, 6 for a root
of another length, 17 when there is no room left.

15 has two causes. Behind: the page has fewer draws than the log counts, so it
is old; put the present page back. Ahead: it has more, so the log was set back;
no page of this shelf can be trusted: make a new shelf with a new log. The first
stocking or proof that meets a page ahead writes that into the log, for good.
",
    example: "  wv shelf stock shelf.page --log /var/lib/depot/shelf.log --fresh 16\n",
    places: 1,
    times: 1,
    options: &["log", "fresh", "root", "wait"],
    repeated: &[],
    flags: &[],
    run: stock,
};

fn stock(args: &Args, report: &mut Report) -> Result<(), Failure> {
    let files = ShelfFiles::of(args, args.place(0))?;
    match (args.number("fresh")?, args.secret("root")?) {
        (Some(count), None) => stock_all(&files, count, fresh::root, report),
        (None, Some(root)) if root.bytes.len() != ROOT_LEN => {
            let name = root.titled("--root");
            let found = counted(root.bytes.len() as u64, "byte");
            let cause = format!("{name} has {found}, a root has {ROOT_LEN}");
            Err(Failure::Refused(Refusal::Length, cause))
        }
        (None, Some(root)) => stock_all(&files, 1, || Ok(root.bytes.clone()), report),
        _ => Err(STOCK.misused("one of `--fresh` and `--root` is needed")),
    }
}

/// Tells how many were stocked, also when the next one is refused.
fn stock_all(
    files: &ShelfFiles,
    count: u32,
    root: impl Fn() -> Result<Vec<u8>, Failure>,
    report: &mut Report,
) -> Result<(), Failure> {
    let mut shelf = files.open()?;
    let failure = |trouble| files.failure(trouble);
    files.note_stockings(shelf.status().map_err(failure)?);
    let mut stocked = 0;
    let mut done = Ok(());
    while stocked < count && done.is_ok() {
        done = root().and_then(|root| shelf.stock(&root).map_err(failure));
        stocked += u32::from(done.is_ok());
    }
    report.line(&format!("stocked {stocked}"));
    done
}

pub const STATUS: Command = Command {
    name: "shelf status",
    usage: "PAGE --log LOG [--json] [--wait SECONDS]",
    about: "Print what is on a shelf.",
    help: "\
Prints the slots, the roots that are ready, the draws of the page, the log's
count, and how the page stands to the log, a line each; then whether a call is
unfinished, and whether the shelf is empty. Only reads, also beside a process
that has the shelf open.

  --log LOG       the file that counts the draws
  --json          print an object with the keys slots, ready, draws, log, page
                  (present, earlier, behind, ahead, set_back, replaced, foreign,
                  unknown), stockings_missing, draws_missing, draws_ahead,
                  unfinished, refused and message; the last two are null when
                  all is well, and alone there if the files cannot be read
  --wait SECONDS  how long to wait for the end of an unfinished call

A page that cannot be drawn from ends with exit status 1, and with a sentence on
what to do: refused with 14 if it is damaged, 15 if it is old or the log was set
back, 18 if it has counted as many draws as it can, and without a number if it
is no page of this log.

15 has two causes. Behind: the page has fewer draws than the log counts, so it
is old; put the present page back. Ahead: it has more, so the log was set back;
no page of this shelf can be trusted: make a new shelf with a new log. The first
stocking or proof that meets a page ahead writes that into the log, for good; a
status does not.
",
    example: "  wv shelf status shelf.page --log /var/lib/depot/shelf.log\n",
    places: 1,
    times: 1,
    options: &["log", "wait"],
    repeated: &[],
    flags: &["json"],
    run: status,
};

fn status(args: &Args, report: &mut Report) -> Result<(), Failure> {
    let files = ShelfFiles::of(args, args.place(0))?;
    let status = files.look()?;
    report.number("slots", "slots", status.slots as u64);
    report.number("ready", "ready", status.ready as u64);
    report.number("draws", "draws", status.draws);
    report.number("log", "log", status.count);
    report_standing(status, report);
    match status.trouble() {
        Some(Trouble::Refused(Refusal::Empty)) => {
            report.line("empty: stock more");
            Ok(())
        }
        Some(trouble) => Err(files.failure(trouble)),
        None => Ok(()),
    }
}

fn report_standing(status: Status, report: &mut Report) {
    let (key, words) = standing(status.standing);
    report.line(&format!("page {words}"));
    report.set("page", key);
    let [mut stockings, mut missing, mut ahead] = [0; 3];
    match status.standing {
        Standing::Earlier { stockings: number } => stockings = number,
        Standing::Behind { draws } => missing = draws,
        Standing::Ahead { draws } => ahead = draws,
        _ => {}
    }
    report.set("stockings_missing", stockings);
    report.set("draws_missing", missing);
    report.set("draws_ahead", ahead);
    if status.unfinished {
        report.line("unfinished: a call is at work, or was cut off");
    }
    report.set("unfinished", status.unfinished);
}

/// How a page stands: for a program, and for a reader.
fn standing(standing: Standing) -> (&'static str, String) {
    match standing {
        Standing::Present => ("present", "present".into()),
        Standing::Earlier { stockings } => {
            let number = counted(stockings, "stocking");
            ("earlier", format!("from before {number}"))
        }
        Standing::Behind { draws } => {
            let number = counted(draws, "draw");
            ("behind", format!("old: {number} behind"))
        }
        Standing::Ahead { draws } => {
            let number = counted(draws, "draw");
            ("ahead", format!("ahead by {number}: the log was set back"))
        }
        Standing::SetBack => (
            "set_back",
            "unusable: the log says that it was set back".into(),
        ),
        Standing::Replaced => (
            "replaced",
            "replaced: from before a new page was begun".into(),
        ),
        Standing::Foreign => (
            "foreign",
            "foreign: page and log belong to different shelves".into(),
        ),
        Standing::Unknown => (
            "unknown",
            "unknown: the log has never seen this page".into(),
        ),
        other => ("other", other.to_string()),
    }
}
