//! `hall show`

use super::check::refused;
use super::load::{self, Loaded};
use super::{Args, Exit, Failure, Outcome, Streams};
use crate::input::shown_name;
use crate::show::{self, reduced, Labels};
use crate::table::Table;
use crate::text;
use crate::text::source::Source;

/// The text of a table.
pub(super) fn show(args: &Args, streams: &mut Streams<'_>) -> Outcome {
    let name = args.file(0).unwrap_or("-");
    let loaded = match load::load(name, args.has("--binary"), streams) {
        Ok(loaded) => loaded,
        Err(unloaded) => return refused(name, unloaded, false, streams),
    };
    let Loaded {
        table,
        program,
        terms,
        ..
    } = loaded;
    let labels = Labels::of_text(&program, &terms);
    let (text, wanted) = if args.has("--exact") {
        (show::exact(&table, &labels), table.bytes().to_vec())
    } else {
        let wanted = reduced::reduced(&table).bytes(&table);
        (show::readable(&table, &labels), wanted)
    };
    if rebuilt(&text).as_ref().map(Table::bytes) != Some(&wanted) {
        return Err(Failure::Contradiction(
            "the text does not build its table again".to_owned(),
        ));
    }
    streams.out.write_all(text.as_bytes())?;
    if wanted != table.bytes() {
        streams.out.flush()?;
        writeln!(
            streams.err,
            "{}: note: this text builds {} bytes, the table has {}: unused and equal terms are \
             left out. show --exact keeps every byte.",
            shown_name(name),
            wanted.len(),
            table.bytes().len()
        )?;
    }
    Ok(Exit::Good)
}

/// The table that a text builds.
fn rebuilt(text: &str) -> Option<Table> {
    let source = Source::new("", text);
    text::understand(&source).ok().map(|it| it.table)
}
