//! The technician's tool: from a spreadsheet's readings to the curve, and from the curve to a sheet and a picture.
mod arguments;
mod axis;
mod fault;
mod files;
mod picture;
mod sheet;
mod survey;
mod svg;
mod table;

use arguments::Arguments;
use fault::Fault;
use rumbeshyq::{BIN_BYTES, Curve, EDGE_BYTES, MAX_EDGES, MAX_POINTS, POINT_BYTES, curve_bytes};
use std::io::{self, Write};
use std::path::Path;
use std::process::ExitCode;

const HELP: &str = "\
rumbeshyq: from the readings of a survey to its two-point curve

  rumbeshyq points CSV -o points.rec               readings to point records
  rumbeshyq edges CSV -o edges.rec                 bin edges to edge records
  rumbeshyq run points.rec edges.rec -o curve.rec  the curve of the survey
  rumbeshyq csv curve.rec edges.rec -o curve.csv   the curve for a spreadsheet
      --semicolon       semicolons and decimal commas
  rumbeshyq svg curve.rec edges.rec -o curve.svg   the curve as a picture
      --title TEXT      what stands above it
      --length UNIT     unit of the positions, as mm
      --speed UNIT      unit of the values, as mm/s

Readings: one to a line, z,y,x,v0,v1,v2,weight; at most 1,024.
Edges:    one to a line, squared distances, rising; 2 to 257.
The columns' names may stand above. Columns are parted by commas, or by
semicolons; only with semicolons may numbers have a decimal comma. Every row is
kept, in the file's order; a row that is no reading is named by its line.

A file is written whole or not at all. What is refused gets one line on stderr,
with the rule's number where there is one, and status 1; a wrong command line
gets status 2.
";

fn main() -> ExitCode {
    let words = match arguments::words() {
        Ok(words) => words,
        Err(fault) => return fault.tell(),
    };
    if words.is_empty() || words.iter().any(|w| w == "--help" || w == "-h") {
        return say(HELP);
    }
    match command(&words) {
        Ok(done) => say(&format!("{done}\n")),
        Err(fault) => fault.tell(),
    }
}

/// Says something; whether anyone listens makes no difference to what was done.
fn say(text: &str) -> ExitCode {
    let _ = io::stdout().write_all(text.as_bytes());
    ExitCode::SUCCESS
}

/// Does what the words say, and tells what was done.
fn command(words: &[String]) -> Result<String, Fault> {
    let rest = &words[1..];
    match words[0].as_str() {
        "points" => points(&Arguments::read(rest, 1, &[], &[])?),
        "edges" => edges(&Arguments::read(rest, 1, &[], &[])?),
        "run" => run(&Arguments::read(rest, 2, &[], &[])?),
        "csv" => csv(&Arguments::read(rest, 2, &["--semicolon"], &[])?),
        "svg" => {
            let options = ["--title", "--length", "--speed"];
            svg(&Arguments::read(rest, 2, &[], &options)?)
        }
        other => Err(Fault::Usage(format!("no command is called '{other}'"))),
    }
}

fn points(given: &Arguments) -> Result<String, Fault> {
    let bytes = files::read_text(&given.files[0])?;
    let (records, told) = survey::points(&bytes).map_err(|f| f.in_file(&given.files[0]))?;
    files::write(&given.output, &given.files, &records)?;
    Ok(done(given, &told))
}

fn edges(given: &Arguments) -> Result<String, Fault> {
    let bytes = files::read_text(&given.files[0])?;
    let (records, told) = survey::edges(&bytes).map_err(|f| f.in_file(&given.files[0]))?;
    files::write(&given.output, &given.files, &records)?;
    Ok(done(given, &told))
}

fn run(given: &Arguments) -> Result<String, Fault> {
    let points = files::read_records(&given.files[0], MAX_POINTS * POINT_BYTES)?;
    let edges = files::read_records(&given.files[1], MAX_EDGES * EDGE_BYTES)?;
    let bins = (edges.len() / EDGE_BYTES).saturating_sub(1);
    let mut output = vec![0; bins * BIN_BYTES];
    curve_bytes(&points, &edges, &mut output)?;
    files::write(&given.output, &given.files, &output)?;
    let count = points.len() / POINT_BYTES;
    let [bins, readings] = [counted(bins, "bin"), counted(count, "reading")];
    let pairs = counted(count * (count - 1) / 2, "pair");
    Ok(done(given, &format!("{bins} from {readings}, {pairs}")))
}

fn csv(given: &Arguments) -> Result<String, Fault> {
    let curve = kept(&given.files[0], &given.files[1])?;
    let text = sheet::csv(&curve, given.has("--semicolon"));
    files::write(&given.output, &given.files, text.as_bytes())?;
    Ok(done(given, &counted(curve.bins.len(), "bin")))
}

fn svg(given: &Arguments) -> Result<String, Fault> {
    let curve = kept(&given.files[0], &given.files[1])?;
    let labels = picture::Labels {
        title: given.option("--title").unwrap_or("Two-point curve"),
        length: given.option("--length"),
        speed: given.option("--speed"),
    };
    let text = picture::draw(&curve, &labels);
    files::write(&given.output, &given.files, text.as_bytes())?;
    Ok(done(given, &counted(curve.bins.len(), "bin")))
}

/// The line that tells what was written.
fn done(given: &Arguments, what: &str) -> String {
    format!("{}: {what}", given.output.display())
}

/// A count with its noun.
pub fn counted(count: usize, noun: &str) -> String {
    let end = if count == 1 { "" } else { "s" };
    format!("{count} {noun}{end}")
}

/// The curve that stands in two record files.
fn kept(curve: &Path, edges: &Path) -> Result<Curve, Fault> {
    let numbers = files::read_records(curve, (MAX_EDGES - 1) * BIN_BYTES)?;
    let edges = files::read_records(edges, MAX_EDGES * EDGE_BYTES)?;
    Ok(Curve::of_records(&numbers, &edges)?)
}
