//! The technician's tool, run as a program.
use std::fs;
use std::path::{Path, PathBuf};
use std::process::Command;
use std::sync::atomic::{AtomicUsize, Ordering};

static FOLDERS: AtomicUsize = AtomicUsize::new(0);

/// A folder of its own for each test, removed at the end.
struct Bench(PathBuf);

impl Bench {
    fn new() -> Bench {
        let n = FOLDERS.fetch_add(1, Ordering::Relaxed);
        let name = format!("rumbeshyq-{}-{n}", std::process::id());
        let path = std::env::temp_dir().join(name);
        fs::create_dir_all(&path).unwrap();
        Bench(path)
    }

    fn file(&self, name: &str, bytes: impl AsRef<[u8]>) -> &Bench {
        fs::write(self.0.join(name), bytes).unwrap();
        self
    }

    fn bytes(&self, name: &str) -> Vec<u8> {
        fs::read(self.0.join(name)).unwrap()
    }

    fn text(&self, name: &str) -> String {
        String::from_utf8(self.bytes(name)).unwrap()
    }

    /// Exit status, stdout and stderr of a command line.
    fn run(&self, words: &[&str]) -> (i32, String, String) {
        let mut command = Command::new(env!("CARGO_BIN_EXE_rumbeshyq"));
        let out = command.args(words).current_dir(&self.0).output().unwrap();
        let text = |bytes: Vec<u8>| String::from_utf8(bytes).unwrap();
        (
            out.status.code().unwrap(),
            text(out.stdout),
            text(out.stderr),
        )
    }

    fn done(&self, words: &str) -> String {
        let words: Vec<&str> = words.split(' ').collect();
        let (status, out, err) = self.run(&words);
        assert_eq!((status, err.as_str()), (0, ""), "{words:?}");
        out
    }

    /// The one line of a refusal; nothing was written.
    fn refused(&self, words: &str) -> String {
        let before = self.names();
        let words: Vec<&str> = words.split(' ').collect();
        let (status, out, err) = self.run(&words);
        assert_eq!((status, out.as_str()), (1, ""), "{words:?}: {err}");
        assert_eq!(self.names(), before);
        assert_eq!(err.matches('\n').count(), 1, "{err}");
        err.trim_end().to_string()
    }

    fn names(&self) -> Vec<PathBuf> {
        let entries = fs::read_dir(&self.0).unwrap();
        let mut names: Vec<PathBuf> = entries.map(|e| e.unwrap().path()).collect();
        names.sort();
        names
    }

    /// What `points` says of a sheet that it refuses.
    fn bad(&self, sheet: impl AsRef<[u8]>) -> String {
        let line = self.file("s.csv", sheet).refused("points s.csv -o p.rec");
        let start = "rumbeshyq: refused";
        line.strip_prefix(start).unwrap().trim_start().to_string()
    }

    /// The records that `points` makes of a sheet, as numbers.
    fn good(&self, sheet: impl AsRef<[u8]>) -> Vec<f64> {
        self.file("s.csv", sheet).done("points s.csv -o p.rec");
        let bytes = self.bytes("p.rec");
        let numbers = bytes.chunks_exact(8);
        numbers
            .map(|b| f64::from_le_bytes(b.try_into().unwrap()))
            .collect()
    }
}

impl Drop for Bench {
    fn drop(&mut self) {
        // a folder that stays behind harms no test
        let _ = fs::remove_dir_all(&self.0);
    }
}

const HEADER: &str = "z,y,x,v0,v1,v2,weight\n";

fn sample(name: &str) -> Vec<u8> {
    let folder = Path::new(env!("CARGO_MANIFEST_DIR")).join("../sample");
    fs::read(folder.join(name)).unwrap()
}

#[test]
fn from_the_sheet_to_the_picture() {
    let b = Bench::new();
    b.file("s.csv", sample("survey.csv"));
    b.file("e.csv", sample("edges.csv"));
    assert_eq!(b.done("points s.csv -o p.rec"), "p.rec: 384 readings\n");
    assert_eq!(b.done("edges e.csv -o e.rec"), "e.rec: 24 bins\n");
    assert!(b.bytes("p.rec") == sample("points.rec"));
    assert!(b.bytes("e.rec") == sample("edges.rec"));
    let told = b.done("run p.rec e.rec -o c.rec");
    assert_eq!(told, "c.rec: 24 bins from 384 readings, 73536 pairs\n");
    assert_eq!(b.bytes("c.rec").len(), 24 * 16);
    b.done("csv c.rec e.rec -o c.csv");
    let sheet = b.text("c.csv");
    assert_eq!(sheet.lines().count(), 25);
    assert!(sheet.contains("\n0,0,20,10,,0,0,0,400,no weight\n"));
    b.done("csv c.rec e.rec -o c.csv --semicolon");
    assert!(b.text("c.csv").contains("\n2;40;65;52,5;"));
    let title = "Rig basin with a 50 mm inlet, sample survey";
    let words = ["svg", "c.rec", "e.rec", "-o", "c.svg", "--title", title];
    let units = ["--length", "mm", "--speed", "mm/s"];
    assert_eq!(b.run(&[&words[..], &units[..]].concat()).0, 0);
    assert!(b.bytes("c.svg") == sample("curve.svg"));
}

#[test]
fn rows_stay_as_they_are() {
    let b = Bench::new();
    let rows = "3,2,1,-4,5e1,.5,1\n3,2,1,-4,5e1,.5,1\n-1,+2,0,0,-0,7,0\n";
    let wanted = [
        [3.0, 2.0, 1.0, -4.0, 50.0, 0.5, 1.0],
        [3.0, 2.0, 1.0, -4.0, 50.0, 0.5, 1.0],
        [-1.0, 2.0, 0.0, 0.0, -0.0, 7.0, 0.0],
    ]
    .concat();
    let bits = |list: Vec<f64>| list.into_iter().map(f64::to_bits).collect::<Vec<_>>();
    let wanted = bits(wanted);
    assert_eq!(bits(b.good(rows)), wanted);
    assert_eq!(bits(b.good(format!("{HEADER}{rows}"))), wanted);
    let bom = format!("\u{feff}{HEADER}{rows}").replace('\n', "\r\n");
    assert_eq!(bits(b.good(bom)), wanted);
    let header = "Z [mm] ; Y (mm);x;V0;v1;v2;Weight\n";
    let semicolons = rows.replace(',', ";").replace('.', ",");
    assert_eq!(bits(b.good(format!("{header}{semicolons}"))), wanted);
    assert_eq!(bits(b.good(rows.replace(',', " , ").trim_end())), wanted);
    let quoted = "\"3\",\"2\",1,-4,5e1,\".5\",1\n".to_string();
    assert_eq!(bits(b.good(quoted)), wanted[..7]);
}

#[test]
fn a_number_is_the_nearest() {
    let b = Bench::new();
    // half way between two f64: the even one
    let row = "9007199254740993,9007199254740995,0.1,1e-400,2.5e-324,-1e308,0.30000000000000004\n";
    let got = b.good(row);
    let wanted = [9007199254740992.0, 9007199254740996.0, 0.1, 0.0, 5e-324];
    assert_eq!(got[..5], wanted);
    assert_eq!(got[5..], [-1e308, 0.1 + 0.2]);
}

#[test]
fn numbers_that_are_words() {
    let b = Bench::new();
    b.file("s.csv", "nan,inf,-inf,NaN,+Inf,1,1\n1,1,1,1,1,1,1\n");
    let told = b.done("points s.csv -o p.rec");
    assert_eq!(told, "p.rec: 2 readings, 1 of them with NaN or inf\n");
    let nan = 0x7ff8_0000_0000_0000_u64.to_le_bytes();
    assert_eq!(b.bytes("p.rec")[..8], nan);
}

/// Rows that are no readings, and what is said of them.
const ROWS: [(&str, &str); 9] = [
    ("1,2,3,4,5,6", "6 columns, not 7"),
    ("1,2,3,4,5,6,7,8", "8 columns, not 7"),
    ("", "an empty row"),
    (",,,,,,", "column 1 (z): nothing stands there"),
    (
        "1,2,3,4,5,6,7 kg",
        "column 7 (weight): '7 kg' is not a number",
    ),
    ("1,2,3,\"4\"5,5,6,7", "a stray quote in \"4\"5"),
    ("1,2,3,\"4,5,6,7", "a stray quote in \"4,5,6,7"),
    ("z,y,x,v0,v1,v2,weight", "column 1 (z): 'z' is not a number"),
    ("total,,,,,,", "column 1 (z): 'total' is not a number"),
];

/// Cells that are no numbers.
const CELLS: [&str; 11] = [
    "#N/A", "#DIV/0!", "infinity", "-", "0x10", "1_0", "1.2.3", "1e", "1 000", "12:30", "true",
];

/// Sheets with a row like this in line 4.
fn sheet(bad: &str) -> String {
    let row = "1,2,3,4,5,6,7\n";
    format!("{HEADER}{row}{row}{bad}\n{row}")
}

#[test]
fn a_row_that_is_no_reading_is_named() {
    let b = Bench::new();
    for (bad, said) in ROWS {
        assert_eq!(b.bad(sheet(bad)), format!(": s.csv: line 4: {said}"));
    }
    let at = ": s.csv: line 4: column 4 (v0):";
    for cell in CELLS {
        let said = b.bad(sheet(&format!("1,2,3,{cell},5,6,7")));
        assert_eq!(said, format!("{at} '{cell}' is not a number"));
    }
    let large = b.bad(sheet("1,2,3,1e999,5,6,7"));
    assert_eq!(large, format!("{at} '1e999' is too large for an f64"));
    let comma = b.bad(sheet("1,2,3,\"4,5\",5,6,7"));
    let why = "a decimal comma needs semicolons between the columns";
    assert_eq!(comma, format!("{at} '4,5': {why}"));
}

#[test]
fn more_bad_rows_are_counted() {
    let b = Bench::new();
    let said = ": s.csv: line 4: 1 column, not 7 (1 more row is not a reading)";
    assert_eq!(b.bad(sheet("x") + "y\n"), said);
    let said = ": s.csv: line 4: 1 column, not 7 (3 more rows are not readings)";
    assert_eq!(b.bad(sheet("x") + "y\n\n,\n"), said);
}

#[test]
fn a_first_line_that_is_nothing() {
    let b = Bench::new();
    let said = b.bad(b"1,2,3,4,5,6,\xff\n");
    assert_eq!(said, ": s.csv: line 1: not UTF-8 text");
    let said = ": s.csv: line 1: neither a reading nor the header z,y,x,v0,v1,v2,weight";
    for first in [
        "x,y,z,v0,v1,v2,weight",
        "place,speed",
        "z\ty\tx\tv0\tv1\tv2\tw",
    ] {
        assert_eq!(b.bad(format!("{first}\n1,2,3,4,5,6,7\n")), said);
    }
}

#[test]
fn one_file_has_one_decimal_mark() {
    let b = Bench::new();
    let mixed = "1,5;2;3;4;5;6;7\n1;2;3;4;5;6;7\n1;2;1.234;4;5;6;7\n1;2;3;4;5;6;7\n";
    let said = ": s.csv: line 3: column 3 (x): '1.234': line 1 has a decimal comma";
    assert_eq!(b.bad(mixed), said);
    let both = "1.234,5;2;3;4;5;6;7\n";
    let said = ": s.csv: line 1: column 1 (z): '1.234,5' is not a number";
    assert_eq!(b.bad(both), said);
}

#[test]
fn too_many_or_none() {
    let b = Bench::new();
    let row = "1,2,3,4,5,6,7\n";
    assert_eq!(b.good(HEADER.to_string() + &row.repeat(1024)).len(), 7168);
    let many = b.bad(HEADER.to_string() + &row.repeat(1025) + "no reading\n");
    assert_eq!(many, "7: s.csv: 1026 readings, more than 1024");
    assert_eq!(b.bad(HEADER), "1: s.csv: there are no points");
    assert_eq!(b.bad(""), "1: s.csv: there are no points");
}

#[test]
fn edges_are_judged_with_their_line() {
    let b = Bench::new();
    let says = [
        ("", "12: s.csv: there are fewer than two edges"),
        ("edge\n4\n", "12: s.csv: there are fewer than two edges"),
        ("0\ninf\n", "10: s.csv: line 2: inf is not finite"),
        (
            "edge [mm²]\n0\n25\n25\n26\n",
            "13: s.csv: line 4: 25 is not above 25",
        ),
        ("0\n1\n-2\nnan\n", "10: s.csv: line 4: NaN is not finite"),
    ];
    for (sheet, said) in says {
        let line = b.file("s.csv", sheet).refused("edges s.csv -o e.rec");
        assert_eq!(line, format!("rumbeshyq: refused {said}"));
    }
    let many: String = (0..258).map(|i| format!("{i}\n")).collect();
    let line = b.file("s.csv", many).refused("edges s.csv -o e.rec");
    assert_eq!(
        line,
        "rumbeshyq: refused 7: s.csv: 258 edges, more than 257"
    );
    let most: String = (0..257).map(|i| format!("{i}\n")).collect();
    b.file("s.csv", most).done("edges s.csv -o e.rec");
    assert_eq!(b.bytes("e.rec").len(), 2056);
}

#[test]
fn what_run_refuses() {
    let b = Bench::new();
    let number = |words: &str| {
        let line = b.refused(words);
        let rest = line.strip_prefix("rumbeshyq: refused ").unwrap();
        rest.split(':').next().unwrap().parse::<u32>().unwrap()
    };
    b.file("p.rec", sample("points.rec"));
    b.file("e.rec", sample("edges.rec"));
    b.file("cut.rec", &sample("points.rec")[..100]);
    b.file("none.rec", "");
    b.file("long.rec", vec![0; 100_000]);
    b.file("flat.rec", [0; 16]);
    b.file("odd.rec", f64::NAN.to_le_bytes().repeat(2));
    assert_eq!(number("run absent.rec e.rec -o c.rec"), 28);
    assert_eq!(number("run p.rec absent.rec -o c.rec"), 28);
    assert_eq!(number("run . e.rec -o c.rec"), 28);
    assert_eq!(number("run long.rec e.rec -o c.rec"), 7);
    assert_eq!(number("run p.rec long.rec -o c.rec"), 7);
    assert_eq!(number("run cut.rec none.rec -o c.rec"), 27);
    assert_eq!(number("run none.rec e.rec -o c.rec"), 1);
    assert_eq!(number("run p.rec none.rec -o c.rec"), 12);
    assert_eq!(number("run p.rec odd.rec -o c.rec"), 10);
    assert_eq!(number("run p.rec flat.rec -o c.rec"), 13);
    assert_eq!(number("svg flat.rec e.rec -o c.svg"), 24);
    assert_eq!(number("csv flat.rec cut.rec -o c.csv"), 27);
    assert_eq!(number("csv long.rec e.rec -o c.csv"), 24);
}

#[test]
fn a_refusal_keeps_the_old_output() {
    let b = Bench::new();
    b.file("p.rec", "as it was").file("s.csv", "1,2\n");
    b.refused("points s.csv -o p.rec");
    assert_eq!(b.text("p.rec"), "as it was");
    let line = b.refused("points s.csv -o absent/p.rec");
    assert!(line.contains("2 columns"), "{line}");
    b.file("s.csv", "1,2,3,4,5,6,7\n");
    let line = b.refused("points s.csv -o absent/p.rec");
    assert!(line.contains("absent/p.rec: can't be written"), "{line}");
    let line = b.refused("points s.csv -o s.csv");
    assert!(line.contains("is an input of this command"), "{line}");
    let line = b.refused("points s.csv -o .");
    assert!(line.contains("is not a plain file"), "{line}");
    b.done("points s.csv -o p.rec");
    assert_eq!(b.bytes("p.rec").len(), 56);
    assert_eq!(b.names().len(), 2);
}

#[test]
fn the_command_line() {
    let b = Bench::new();
    let (status, help, _) = b.run(&["--help"]);
    assert_eq!(status, 0);
    assert!(help.lines().count() <= 24);
    assert!(help.lines().all(|line| line.chars().count() <= 80));
    for words in ["points", "points a", "run a -o b", "sum a -o b", "svg a b"] {
        let words: Vec<&str> = words.split(' ').collect();
        assert_eq!(b.run(&words).0, 2, "{words:?}");
    }
    assert_eq!(b.run(&["points", "a", "-o", "b", "-o", "c"]).0, 2);
    assert_eq!(b.run(&["points", "a", "-o"]).0, 2);
    assert_eq!(b.run(&["points", "a", "--semicolon", "-o", "b"]).0, 2);
}

/// Curve and edge records of a few bins.
fn few(b: &Bench, bins: &[[f64; 2]]) {
    let bytes = |list: &[f64]| {
        list.iter()
            .flat_map(|x| x.to_le_bytes())
            .collect::<Vec<u8>>()
    };
    b.file("c.rec", bytes(&bins.concat()));
    let edges: Vec<f64> = (0..=bins.len()).map(|i| (i * i) as f64).collect();
    b.file("e.rec", bytes(&edges));
}

#[test]
fn the_line_leaves_out_what_has_no_mean() {
    let b = Bench::new();
    let nan = f64::NAN;
    let bins = [
        [4.0, 2.0],
        [6.0, 2.0],
        [0.0, 0.0],
        [5.0, 1.0],
        [nan, 1.0],
        [9.0, 3.0],
        [8.0, 2.0],
    ];
    few(&b, &bins);
    b.done("svg c.rec e.rec -o c.svg");
    let picture = b.text("c.svg");
    // two pieces of two bins each; five means, seven weights less the one that is zero
    assert_eq!(picture.matches("<polyline").count(), 2);
    assert_eq!(picture.matches("<circle cx").count(), 1 + 5);
    assert_eq!(picture.matches("mean NaN or infinite, weight 1").count(), 3);
    assert_eq!(picture.matches("no weight, no mean, weight 0").count(), 2);
    b.done("csv c.rec e.rec -o c.csv");
    let sheet = b.text("c.csv");
    assert!(sheet.contains("\n0,0,1,0.5,2,2,4,0,1,\n"));
    assert!(sheet.contains("\n2,2,3,2.5,,0,0,4,9,no weight\n"));
    assert!(sheet.contains("\n4,4,5,4.5,,1,NaN,16,25,NaN or infinite\n"));
}

#[test]
fn a_picture_of_any_numbers_is_sound() {
    let b = Bench::new();
    let inf = f64::INFINITY;
    let cases: [&[[f64; 2]]; 6] = [
        &[[0.0, 0.0]],
        &[[1.7e308, 1.0], [-1.7e308, 1.0], [5e-324, 1e300]],
        &[[5e-324, 1.0], [-5e-324, 1e-320]],
        &[[3.0, -2.0], [3.0, inf], [inf, 3.0], [1.0, 0.0]],
        &[[5.0, 1.0], [5.0, 1.0]],
        &[[-7.0, 1.0], [-8.0, 1.0]],
    ];
    for bins in cases {
        few(&b, bins);
        b.done("svg c.rec e.rec -o c.svg --title <&\">");
        let picture = b.text("c.svg");
        assert!(picture.contains("<title>&lt;&amp;&quot;&gt;</title>"));
        let numbers = ["x", "y", "x1", "y1", "cx", "cy", "width", "height"];
        for name in numbers {
            for bad in ["NaN", "inf", "-inf"] {
                assert!(!picture.contains(&format!(" {name}=\"{bad}\"")));
            }
        }
        let mut lines = picture.lines().filter(|line| line.contains("<polyline"));
        assert!(lines.all(|line| !line.contains("NaN") && !line.contains("inf")));
    }
}
