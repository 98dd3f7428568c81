//! A spreadsheet's CSV export to rows of numbers: every row, in the file's order, or a fault.
use crate::counted;
use crate::fault::Fault;

/// One row and the line that it stands on, counted from 1.
pub struct Row {
    pub line: usize,
    pub numbers: Vec<f64>,
}

/// What a sheet must hold.
pub struct Shape<'a> {
    /// The columns' names.
    pub columns: &'a [&'a str],
    /// What a row is called, one and many.
    pub called: [&'a str; 2],
    /// Rows at most; more are met by 7.
    pub most: usize,
}

/// The separator, and the decimal mark with the line that has it first.
struct Marks {
    separator: char,
    decimal: Option<(char, usize)>,
}

/// All rows of a sheet.
pub fn rows(bytes: &[u8], shape: &Shape) -> Result<Vec<Row>, Fault> {
    let bytes = bytes.strip_prefix(b"\xef\xbb\xbf").unwrap_or(bytes);
    let lines = lines(bytes)?;
    let first = lines.first().copied().unwrap_or("");
    let mut marks = Marks {
        separator: if first.contains(';') { ';' } else { ',' },
        decimal: None,
    };
    let header = header(first, &marks, shape)?;
    let count = lines.len() - usize::from(header);
    if count > shape.most {
        let [_, many] = shape.called;
        let text = format!("{count} {many}, more than {}", shape.most);
        return Err(Fault::Rule(7, text));
    }
    let numbered = lines.iter().enumerate().skip(usize::from(header));
    let read = numbered.map(|(i, line)| row(line, i + 1, &mut marks, shape));
    gather(read.collect(), shape)
}

/// The lines without their ends. The last line's end is no line of its own.
fn lines(bytes: &[u8]) -> Result<Vec<&str>, Fault> {
    if bytes.is_empty() {
        return Ok(Vec::new());
    }
    let bytes = bytes.strip_suffix(b"\n").unwrap_or(bytes);
    let lines = bytes.split(|&b| b == b'\n').enumerate();
    lines
        .map(|(i, line)| {
            let line = line.strip_suffix(b"\r").unwrap_or(line);
            std::str::from_utf8(line)
                .map_err(|_| Fault::File(format!("line {}: not UTF-8 text", i + 1)))
        })
        .collect()
}

/// Whether the first line is a header: no field of it is a number, and it names the columns.
fn header(line: &str, marks: &Marks, shape: &Shape) -> Result<bool, Fault> {
    let Ok(fields) = fields(line, marks.separator) else {
        return Ok(false);
    };
    let empty = fields.iter().all(|f| f.is_empty());
    if empty || fields.iter().any(|f| starts_number(f)) {
        return Ok(false);
    }
    if fields.len() == shape.columns.len() && names(&fields, shape.columns) {
        return Ok(true);
    }
    let wanted = shape.columns.join(",");
    let text = format!(
        "line 1: neither {} nor the header {wanted}",
        shape.called[0]
    );
    Err(Fault::File(text))
}

/// The fields are the columns' names, a unit after each or not, as `z [mm]` or `z (mm)`.
fn names(fields: &[String], columns: &[&str]) -> bool {
    let bare = |field: &str| {
        let end = field.find(['[', '(']).unwrap_or(field.len());
        field[..end].trim().to_lowercase()
    };
    fields.iter().zip(columns).all(|(f, c)| bare(f) == *c)
}

fn starts_number(field: &str) -> bool {
    let bare = field.trim_start_matches(['+', '-', '.', ',']);
    bare.starts_with(|c: char| c.is_ascii_digit()) || spelled(field).is_some()
}

/// The rows if all are good; else the first bad one is named, and how many follow it.
fn gather(read: Vec<Result<Row, String>>, shape: &Shape) -> Result<Vec<Row>, Fault> {
    let bad = read.iter().filter(|row| row.is_err()).count();
    let rows: Result<Vec<Row>, String> = read.into_iter().collect();
    rows.map_err(|text| {
        let [one, many] = shape.called;
        Fault::File(match bad {
            1 => text,
            2 => format!("{text} (1 more row is not {one})"),
            more => format!("{text} ({} more rows are not {many})", more - 1),
        })
    })
}

fn row(line: &str, at: usize, marks: &mut Marks, shape: &Shape) -> Result<Row, String> {
    if line.trim().is_empty() {
        return Err(format!("line {at}: an empty row"));
    }
    let fields = fields(line, marks.separator).map_err(|text| format!("line {at}: {text}"))?;
    if fields.len() != shape.columns.len() {
        let wanted = shape.columns.len();
        let found = counted(fields.len(), "column");
        return Err(format!("line {at}: {found}, not {wanted}"));
    }
    let mut numbers = Vec::new();
    for (k, field) in fields.iter().enumerate() {
        let number = number(field, at, marks).map_err(|text| {
            let name = shape.columns[k];
            format!("line {at}: column {} ({name}): {text}", k + 1)
        })?;
        numbers.push(number);
    }
    Ok(Row { line: at, numbers })
}

/// The fields of a line, without outer spaces; one in double quotes may hold the separator.
fn fields(line: &str, separator: char) -> Result<Vec<String>, String> {
    let mut fields = vec![String::new()];
    let mut quoted = false;
    for c in line.chars() {
        quoted ^= c == '"';
        if c == separator && !quoted {
            fields.push(String::new());
        } else if let Some(field) = fields.last_mut() {
            field.push(c);
        }
    }
    fields.iter().map(|field| unquoted(field)).collect()
}

/// A field without the quotes around it; quotes may stand nowhere else.
fn unquoted(field: &str) -> Result<String, String> {
    let field = field.trim();
    let inner = field.strip_prefix('"').and_then(|f| f.strip_suffix('"'));
    let inner = inner.unwrap_or(field);
    if inner.contains('"') {
        return Err(format!("a stray quote in {field}"));
    }
    Ok(inner.trim().to_string())
}

/// A number; the nearest f64, of two equally near ones the even one.
fn number(field: &str, at: usize, marks: &mut Marks) -> Result<f64, String> {
    if field.is_empty() {
        return Err("nothing stands there".to_string());
    }
    if let Some(x) = spelled(field) {
        return Ok(x);
    }
    let text = decimal(field, at, marks)?;
    match text.parse::<f64>() {
        _ if !text.contains(|c: char| c.is_ascii_digit()) => {
            Err(format!("'{field}' is not a number"))
        }
        Ok(x) if x.is_infinite() => Err(format!("'{field}' is too large for an f64")),
        Ok(x) => Ok(x),
        Err(_) => Err(format!("'{field}' is not a number")),
    }
}

/// The numbers that are words.
fn spelled(field: &str) -> Option<f64> {
    match field.to_lowercase().as_str() {
        "nan" => Some(f64::NAN),
        "inf" | "+inf" => Some(f64::INFINITY),
        "-inf" => Some(f64::NEG_INFINITY),
        _ => None,
    }
}

/// The field with a decimal point. One file has one decimal mark.
fn decimal(field: &str, at: usize, marks: &mut Marks) -> Result<String, String> {
    let plain = |c: char| c.is_ascii_digit() || "+-.,eE".contains(c);
    let Some(mark) = field.chars().find(|c| ".,".contains(*c)) else {
        return Ok(field.to_string());
    };
    if !field.chars().all(plain) || field.matches(['.', ',']).count() > 1 {
        return Err(format!("'{field}' is not a number"));
    }
    if mark == ',' && marks.separator == ',' {
        let text = "a decimal comma needs semicolons between the columns";
        return Err(format!("'{field}': {text}"));
    }
    let (used, line) = *marks.decimal.get_or_insert((mark, at));
    if mark != used {
        let name = if used == ',' { "comma" } else { "point" };
        return Err(format!("'{field}': line {line} has a decimal {name}"));
    }
    Ok(field.replace(',', "."))
}
