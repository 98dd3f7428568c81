//! A sheet of readings, or of edges, to records.
use crate::counted;
use crate::fault::Fault;
use crate::table::{self, Row, Shape};
use rumbeshyq::{MAX_EDGES, MAX_POINTS, Point, Refusal, edge_records, point_records};

const POINTS: Shape = Shape {
    columns: &["z", "y", "x", "v0", "v1", "v2", "weight"],
    called: ["a reading", "readings"],
    most: MAX_POINTS,
};

const EDGES: Shape = Shape {
    columns: &["edge"],
    called: ["an edge", "edges"],
    most: MAX_EDGES,
};

/// Point records, and how many there are.
pub fn points(sheet: &[u8]) -> Result<(Vec<u8>, String), Fault> {
    let rows = table::rows(sheet, &POINTS)?;
    if rows.is_empty() {
        return Err(Fault::from(Refusal::of(1)));
    }
    let points: Vec<Point> = rows.iter().map(point).collect();
    let odd = |row: &&Row| row.numbers.iter().any(|x| !x.is_finite());
    let mut told = counted(rows.len(), "reading");
    match rows.iter().filter(odd).count() {
        0 => (),
        odd => told += &format!(", {odd} of them with NaN or inf"),
    }
    Ok((point_records(&points), told))
}

fn point(row: &Row) -> Point {
    let n = &row.numbers;
    Point {
        position: [n[0], n[1], n[2]],
        value: [n[3], n[4], n[5]],
        weight: n[6],
    }
}

/// Edge records, and how many bins they make.
pub fn edges(sheet: &[u8]) -> Result<(Vec<u8>, String), Fault> {
    let rows = table::rows(sheet, &EDGES)?;
    if rows.len() < 2 {
        return Err(Fault::from(Refusal::of(12)));
    }
    let edge = |row: &Row| row.numbers[0];
    if let Some(row) = rows.iter().find(|row| !edge(row).is_finite()) {
        let text = format!("line {}: {} is not finite", row.line, edge(row));
        return Err(Fault::Rule(10, text));
    }
    for pair in rows.windows(2) {
        let (before, after) = (edge(&pair[0]), edge(&pair[1]));
        if after <= before {
            let text = format!("line {}: {after} is not above {before}", pair[1].line);
            return Err(Fault::Rule(13, text));
        }
    }
    let edges: Vec<f64> = rows.iter().map(edge).collect();
    Ok((edge_records(&edges), counted(edges.len() - 1, "bin")))
}
