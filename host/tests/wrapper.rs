//! The safe wrapper around the entry.
use rumbeshyq::{
    Bin, Curve, Point, Refusal, curve, curve_bytes, edge_records, edges_of, point_records,
    points_of,
};

fn point(position: [f64; 3], value: [f64; 3], weight: f64) -> Point {
    Point {
        position,
        value,
        weight,
    }
}

fn two() -> Vec<Point> {
    vec![
        point([0.0, 0.0, 0.0], [1.0, 2.0, 3.0], 1.0),
        point([3.0, 4.0, 0.0], [1.0, 1.0, 1.0], 2.0),
    ]
}

/// The refusal's number, after a look that the output was left alone.
fn number(points: &[u8], edges: &[u8], output: usize) -> u32 {
    let mut bytes = vec![0xa5; output];
    let answer = curve_bytes(points, edges, &mut bytes);
    let refusal = answer.expect_err("accepted");
    assert_eq!(bytes, vec![0xa5; output]);
    refusal.number
}

#[test]
fn k10() {
    let curve = curve(&two(), &[0.0, 25.0, 26.0]).unwrap();
    let bin = |total, weight| Bin { total, weight };
    assert_eq!(curve.bins, [bin(0.0, 0.0), bin(12.0, 2.0)]);
    assert!(curve.bins[0].mean().is_nan());
    assert_eq!(curve.bins[1].mean(), 6.0);
    let lines: Vec<String> = curve
        .records()
        .chunks(8)
        .map(|b| format!("{:016x}", u64::from_le_bytes(b.try_into().unwrap())))
        .collect();
    let zero = "0000000000000000";
    assert_eq!(lines, [zero, zero, "4028000000000000", "4000000000000000"]);
}

#[test]
fn one_point_is_a_survey() {
    let curve = curve(&two()[..1], &[0.0, 1.0]).unwrap();
    assert_eq!(curve.records(), [0; 16]);
}

#[test]
fn the_output_is_replaced() {
    let mut output = [0xff; 32];
    let edges = edge_records(&[0.0, 25.0, 26.0]);
    curve_bytes(&point_records(&two()), &edges, &mut output).unwrap();
    let made = curve(&two(), &[0.0, 25.0, 26.0]).unwrap();
    assert_eq!(output[..], made.records()[..]);
}

#[test]
fn every_nan_is_written_alike() {
    let odd = f64::from_bits(0xfff0_0000_0000_0001);
    let mut points = two();
    points[0].value[1] = odd;
    points[1].weight = odd;
    let mut output = [0; 16];
    let records: Vec<u8> = points
        .iter()
        .flat_map(|p| [p.position, p.value].concat().into_iter().chain([p.weight]))
        .flat_map(|x| x.to_bits().to_le_bytes())
        .collect();
    curve_bytes(&records, &edge_records(&[0.0, 26.0]), &mut output).unwrap();
    let nan = 0x7ff8_0000_0000_0000_u64.to_le_bytes();
    assert_eq!(output[..], [nan, nan].concat()[..]);
    assert_eq!(edge_records(&[odd])[..], nan);
}

#[test]
fn each_refusal_and_its_order() {
    let points = point_records(&two());
    let edges = edge_records(&[0.0, 25.0, 26.0]);
    let edge = |list: &[f64]| edge_records(list);
    let inf = f64::INFINITY;
    let cases = [
        (7, vec![0; 57_345], vec![0; 5], 1),
        (7, vec![0; 3], vec![0; 2_057], 1),
        (27, points[..111].to_vec(), vec![], 1),
        (27, vec![], edges[..23].to_vec(), 1),
        (1, vec![], vec![], 1),
        (12, points.clone(), vec![], 1),
        (12, points.clone(), edge(&[f64::NAN]), 0),
        (10, points.clone(), edge(&[2.0, 1.0, inf]), 1),
        (10, points.clone(), edge(&[f64::NAN, 1.0]), 16),
        (13, points.clone(), edge(&[1.0, 1.0]), 1),
        (13, points.clone(), edge(&[-0.0, 0.0]), 16),
        (24, points.clone(), edges.clone(), 31),
        (24, points.clone(), edges.clone(), 33),
        (24, points.clone(), edges.clone(), 0),
    ];
    for (i, (wanted, points, edges, output)) in cases.into_iter().enumerate() {
        assert_eq!(number(&points, &edges, output), wanted, "case {i}");
    }
}

#[test]
fn the_limits_themselves_are_accepted() {
    let points = vec![two()[0]; 1024];
    let edges: Vec<f64> = (0..257).map(f64::from).collect();
    let made = curve(&points, &edges).unwrap();
    assert_eq!(made.bins.len(), 256);
    assert_eq!(made.bins[0].weight, 523_776.0);
    let more = vec![two()[0]; 1025];
    assert_eq!(curve(&more, &edges), Err(Refusal::of(7)));
    let more: Vec<f64> = (0..258).map(f64::from).collect();
    assert_eq!(curve(&points, &more), Err(Refusal::of(7)));
}

#[test]
fn a_refusal_is_one_clear_line() {
    for number in [1, 7, 10, 12, 13, 24, 27] {
        let line = Refusal::of(number).to_string();
        assert!(line.starts_with(&format!("refused {number}: ")));
        assert!(!line.contains('\n') && !line.contains("does not know"));
    }
}

#[test]
fn records_read_back() {
    let bytes = point_records(&two());
    assert_eq!(points_of(&bytes).unwrap(), two());
    assert_eq!(points_of(&bytes[1..]), Err(Refusal::of(27)));
    assert_eq!(points_of(&[0; 57_400]), Err(Refusal::of(7)));
    assert_eq!(edges_of(&[0; 2_064]), Err(Refusal::of(7)));
    let made = curve(&two(), &[0.0, 25.0, 26.0]).unwrap();
    let edges = edge_records(&made.edges);
    let kept = made.records();
    assert_eq!(Curve::of_records(&kept, &edges), Ok(made));
    assert_eq!(Curve::of_records(&kept[..31], &edges), Err(Refusal::of(24)));
    assert_eq!(Curve::of_records(&kept, &edges[..8]), Err(Refusal::of(12)));
    assert_eq!(Curve::of_records(&kept, &edges[..9]), Err(Refusal::of(27)));
}
