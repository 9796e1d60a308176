//! The host's graph: the one place where doubles are allowed.

/// "16: a figure for the graph above 2^53 in size; no doubles are given".
const GREATEST: u64 = 1 << 53;

/// Microseconds.
#[derive(Clone, Copy, Debug, PartialEq)]
pub struct Graph {
    pub first_packet_time: f64,
    pub margin: f64,
    pub latency: f64,
}

/// "The host's graph takes doubles: FPT, margin and VL as microseconds, each
/// the grains as a double (nothing lost) divided once by 27000."
pub fn graph(first_packet_time: i64, margin: i64, latency: i64) -> Result<Graph, u8> {
    let figures = [first_packet_time, margin, latency];
    if figures
        .iter()
        .any(|grains| grains.unsigned_abs() > GREATEST)
    {
        return Err(16);
    }
    Ok(Graph {
        first_packet_time: microseconds(first_packet_time),
        margin: microseconds(margin),
        latency: microseconds(latency),
    })
}

fn microseconds(grains: i64) -> f64 {
    let exact = grains as f64;
    // "nothing lost": up to 2^53 in size every whole number is a double.
    assert_eq!(exact as i64, grains);
    exact / 27_000.0
}
