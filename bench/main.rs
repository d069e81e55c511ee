// Times the proved code, through the static libraries of crates bench and host, against the same work in plain Rust, in one run;
// period energy by the containment curve's table against that by steps; and, with the configuration `before`, period energy
// against that of an earlier revision.
use std::cell::Cell;
use std::hint::black_box;
use std::time::Instant;

extern "C" {
    fn bench_period(
        dc: u32,
        dm: u32,
        dr: u32,
        dc_curve: u32,
        dm_curve: u32,
        dr_curve: u32,
        readings: *const u16,
        count: usize,
    ) -> u64;
    fn bench_period_by_table(
        dc: u32,
        dm: u32,
        dr: u32,
        dc_curve: u32,
        dm_curve: u32,
        dr_curve: u32,
        readings: *const u16,
        count: usize,
    ) -> u64;
    fn bench_response_by_table(mw: u32, deviation: u16) -> u64;
    fn bench_response_from(table: &[u32; 501], mw: u32, deviation: u16) -> u64;
    fn bench_closings(
        mw: u32,
        size: u32,
        first: u32,
        closings: u32,
        purchase: i64,
        readings: *const u16,
        count: usize,
        delivered: i64,
        taken: i64,
        trader: u32,
    ) -> u64;
    fn soe_report(input: *const u8, input_length: usize, output: *mut u8, output_length: usize) -> i64;
    fn soe_terms(
        low_dc: u32,
        low_dm: u32,
        low_dr: u32,
        high_dc: u32,
        high_dm: u32,
        high_dr: u32,
        export_limit: i64,
        import_limit: i64,
    ) -> i64;
    fn soe_quantity(
        direction: u32,
        available: u32,
        offer: u32,
        bid: u32,
        mil: i64,
        sil: i64,
        sel: i64,
        mel: i64,
        ol: i64,
        points: *const u8,
        points_length: usize,
        limit: u32,
    ) -> i64;
    fn soe_instruction(
        machine: *mut u8,
        machine_length: usize,
        event: u32,
        time: u64,
        at: u64,
        limit: u32,
        available: u32,
        armed: u32,
        energy: u32,
    ) -> i64;
    fn soe_payment(
        price: u32,
        adjustment: u32,
        k: u32,
        f: u32,
        pieces: *const u8,
        pieces_length: usize,
        amount: *mut i64,
    ) -> i64;
    fn soe_test_day(seed: u32, buffer: *mut u16, count: usize) -> i64;
}

fn proved_period(q: [u32; 3], curves: [u32; 3], readings: &[u16]) -> u64 {
    unsafe { bench_period(q[0], q[1], q[2], curves[0], curves[1], curves[2], readings.as_ptr(), readings.len()) }
}

fn proved_period_by_table(q: [u32; 3], curves: [u32; 3], readings: &[u16]) -> u64 {
    let [dc, dm, dr] = curves;
    unsafe { bench_period_by_table(q[0], q[1], q[2], dc, dm, dr, readings.as_ptr(), readings.len()) }
}

#[cfg(before)]
extern "C" {
    fn before_period(
        dc: u32,
        dm: u32,
        dr: u32,
        dc_curve: u32,
        dm_curve: u32,
        dr_curve: u32,
        readings: *const u16,
        count: usize,
    ) -> u64;
}

#[cfg(before)]
fn earlier_period(q: [u32; 3], curves: [u32; 3], readings: &[u16]) -> u64 {
    unsafe { before_period(q[0], q[1], q[2], curves[0], curves[1], curves[2], readings.as_ptr(), readings.len()) }
}

fn proved_closings(unit: [u32; 3], n: u32, c: &Closing, readings: &[u16]) -> u64 {
    unsafe {
        bench_closings(
            unit[0],
            unit[1],
            unit[2],
            n,
            c.purchase,
            readings.as_ptr(),
            readings.len(),
            c.delivered,
            c.taken,
            c.trader,
        )
    }
}

fn proved_report(input: &[u8], output: &mut [u8]) -> i64 {
    unsafe { soe_report(input.as_ptr(), input.len(), output.as_mut_ptr(), output.len()) }
}

fn proved_terms(t: &Terms) -> i64 {
    let (l, h) = (t.low, t.high);
    unsafe { soe_terms(l[0], l[1], l[2], h[0], h[1], h[2], t.export_limit, t.import_limit) }
}

// ---- period energy in plain Rust

// The readings of a period, at two a second and at twenty.
const AT_TWO: usize = 1800 * 2;
const AT_TWENTY: usize = 1800 * 20;

#[derive(Clone, Copy)]
struct Point {
    deviation: u16,
    share: u16,
}

#[derive(Clone, Copy)]
struct Curve {
    count: u8,
    points: [Point; 5],
}

const fn point(deviation: u16, share: u16) -> Point {
    Point { deviation, share }
}

const BLANK: Point = point(0, 0);
const CONTAINMENT: Curve = Curve { count: 3, points: [point(15, 0), point(200, 50), point(500, 1000), BLANK, BLANK] };

fn curve_of(n: u32) -> Curve {
    let (p, blank) = (point, BLANK);
    match n {
        1 => CONTAINMENT,
        3 => Curve { count: 5, points: [p(15, 0), p(200, 50), p(500, 400), p(1500, 700), p(3000, 1000)] },
        _ => Curve { count: 2, points: [p(15, 0), p(200, 1000), blank, blank, blank] },
    }
}

impl Curve {
    fn points(&self) -> &[Point] {
        &self.points[..self.count as usize]
    }

    fn holds(&self) -> bool {
        (2..=5).contains(&self.count)
            && self.points[0].share == 0
            && self.points().iter().all(|p| p.deviation <= 3000 && p.share <= 1000)
            && self.points().windows(2).all(|w| w[0].deviation < w[1].deviation && w[0].share <= w[1].share)
    }
}

// In W: per mille of 1,000 kW for each MW.
#[inline(always)]
fn response(mw: u32, points: &[Point], deviation: u32) -> u32 {
    let mut last = points[0];
    if mw == 0 || deviation < last.deviation as u32 {
        return 0;
    }
    for &next in &points[1..] {
        if deviation < next.deviation as u32 {
            let w = (next.deviation - last.deviation) as u32;
            let rise = (next.share - last.share) as u32;
            let n = 1000 * mw as u64 * (last.share as u32 * w + rise * (deviation - last.deviation as u32)) as u64;
            return ((n + w as u64 - 1) / w as u64) as u32;
        }
        last = next;
    }
    1000 * mw * last.share as u32
}

// What comes before the readings.
fn refused(low: [u32; 3], high: [u32; 3], curves: &[Curve; 3], readings: &[u16]) -> Option<u64> {
    if quantity(low) > 1000 || quantity(high) > 1000 {
        return Some(1);
    }
    if !curves.iter().all(Curve::holds) {
        return Some(5);
    }
    (readings.len() != AT_TWO && readings.len() != AT_TWENTY).then_some(6)
}

fn kwh(sum: u64, count: usize) -> u32 {
    let divisor = 2000 * count as u64;
    ((sum + divisor - 1) / divisor) as u32
}

// The plain way: a division for each service and reading.
#[inline(always)]
fn period_energy(low: [u32; 3], high: [u32; 3], curves: &[Curve; 3], readings: &[u16]) -> Result<(u32, u32), u64> {
    if let Some(n) = refused(low, high, curves, readings) {
        return Err(n);
    }
    let [dc, dm, dr] = [curves[0].points(), curves[1].points(), curves[2].points()];
    let all = |q: [u32; 3], d: u32| response(q[0], dc, d) + response(q[1], dm, d) + response(q[2], dr, d);
    let (mut below, mut above) = (0u64, 0u64);
    for &r in readings {
        if !(47000..=53000).contains(&r) {
            return Err(6);
        }
        if r < 50000 {
            below += all(low, 50000 - r as u32) as u64;
        } else if 50000 < r {
            above += all(high, r as u32 - 50000) as u64;
        }
    }
    Ok((kwh(below, readings.len()), kwh(above, readings.len())))
}

// ---- period energy in three passes, a sketch: no loop divides

// Adds a direction's responses to each deviation up to most: along a segment the response is quotient + remainder / width, and
// both rise by fixed steps.
#[inline(never)]
fn fill(q: [u32; 3], curves: &[Curve; 3], most: usize, table: &mut [u32; 3001]) {
    for (mw, c) in q.into_iter().zip(curves) {
        if mw == 0 {
            continue;
        }
        let points = c.points();
        for w in points.windows(2) {
            let (p, n) = (w[0], w[1]);
            let width = (n.deviation - p.deviation) as u32;
            let step = 1000 * mw * (n.share - p.share) as u32;
            let (by, over) = (step / width, step % width);
            let (mut quotient, mut remainder) = (1000 * mw * p.share as u32, 0);
            for d in p.deviation as usize..(n.deviation as usize).min(most + 1) {
                table[d] += quotient + (remainder > 0) as u32;
                quotient += by;
                remainder += over;
                if remainder >= width {
                    remainder -= width;
                    quotient += 1;
                }
            }
        }
        let last = points[points.len() - 1];
        for d in last.deviation as usize..most + 1 {
            table[d] += 1000 * mw * last.share as u32;
        }
    }
}

fn three_passes(low: [u32; 3], high: [u32; 3], curves: &[Curve; 3], readings: &[u16]) -> Result<(u32, u32), u64> {
    if let Some(n) = refused(low, high, curves, readings) {
        return Err(n);
    }
    let (mut least, mut most) = (50000u16, 50000u16);
    for &r in readings {
        least = least.min(r);
        most = most.max(r);
    }
    if least < 47000 || most > 53000 {
        return Err(6);
    }
    let (mut lows, mut highs) = ([0u32; 3001], [0u32; 3001]);
    fill(low, curves, (50000 - least) as usize, &mut lows);
    fill(high, curves, (most - 50000) as usize, &mut highs);
    let (mut below, mut above) = (0u64, 0u64);
    for &r in readings.iter().rev() {
        let r = r as u32;
        below += lows[(50000u32.saturating_sub(r) as usize).min(3000)] as u64;
        above += highs[(r.saturating_sub(50000) as usize).min(3000)] as u64;
    }
    Ok((kwh(below, readings.len()), kwh(above, readings.len())))
}

// ---- both, with their bounds in one number

fn number_of(answer: Result<(u32, u32), u64>) -> u64 {
    match answer {
        Ok((low, high)) => low as u64 * 4294967296 + high as u64,
        Err(n) => n,
    }
}

#[inline(never)]
fn plain_period(q: [u32; 3], curves: [u32; 3], readings: &[u16]) -> u64 {
    number_of(period_energy(q, q, &curves.map(curve_of), readings))
}

#[inline(never)]
fn sketched_period(q: [u32; 3], curves: [u32; 3], readings: &[u16]) -> u64 {
    number_of(three_passes(q, q, &curves.map(curve_of), readings))
}

// ---- a response of the containment curve in plain Rust, for any quantity and so in 64 bits

// By interpolation: the curve comes at run time, so that a segment's width is divided by.
#[inline(never)]
extern "C" fn interpolated_response(_: &[u32; 501], mw: u32, deviation: u16) -> u64 {
    let points = black_box(&CONTAINMENT).points();
    let mut last = points[0];
    if deviation < last.deviation {
        return 0;
    }
    for &next in &points[1..] {
        if deviation < next.deviation {
            let width = (next.deviation - last.deviation) as u64;
            let rise = (next.share - last.share) as u64;
            let n = last.share as u64 * width + rise * (deviation - last.deviation) as u64;
            return (1000 * mw as u64 * n).div_ceil(width);
        }
        last = next;
    }
    1000 * mw as u64 * last.share as u64
}

// The share times 11,100, which rises by 11,100 * 50 / 185 and then by 11,100 * 950 / 300.
static CONTAINMENT_TABLE: [u32; 501] = {
    let mut table = [0; 501];
    let mut d = 16;
    while d <= 500 {
        table[d] = table[d - 1] + if d <= 200 { 3000 } else { 35_150 };
        d += 1;
    }
    table
};

// 1,000 times the product, divided by 11,100; 10 times it, divided by 111, is the same and stays in 64 bits.
#[inline(never)]
extern "C" fn tabled_response(table: &[u32; 501], mw: u32, deviation: u16) -> u64 {
    let entry = table[deviation.min(500) as usize];
    (10 * mw as u64 * entry as u64).div_ceil(111)
}

// ---- the terms check in plain Rust

#[derive(Clone, Copy)]
struct Terms {
    low: [u32; 3],
    high: [u32; 3],
    export_limit: i64,
    import_limit: i64,
}

fn weighted(q: [u32; 3], weights: [u64; 3]) -> u64 {
    (0..3).map(|i| weights[i] * q[i] as u64).sum()
}

fn quantity(q: [u32; 3]) -> u64 {
    weighted(q, [1, 1, 1])
}

fn rev(q: [u32; 3]) -> u64 {
    weighted(q, [250, 500, 1000])
}

fn er(q: [u32; 3]) -> u64 {
    weighted(q, [50, 100, 200])
}

fn limits_broken(t: &Terms) -> bool {
    let power = |own, other| 1000 * quantity(own) + weighted(other, [100, 200, 400]);
    let broken = |limit: i64, power: u64| !(0..=2_000_000).contains(&limit) || (limit as u64) < power;
    broken(t.export_limit, power(t.low, t.high)) || broken(t.import_limit, power(t.high, t.low))
}

// The arguments of `soe_terms`: the call is a good part of the time.
#[inline(never)]
extern "C" fn terms_check(
    low_dc: u32,
    low_dm: u32,
    low_dr: u32,
    high_dc: u32,
    high_dm: u32,
    high_dr: u32,
    export_limit: i64,
    import_limit: i64,
) -> i64 {
    let t = Terms { low: [low_dc, low_dm, low_dr], high: [high_dc, high_dm, high_dr], export_limit, import_limit };
    if quantity(t.low) > 1000 || quantity(t.high) > 1000 {
        return -1;
    }
    if limits_broken(&t) {
        return -2;
    }
    0
}

fn plain_terms(t: &Terms) -> i64 {
    let (l, h) = (t.low, t.high);
    terms_check(l[0], l[1], l[2], h[0], h[1], h[2], t.export_limit, t.import_limit)
}

// ---- the contracted quantity in plain Rust

// The arguments of `soe_quantity`: the call is a good part of the time.
#[inline(never)]
unsafe extern "C" fn plain_quantity(
    direction: u32,
    available: u32,
    offer: u32,
    bid: u32,
    mil: i64,
    sil: i64,
    sel: i64,
    mel: i64,
    ol: i64,
    points: *const u8,
    points_length: usize,
    limit: u32,
) -> i64 {
    let bytes = unsafe { std::slice::from_raw_parts(points, points_length) };
    if !(1..=2).contains(&direction) || available > 1 || limit > 4_000_000 {
        return -12;
    }
    if ![mil, sil, sel, mel, ol].iter().all(|level| (-2_000_000..=2_000_000).contains(level)) {
        return -12;
    }
    if !(mil <= sil && sil <= 0 && 0 <= sel && sel <= mel && mil <= ol && ol <= mel) {
        return -12;
    }
    if bytes.len() % 8 != 0 || !(16..=40).contains(&bytes.len()) {
        return -12;
    }
    let mut points = [(0, 0); 5];
    let points = &mut points[..bytes.len() / 8];
    for (point, bytes) in points.iter_mut().zip(bytes.chunks(8)) {
        let number = |b: &[u8]| u32::from_le_bytes(b.try_into().unwrap()) as u64;
        *point = (number(&bytes[..4]), number(&bytes[4..]));
    }
    if points[0].0 != 0 || points.iter().any(|p| p.0 > 4_000_000 || p.1 > 4_000_000) {
        return -12;
    }
    if points.windows(2).any(|w| w[1].0 <= w[0].0 || w[1].1 < w[0].1) {
        return -12;
    }
    if offer > 10_000_000 || bid > 10_000_000 {
        return -18;
    }
    if available == 0 || (if direction == 1 { offer } else { bid }) == 0 {
        return 0;
    }
    let whole = sel == 0 && sil == 0;
    let room = match direction {
        1 if whole || ol >= sel => mel - ol,
        1 if ol <= sil => sil - ol,
        2 if whole || ol <= sil => ol - mil,
        2 if ol >= sel => ol - sel,
        _ => 0,
    } as u64;
    let last = points.len() - 1;
    let i = (1..last).find(|&i| room <= points[i].0).unwrap_or(last);
    let ((r, c), (s, d)) = (points[i - 1], points[i]);
    (c + (d - c) * (room - r) / (s - r)).min(limit as u64) as i64
}

// ---- the payment in plain Rust

extern "C" fn plain_payment(
    price: u32,
    adjustment: u32,
    k: u32,
    f: u32,
    pieces: *const u8,
    pieces_length: usize,
    amount: *mut i64,
) -> i64 {
    const PENNY: u64 = 3_600_000_000_000;
    let bytes = unsafe { std::slice::from_raw_parts(pieces, pieces_length) };
    if bytes.len() % 8 != 0 {
        return -13;
    }
    if price > 10_000 || adjustment > 10_000 || k > 1_000 || f > 1_000 || bytes.len() > 512 {
        return -20;
    }
    let (mut seconds, mut work) = (0, 0);
    for piece in bytes.chunks_exact(8) {
        let number = |at: usize| u32::from_le_bytes(piece[at..at + 4].try_into().unwrap()) as u64;
        let (quantity, duration) = (number(0), number(4));
        if quantity > 1_000_000 {
            return -20;
        }
        seconds += duration;
        work += quantity * duration;
    }
    if seconds > 1_800 {
        return -20;
    }
    let earned = price as i64 * 1_000_000 - price.max(adjustment) as i64 * (1_000_000 - k as i64 * f as i64);
    let parts = earned.unsigned_abs() * work;
    let pence = match earned {
        0.. => ((parts + PENNY / 2) / PENNY) as i64,
        _ => -(((parts + PENNY / 2 - 1) / PENNY) as i64),
    };
    unsafe { *amount = pence };
    0
}

// ---- the test day in plain Rust

extern "C" fn plain_test_day(seed: u32, buffer: *mut u16, count: usize) -> i64 {
    if seed > 2_147_483_647 {
        return -21;
    }
    let mut last = seed;
    for reading in unsafe { std::slice::from_raw_parts_mut(buffer, count) } {
        last = last.wrapping_mul(1_103_515_245).wrapping_add(12_345) & 0x7fff_ffff;
        *reading = (49_500 + last / 65_536 % 1_001) as u16;
    }
    last as i64
}

// ---- the requirement in plain Rust

#[derive(Clone, Copy, Default)]
struct Row {
    left: u64,
    sched: u64,
    back: u64,
    start: i64,
    end: i64,
    flag: bool,
}

// Eight rows, and the start after them.
fn table(q: [u32; 3], bounds: &[u32; 8]) -> ([Row; 8], i64) {
    let er = er(q);
    let mut rows = [Row::default(); 8];
    let mut left = 0;
    let mut start = rev(q) as i64;
    for i in 0..8 {
        let due = bounds[i] as u64 + left;
        let sched = due.min(er);
        let back = if i < 4 { 0 } else { rows[i - 4].sched };
        let end = start - bounds[i] as i64 + back as i64;
        rows[i] = Row { left, sched, back, start, end, flag: start <= 0 || end <= 0 };
        left = due - sched;
        start = end;
    }
    (rows, start)
}

// ---- a report in plain Rust

fn number(cell: &[u8]) -> Option<u32> {
    let blanks = cell.iter().position(|&b| b != b' ')?;
    let digits = &cell[blanks..];
    if digits[0] == b'0' && digits.len() > 1 {
        return None;
    }
    let mut n = 0;
    for &b in digits {
        if !b.is_ascii_digit() {
            return None;
        }
        n = 10 * n + (b - b'0') as u32;
    }
    Some(n)
}

struct Input {
    q: [u32; 3],
    bounds: [u32; 8],
    reported: [u32; 8],
}

fn parse(text: &[u8]) -> Option<Input> {
    if text.len() != 189 {
        return None;
    }
    let (header, lines) = text.split_at(37);
    let direction = number(&header[0..9])?;
    let q = [number(&header[9..18])?, number(&header[18..27])?, number(&header[27..36])?];
    if header[36] != b'\n' || !(1..=2).contains(&direction) {
        return None;
    }
    let mut input = Input { q, bounds: [0; 8], reported: [0; 8] };
    for (i, line) in lines.chunks_exact(19).enumerate() {
        input.bounds[i] = number(&line[0..9])?;
        input.reported[i] = number(&line[9..18])?;
        if line[18] != b'\n' {
            return None;
        }
    }
    Some(input)
}

// Right-justified.
fn put(cell: &mut [u8], z: i64) {
    let mut n = z.unsigned_abs();
    let mut at = cell.len();
    loop {
        at -= 1;
        cell[at] = b'0' + (n % 10) as u8;
        n /= 10;
        if n == 0 {
            break;
        }
    }
    if z < 0 {
        at -= 1;
        cell[at] = b'-';
    }
    cell[..at].fill(b' ');
}

#[inline(never)]
fn plain_report(input: &[u8], output: &mut [u8]) -> i64 {
    let Some(p) = parse(input) else {
        return -13;
    };
    let quantity = quantity(p.q);
    if quantity == 0 || 1000 < quantity {
        return -1;
    }
    if p.bounds.iter().any(|&b| 500 * quantity < b as u64) {
        return -7;
    }
    if p.reported.iter().any(|&e| 10_000_000 < e) {
        return -11;
    }
    if output.len() < 488 {
        return -14;
    }
    let (rows, _) = table(p.q, &p.bounds);
    for (i, (r, line)) in rows.iter().zip(output.chunks_exact_mut(61)).enumerate() {
        put(&mut line[0..2], i as i64 + 1);
        put(&mut line[2..11], p.bounds[i] as i64);
        put(&mut line[11..20], r.start);
        put(&mut line[20..29], r.end);
        put(&mut line[29..38], r.sched as i64);
        put(&mut line[38..47], r.back as i64);
        put(&mut line[47..56], r.left as i64);
        put(&mut line[56..58], r.flag as i64);
        put(&mut line[58..60], (r.start.max(0) <= p.reported[i] as i64) as i64);
        line[60] = b'\n';
    }
    0
}

// ---- closings in plain Rust: a table is made once for the same bounds

#[derive(Clone, Copy, Default)]
struct Entries {
    bounds: [u32; 8],
    starts: [i64; 8],
    scheds: [u64; 8],
}

#[derive(Clone)]
struct Record {
    terms: Terms,
    curves: [Curve; 3],
    size: u32,
    first: u32,
    state: u32,
    closed: u32,
    low: Entries,
    high: Entries,
    bought: [u32; 4],
    sold: [u32; 4],
    delivered: u32,
    taken: u32,
}

struct Closing {
    purchase: i64,
    delivered: i64,
    taken: i64,
    trader: u32,
}

fn opening(t: &Terms, curves: &[Curve; 3], size: u32, first: u32) -> i64 {
    let (low, high) = (quantity(t.low), quantity(t.high));
    if low > 1000 || high > 1000 || (low == 0 && high == 0) {
        return -1;
    }
    if limits_broken(t) {
        return -2;
    }
    if !curves.iter().all(Curve::holds) {
        return -5;
    }
    let (low, high) = (rev(t.low), rev(t.high));
    if 10_000_000 < size || (size as u64) < low + high {
        return -3;
    }
    if (first as u64) < low || (size as u64) < first as u64 + high {
        return -4;
    }
    0
}

// A blank record where opening refuses.
fn open(unit: [u32; 3]) -> Record {
    let [mw, size, first] = unit;
    let q = [0, 0, mw];
    let mut terms = Terms { low: q, high: q, export_limit: 2_000_000, import_limit: 2_000_000 };
    let mut curves = [curve_of(2); 3];
    let (mut size, mut first) = (size, first);
    if opening(&terms, &curves, size, first) != 0 {
        terms = Terms { low: [0; 3], high: [0; 3], export_limit: 0, import_limit: 0 };
        curves = [Curve { count: 0, points: [BLANK; 5] }; 3];
        (size, first) = (0, 0);
    }
    Record {
        terms,
        curves,
        size,
        first,
        state: first,
        closed: 0,
        low: Entries::default(),
        high: Entries::default(),
        bought: [0; 4],
        sold: [0; 4],
        delivered: 0,
        taken: 0,
    }
}

fn entries_hold(q: [u32; 3], closed: usize, e: &Entries, rows: &[Row; 8]) -> bool {
    (0..8).all(|i| {
        if i < closed {
            e.bounds[i] as u64 <= 500 * quantity(q) && e.starts[i] == rows[i].start && e.scheds[i] == rows[i].sched
        } else {
            e.bounds[i] == 0 && e.starts[i] == 0 && e.scheds[i] == 0
        }
    })
}

fn sum(numbers: &[u32]) -> u64 {
    numbers.iter().map(|&n| n as u64).sum()
}

fn record_holds(r: &Record, low: &([Row; 8], i64), high: &([Row; 8], i64)) -> bool {
    let closed = r.closed as usize;
    if 8 < closed {
        return false;
    }
    let next = |t: &([Row; 8], i64)| if closed == 8 { t.1 } else { t.0[closed].start };
    let most = 10_000_000 * r.closed as u64;
    let (bought, sold) = (sum(&r.bought), sum(&r.sold));
    opening(&r.terms, &r.curves, r.size, r.first) == 0
        && entries_hold(r.terms.low, closed, &r.low, &low.0)
        && entries_hold(r.terms.high, closed, &r.high, &high.0)
        && bought <= most
        && sold <= most
        && r.delivered as u64 <= sum(&r.low.bounds)
        && r.taken as u64 <= sum(&r.high.bounds)
        && r.state <= r.size
        && next(low) <= r.state as i64
        && next(high) <= (r.size - r.state) as i64
        && r.state as i64
            == r.first as i64 + bought as i64 - sold as i64 - r.delivered as i64 + r.taken as i64
}

fn close_entries(q: [u32; 3], e: &mut Entries, at: usize, bound: u32) {
    e.bounds[at] = bound;
    let row = table(q, &e.bounds).0[at];
    e.starts[at] = row.start;
    e.scheds[at] = row.sched;
}

fn close(r: &Record, c: &Closing, readings: &[u16]) -> Result<Record, i64> {
    let low = table(r.terms.low, &r.low.bounds);
    let high = table(r.terms.high, &r.high.bounds);
    if r.closed == 8 || !record_holds(r, &low, &high) {
        return Err(-10);
    }
    if !(1..=4).contains(&c.trader) {
        return Err(-19);
    }
    let at = r.closed as usize;
    let need = |t: &([Row; 8], i64)| (t.0[at].start + t.0[at].back as i64).max(0);
    let bought = (r.state as i64).checked_add(c.purchase);
    if !bought.is_some_and(|s| need(&low) <= s && s <= r.size as i64 - need(&high)) {
        return Err(-8);
    }
    let Ok((low, high)) = period_energy(r.terms.low, r.terms.high, &r.curves, readings) else {
        return Err(-6);
    };
    if !(0..=low as i64).contains(&c.delivered) || !(0..=high as i64).contains(&c.taken) {
        return Err(-9);
    }
    let state = r.state as i64 + c.purchase - c.delivered + c.taken;
    if !(0..=r.size as i64).contains(&state) {
        return Err(-9);
    }
    let mut after = r.clone();
    after.state = state as u32;
    after.closed += 1;
    close_entries(r.terms.low, &mut after.low, at, low);
    close_entries(r.terms.high, &mut after.high, at, high);
    let trader = c.trader as usize - 1;
    after.bought[trader] += c.purchase.max(0) as u32;
    after.sold[trader] += (-c.purchase).max(0) as u32;
    after.delivered += c.delivered as u32;
    after.taken += c.taken as u32;
    Ok(after)
}

#[inline(never)]
fn plain_closings(unit: [u32; 3], n: u32, c: &Closing, readings: &[u16]) -> u64 {
    let mut record = open(unit);
    for _ in 0..n {
        if let Ok(after) = close(&record, c, readings) {
            record = after;
        }
    }
    record.closed as u64 * 4294967296 + record.state as u64
}

// ---- instructions in plain Rust

const IDLE: u32 = 0;
const START_PENDING: u32 = 1;
const DELIVERING: u32 = 2;
const CEASE_PENDING: u32 = 3;

#[derive(Clone, Copy)]
struct Machine {
    state: u32,
    accepted: u32,
    last: u64,
    issue: u64,
    at: u64,
}

impl Machine {
    fn read(bytes: &[u8]) -> Option<Machine> {
        let bytes: &[u8; 32] = bytes.try_into().ok()?;
        let short = |at: usize| u32::from_le_bytes(bytes[at..at + 4].try_into().unwrap());
        let long = |at: usize| u64::from_le_bytes(bytes[at..at + 8].try_into().unwrap());
        let m = Machine { state: short(0), accepted: short(4), last: long(8), issue: long(16), at: long(24) };
        let good = match m.state {
            IDLE | DELIVERING => m.accepted == 0 && m.issue == 0 && m.at == 0,
            START_PENDING | CEASE_PENDING => m.accepted <= 1,
            _ => false,
        };
        good.then_some(m)
    }

    fn write(&self, bytes: &mut [u8]) {
        bytes[0..4].copy_from_slice(&self.state.to_le_bytes());
        bytes[4..8].copy_from_slice(&self.accepted.to_le_bytes());
        bytes[8..16].copy_from_slice(&self.last.to_le_bytes());
        bytes[16..24].copy_from_slice(&self.issue.to_le_bytes());
        bytes[24..32].copy_from_slice(&self.at.to_le_bytes());
    }

    fn settle(&mut self, state: u32) {
        *self = Machine { state, accepted: 0, issue: 0, at: 0, ..*self };
    }

    fn issue(&mut self, state: u32, time: u64, at: u64) {
        *self = Machine { state, accepted: 0, issue: time, at, ..*self };
    }

    fn unanswered(&self) -> bool {
        matches!(self.state, START_PENDING | CEASE_PENDING) && self.accepted == 0
    }

    fn reject(&mut self) {
        self.settle(if self.state == START_PENDING { IDLE } else { DELIVERING });
    }

    fn due(&mut self, time: u64) {
        if self.unanswered() {
            if time.saturating_sub(self.issue) > 120 {
                self.reject();
            }
            return;
        }
        match self.state {
            START_PENDING if self.at <= time => self.settle(DELIVERING),
            CEASE_PENDING if self.at <= time => self.settle(IDLE),
            _ => {}
        }
    }
}

// The arguments of `soe_instruction`: the call is a good part of the time.
#[inline(never)]
unsafe extern "C" fn plain_instruction(
    machine: *mut u8,
    machine_length: usize,
    event: u32,
    time: u64,
    at: u64,
    limit: u32,
    available: u32,
    armed: u32,
    energy: u32,
) -> i64 {
    let bytes = unsafe { std::slice::from_raw_parts_mut(machine, machine_length) };
    let Some(mut m) = Machine::read(bytes) else {
        return -13;
    };
    if !(1..=5).contains(&event) || (event == 1 && (available > 1 || armed > 1)) {
        return -13;
    }
    if time < m.last {
        return -15;
    }
    if event <= 2 && at.saturating_sub(time) < 120 {
        return -16;
    }
    m.due(time);
    let met = limit != 0 && available == 1 && armed == 1 && (1..=10_000_000).contains(&energy);
    match event {
        1 if m.state == IDLE && met => m.issue(START_PENDING, time, at),
        2 if m.state == DELIVERING => m.issue(CEASE_PENDING, time, at),
        3 if m.unanswered() => m.accepted = 1,
        4 if m.unanswered() => m.reject(),
        5 => {}
        _ => return -17,
    }
    m.last = time;
    m.due(time);
    m.write(bytes);
    0
}

// ---- readings, texts, terms and events

struct Random(u32);

impl Random {
    // 0 to n - 1
    fn below(&mut self, n: u32) -> u32 {
        self.0 = self.0.wrapping_mul(1664525).wrapping_add(1013904223);
        (self.0 >> 8) % n
    }
}

// Any reading within 300 mHz of 50,000.
fn varied(random: &mut Random, count: usize) -> Vec<u16> {
    (0..count).map(|_| 49700 + random.below(601) as u16).collect()
}

// Steps of at most 3 mHz, kept within 300 mHz.
fn walk(random: &mut Random, count: usize) -> Vec<u16> {
    let mut at = 50000u16;
    (0..count)
        .map(|_| {
            at = (at + random.below(7) as u16 - 3).clamp(49700, 50300);
            at
        })
        .collect()
}

// Within 20 mHz.
fn calm(random: &mut Random, count: usize) -> Vec<u16> {
    (0..count).map(|_| 49980 + random.below(41) as u16).collect()
}

// Any reading at all.
fn whole(random: &mut Random, count: usize) -> Vec<u16> {
    (0..count).map(|_| 47000 + random.below(6001) as u16).collect()
}

// Periods of one kind, at two readings a second and at twenty.
struct Kind {
    name: &'static str,
    two: Vec<Vec<u16>>,
    twenty: Vec<Vec<u16>>,
}

impl Kind {
    fn of(name: &'static str, f: fn(&mut Random, usize) -> Vec<u16>, random: &mut Random) -> Kind {
        let two = (0..PERIODS).map(|_| f(random, AT_TWO)).collect();
        let twenty = (0..PERIODS_AT_TWENTY).map(|_| f(random, AT_TWENTY)).collect();
        Kind { name, two, twenty }
    }
}

// A text of the report that is not refused.
fn text(random: &mut Random) -> Vec<u8> {
    let q = [random.below(300), random.below(300), 1 + random.below(300)];
    let mut out = format!("{:9}{:9}{:9}{:9}\n", 1 + random.below(2), q[0], q[1], q[2]);
    for _ in 0..8 {
        let bound = random.below(500 * (q[0] + q[1] + q[2]) + 1);
        out += &format!("{:9}{:9}\n", bound, random.below(10_000_001));
    }
    out.into_bytes()
}

// Terms of which some are refused.
fn terms(random: &mut Random) -> Terms {
    let mut q = || [random.below(400), random.below(400), random.below(400)];
    let (low, high) = (q(), q());
    let mut limit = || random.below(2_100_000) as i64 - 50_000;
    Terms { low, high, export_limit: limit(), import_limit: limit() }
}

#[derive(Clone, Copy)]
struct Unit {
    direction: u32,
    available: u32,
    offer: u32,
    bid: u32,
    levels: [i64; 5],
    points: [u8; 40],
    length: usize,
    limit: u32,
}

// A unit that is available and has energy for offers and for bids.
fn unit(random: &mut Random) -> Unit {
    let mut below = |n: i64| random.below(n as u32) as i64;
    let (mil, mel) = (-below(2_000_001), below(2_000_001));
    let (sil, sel) = if below(3) == 0 { (0, 0) } else { (-below(1 - mil), below(1 + mel)) };
    let ol = mil + below(mel - mil + 1);
    let length = 8 * (2 + below(4) as usize);
    let mut points = [0; 40];
    let (mut room, mut capability) = (0, 0);
    for point in points.chunks_mut(8) {
        point[..4].copy_from_slice(&(room as u32).to_le_bytes());
        point[4..].copy_from_slice(&(capability as u32).to_le_bytes());
        room += 1 + below(1_000_000);
        capability += below(1_000_000);
    }
    Unit {
        direction: 1 + below(2) as u32,
        available: 1,
        offer: 1 + below(10_000_000) as u32,
        bid: 1 + below(10_000_000) as u32,
        levels: [mil, sil, sel, mel, ol],
        points,
        length,
        limit: below(4_000_001) as u32,
    }
}

// A unit that may be unavailable, without energy or such that its quantity is refused.
fn odd_unit(random: &mut Random) -> Unit {
    let mut u = unit(random);
    match random.below(8) {
        0 => u.available = random.below(3),
        1 => u.offer = 0,
        2 => u.bid = 0,
        3 => u.offer += random.below(10_000_000),
        4 => u.levels[random.below(5) as usize] += random.below(2_000_000) as i64,
        5 => u.points[random.below(u.length as u32) as usize] = random.below(256) as u8,
        6 => u.length = random.below(41) as usize,
        _ => {}
    }
    u
}

#[derive(Clone, Copy)]
struct Paid {
    figures: [u32; 4],
    pieces: [u8; 520],
    length: usize,
}

// That many pieces, of 1,800 seconds or fewer together.
fn paid(random: &mut Random, count: usize) -> Paid {
    let figures = [10_001, 10_001, 1_001, 1_001].map(|n| random.below(n));
    let mut pieces = [0; 520];
    for piece in pieces.chunks_mut(8) {
        piece[..4].copy_from_slice(&random.below(1_000_001).to_le_bytes());
        piece[4..].copy_from_slice(&random.below(1_800 / count as u32 + 1).to_le_bytes());
    }
    Paid { figures, pieces, length: 8 * count }
}

// Up to 65 pieces, of which one may be changed, and figures that may be above their limits.
fn odd_paid(random: &mut Random) -> Paid {
    let count = 1 + random.below(65) as usize;
    let mut p = paid(random, count);
    match random.below(4) {
        0 => p.figures[random.below(4) as usize] += random.below(2_000),
        1 => p.pieces[random.below(p.length as u32) as usize] = random.below(256) as u8,
        2 => p.length = random.below(521) as usize,
        _ => {}
    }
    p
}

#[derive(Clone, Copy)]
struct Event {
    event: u32,
    time: u64,
    at: u64,
    limit: u32,
    available: u32,
    armed: u32,
    energy: u32,
}

// An event of a unit that is available and armed and has energy.
fn event(event: u32, time: u64, at: u64) -> Event {
    Event { event, time, at, limit: 25_000, available: 1, armed: 1, energy: 50_000 }
}

// A unit started and ceased over and over, each instruction accepted, and a tick at its time.
fn day(random: &mut Random, count: usize) -> Vec<Event> {
    let mut events = Vec::new();
    let mut time = 0;
    while events.len() < count {
        for instruction in [1, 2] {
            let issue = time + random.below(600) as u64;
            let answer = issue + random.below(121) as u64;
            time = issue + 120 + random.below(600) as u64;
            events.extend([event(instruction, issue, time), event(3, answer, 0), event(5, time, 0)]);
        }
    }
    events.truncate(count);
    events
}

// Bytes that a call is lent, and how many of them.
type Lent = ([u8; 40], usize);

// A machine with its times within some minutes, of which one in three is damaged, and any event.
fn odd(random: &mut Random) -> (Lent, Event) {
    let mut time = || 10_000 + random.below(400) as u64;
    let [last, issue, at, now] = [time(), time(), time(), time()];
    let state = random.below(4);
    let pending = state % 2;
    let mut lent = ([0; 40], 32);
    let m = Machine {
        state,
        accepted: pending * random.below(2),
        last,
        issue: pending as u64 * issue,
        at: pending as u64 * at,
    };
    m.write(&mut lent.0[..32]);
    match random.below(6) {
        0 => lent.0[random.below(32) as usize] = random.below(256) as u8,
        1 => lent.1 = [0, 31, 33, 40][random.below(4) as usize],
        _ => {}
    }
    let mut e = event(random.below(6), now, now + 100 + random.below(100) as u64);
    e.limit *= random.below(2);
    e.available = random.below(3);
    e.armed = random.below(3);
    e.energy *= random.below(3);
    (lent, e)
}

// ---- timing: the least time of each over the repetitions, and the middle and the middle half of the ratios

const REPETITIONS: usize = 401;
// Different ones, so that no branch is foreseen because the same readings came before.
const PERIODS: usize = 25;
// Fewer at twenty a second: three have as many readings as 30 at two.
const PERIODS_AT_TWENTY: usize = 3;

// Microseconds for one of count.
fn time(count: usize, f: &dyn Fn(usize)) -> f64 {
    let start = Instant::now();
    for i in 0..count {
        f(i);
    }
    start.elapsed().as_secs_f64() * 1e6 / count as f64
}

fn sorted(mut xs: Vec<f64>) -> Vec<f64> {
    xs.sort_by(f64::total_cmp);
    xs
}

fn least(times: &[f64]) -> f64 {
    times.iter().copied().fold(f64::INFINITY, f64::min)
}

// The middle and the middle half of the ratios, each within one repetition.
fn ratios(own: &[f64], other: &[f64]) -> [f64; 3] {
    let all = sorted(own.iter().zip(other).map(|(x, y)| x / y).collect());
    let middle = REPETITIONS / 2;
    [all[middle], all[middle / 2], all[middle + middle / 2]]
}

// The times of each way, all in turn; beside a way stands how many periods, texts, terms or events it runs over.
fn measure<F: Fn(usize)>(ways: &[(usize, &F)]) -> Vec<Vec<f64>> {
    let mut times = vec![Vec::new(); ways.len()];
    for _ in 0..REPETITIONS {
        for (all, (count, way)) in times.iter_mut().zip(ways) {
            all.push(time(*count, *way));
        }
    }
    times
}

// The first way, which is the proved code, against each of the others.
fn print_row(work: &str, of: &str, times: &[Vec<f64>]) {
    print!("{:14} {:38} {:9.3}", work, of, least(&times[0]));
    for other in &times[1..] {
        let [middle, low, high] = ratios(&times[0], other);
        print!(" | {:9.3} {:6.3}  {:.3} to {:.3}", least(other), middle, low, high);
    }
    println!();
}

fn compare<F: Fn(usize)>(work: &str, of: &str, count: usize, ways: &[F]) {
    let ways: Vec<_> = ways.iter().map(|way| (count, way)).collect();
    print_row(work, of, &measure(&ways));
}

// The same ways at two readings a second and at twenty, all in turn; then what a period at twenty costs as a multiple of one at
// two: the ratio of the least times, and the middle and the middle half of the ratios.
fn compare_rates<F: Fn(usize)>(works: [&str; 2], of: &str, two: &[F], twenty: &[F]) {
    let at_two = two.iter().map(|way| (PERIODS, way));
    let at_twenty = twenty.iter().map(|way| (PERIODS_AT_TWENTY, way));
    let times = measure(&at_two.chain(at_twenty).collect::<Vec<_>>());
    let (two, twenty) = times.split_at(two.len());
    print_row(works[0], of, two);
    print_row(works[1], of, twenty);
    print!("{:53}", format!("36,000 by 3,600: {of}"));
    for (name, (long, short)) in ["Rattle", "plain", "sketch"].iter().zip(twenty.iter().zip(two)) {
        let [middle, low, high] = ratios(long, short);
        print!(" | {} least {:.2} ratio {:.2}  {:.2} to {:.2}", name, least(long) / least(short), middle, low, high);
    }
    println!();
}

type Period = fn([u32; 3], [u32; 3], &[u16]) -> u64;

const PERIOD_WAYS: [Period; 3] = [proved_period, plain_period, sketched_period];

fn same_period(q: [u32; 3], curves: [u32; 3], readings: &[u16]) -> u64 {
    let [proved, plain, sketched] = PERIOD_WAYS.map(|f| f(q, curves, readings));
    assert_eq!(proved, plain);
    assert_eq!(sketched, plain);
    assert_eq!(proved_period_by_table(q, curves, readings), plain);
    plain
}

fn period_ways<'a, const N: usize>(
    ways: [Period; N],
    q: [u32; 3],
    curves: [u32; 3],
    periods: &'a [Vec<u16>],
) -> [impl Fn(usize) + 'a; N] {
    ways.map(|f| {
        move |i: usize| {
            black_box(f(black_box(q), black_box(curves), black_box(&periods[i])));
        }
    })
}

const STOCK: [u32; 3] = [1, 2, 2];
const SERVICES: [(&str, [u32; 3]); 2] = [("three", [40, 60, 100]), ("one", [0, 0, 100])];
// And containment alone, which the table serves.
const SERVED: [(&str, [u32; 3]); 3] = [SERVICES[0], SERVICES[1], ("containment", [100, 0, 0])];

fn periods(kinds: &[Kind]) {
    for (shape, curves) in [("stock", STOCK), ("rising", [3, 3, 3])] {
        for kind in kinds {
            for (services, q) in SERVICES {
                for readings in kind.two.iter().chain(&kind.twenty) {
                    same_period(q, curves, readings);
                }
                let of = format!("{}, {services}, {shape}", kind.name);
                let two = period_ways(PERIOD_WAYS, q, curves, &kind.two);
                if shape == "stock" {
                    let twenty = period_ways(PERIOD_WAYS, q, curves, &kind.twenty);
                    compare_rates(["period energy", "period, 36,000"], &of, &two, &twenty);
                } else {
                    compare("period energy", &of, PERIODS, &two);
                }
            }
        }
    }
}

// Period energy in two ways, both proved; `agree` says of which answers that they do.
fn two_ways(ways: [Period; 2], agree: fn(u64, u64) -> bool, services: &[(&str, [u32; 3])], kinds: &[Kind]) {
    for kind in kinds {
        for &(services, q) in services {
            for (work, periods) in [("period energy", &kind.two), ("period, 36,000", &kind.twenty)] {
                for readings in periods {
                    let [one, other] = ways.map(|f| f(q, STOCK, readings));
                    assert!(agree(one, other), "{one:#x} and {other:#x}");
                }
                let of = format!("{}, {services}, stock", kind.name);
                compare(work, &of, periods.len(), &period_ways(ways, q, STOCK, periods));
            }
        }
    }
}

fn same(one: u64, other: u64) -> bool {
    one == other
}

// A revision before paper 02, No. 5, rounds each response up to a kW, by which a bound is the same or up to 2 kWh more: three
// services, each less than a kW for half an hour, and the last rounding.
#[cfg(before)]
fn same_or_by_kilowatts(now: u64, earlier: u64) -> bool {
    let bounds = |n: u64| [n >> 32, n & 0xffff_ffff];
    bounds(now).into_iter().zip(bounds(earlier)).all(|(now, earlier)| (now..=now + 2).contains(&earlier))
}

// Each is lent the table, which some do not need, so that all are called alike.
type Response = unsafe extern "C" fn(&[u32; 501], u32, u16) -> u64;

// The proved ones, by the stored table and by one that is lent, and the plain ones.
const PROVED_RESPONSES: [(&str, Response); 2] = [("response", stored_response), ("table lent", bench_response_from)];
const PLAIN_RESPONSES: [Response; 2] = [interpolated_response, tabled_response];

unsafe extern "C" fn stored_response(_: &[u32; 501], mw: u32, deviation: u16) -> u64 {
    bench_response_by_table(mw, deviation)
}

fn same_response(mw: u32, deviation: u16) {
    let [interpolated, tabled] = PLAIN_RESPONSES.map(|f| unsafe { f(&CONTAINMENT_TABLE, mw, deviation) });
    assert_eq!(tabled, interpolated);
    for (_, f) in PROVED_RESPONSES {
        assert_eq!(unsafe { f(&CONTAINMENT_TABLE, mw, deviation) }, interpolated);
    }
}

fn responses(random: &mut Random) {
    for mw in [0, 1, 1000, u32::MAX] {
        (0..=u16::MAX).for_each(|deviation| same_response(mw, deviation));
    }
    for (name, most) in [("10,000 within 500 mHz", 500), ("10,000 within 3,000 mHz", 3000)] {
        let all: Vec<_> = (0..10_000).map(|_| (random.below(1001), random.below(most + 1) as u16)).collect();
        all.iter().for_each(|&(mw, deviation)| same_response(mw, deviation));
        for (work, proved) in PROVED_RESPONSES {
            let ways = [proved, PLAIN_RESPONSES[0], PLAIN_RESPONSES[1]].map(|f| {
                let all = &all;
                move |i: usize| {
                    let (mw, deviation) = black_box(all[i]);
                    black_box(unsafe { f(&CONTAINMENT_TABLE, mw, deviation) });
                }
            });
            compare(work, name, all.len(), &ways);
        }
    }
}

// Readings that are refused, and such at the ends of the range; counts of neither rate; quantities that are refused.
fn odd_periods(random: &mut Random) {
    let units = [([40, 60, 100], [1, 2, 3]), ([0, 0, 1000], [3, 3, 3]), ([0, 0, 0], [1, 1, 1]), ([0, 1, 1000], [1, 1, 1])];
    for count in [AT_TWO, AT_TWENTY] {
        for bad in [0u16, 46999, 47000, 53000, 53001, 65535] {
            for at in [0, 1, count / 2 - 1, count - count / 20, count - 2, count - 1] {
                let mut readings = whole(random, count);
                readings[at] = bad;
                for (q, curves) in units {
                    same_period(q, curves, &readings);
                    same_period(q, curves, &readings[..count - 1]);
                }
            }
        }
    }
    for count in [0, AT_TWO - 1, AT_TWO, AT_TWO + 1, AT_TWENTY / 2, AT_TWENTY - 1, AT_TWENTY, AT_TWENTY + 1] {
        let readings = whole(random, count);
        for (q, curves) in units {
            same_period(q, curves, &readings);
        }
        let refused = same_period([40, 60, 100], [1, 2, 3], &readings) == 6;
        assert_eq!(refused, count != AT_TWO && count != AT_TWENTY);
    }
}

fn same_report(input: &[u8], length: usize) {
    let (mut ours, mut theirs) = (vec![7u8; length], vec![7u8; length]);
    assert_eq!(proved_report(input, &mut ours), plain_report(input, &mut theirs));
    assert_eq!(ours, theirs);
}

fn reports(random: &mut Random) {
    let example = include_bytes!("../crates/soereport/stdin").to_vec();
    let mut output = [0u8; 488];
    assert_eq!(proved_report(&example, &mut output), 0);
    assert_eq!(&output, include_bytes!("../crates/soereport/stdout"));
    for at in 0..example.len() {
        for byte in [b' ', b'0', b'9', b'-', b'\n'] {
            let mut damaged = example.clone();
            damaged[at] = byte;
            same_report(&damaged, 488);
        }
        same_report(&example[..at], 488);
    }
    same_report(&example, 487);
    let others: Vec<_> = (0..1000).map(|_| text(random)).collect();
    for (name, texts) in [("paper 01's example", vec![example; 1000]), ("1,000 texts", others)] {
        texts.iter().for_each(|t| same_report(t, 488));
        let run = |f: fn(&[u8], &mut [u8]) -> i64| {
            let texts = &texts;
            move |i: usize| {
                let mut output = [0u8; 488];
                black_box(f(black_box(&texts[i]), black_box(&mut output)));
            }
        };
        compare("report", name, texts.len(), &[run(proved_report), run(plain_report)]);
    }
}

fn term_checks(random: &mut Random) {
    let example = Terms { low: [0, 0, 100], high: [0, 0, 100], export_limit: 140_000, import_limit: 140_000 };
    let others: Vec<_> = (0..10_000).map(|_| terms(random)).collect();
    for (name, all) in [("one, good", vec![example; 10_000]), ("10,000, some refused", others)] {
        all.iter().for_each(|t| assert_eq!(proved_terms(t), plain_terms(t)));
        let run = |f: fn(&Terms) -> i64| {
            let all = &all;
            move |i: usize| {
                black_box(f(black_box(&all[i])));
            }
        };
        compare("terms check", name, all.len(), &[run(proved_terms), run(plain_terms)]);
    }
}

type Contracted = unsafe extern "C" fn(u32, u32, u32, u32, i64, i64, i64, i64, i64, *const u8, usize, u32) -> i64;

const QUANTITY_WAYS: [Contracted; 2] = [soe_quantity, plain_quantity];

fn contracted(f: Contracted, u: &Unit) -> i64 {
    let [mil, sil, sel, mel, ol] = u.levels;
    let points = u.points.as_ptr();
    unsafe { f(u.direction, u.available, u.offer, u.bid, mil, sil, sel, mel, ol, points, u.length, u.limit) }
}

fn quantities(random: &mut Random) {
    let good: Vec<_> = (0..10_000).map(|_| unit(random)).collect();
    let odd: Vec<_> = (0..10_000).map(|_| odd_unit(random)).collect();
    for all in [good, odd] {
        let found: Vec<i64> = all
            .iter()
            .map(|u| {
                let [proved, plain] = QUANTITY_WAYS.map(|f| contracted(f, u));
                assert_eq!(proved, plain);
                plain
            })
            .collect();
        let refused = found.iter().filter(|&&kw| kw < 0).count();
        let ways = QUANTITY_WAYS.map(|f| {
            let all = &all;
            move |i: usize| {
                black_box(contracted(f, black_box(&all[i])));
            }
        });
        let of = match refused {
            0 => "10,000 with energy".to_string(),
            _ => format!("10,000, of which {refused} refused"),
        };
        compare("quantity", &of, all.len(), &ways);
    }
}

type Pay = unsafe extern "C" fn(u32, u32, u32, u32, *const u8, usize, *mut i64) -> i64;

const PAYMENT_WAYS: [Pay; 2] = [soe_payment, plain_payment];

// The number, and the amount that stands there afterwards.
fn pay(way: Pay, p: &Paid) -> (i64, i64) {
    let [price, adjustment, k, f] = p.figures;
    let mut amount = 7;
    (unsafe { way(price, adjustment, k, f, p.pieces.as_ptr(), p.length, &mut amount) }, amount)
}

fn payments(random: &mut Random) {
    let mut kinds = Vec::new();
    for count in [1, 4, 64] {
        let all: Vec<_> = (0..10_000).map(|_| paid(random, count)).collect();
        kinds.push((format!("10,000, pieces {count}"), all));
    }
    let odd: Vec<_> = (0..10_000).map(|_| odd_paid(random)).collect();
    kinds.push(("10,000, pieces up to 65".to_string(), odd));
    for (of, all) in &kinds {
        let mut refused = 0;
        for p in all {
            let [proved, plain] = PAYMENT_WAYS.map(|way| pay(way, p));
            assert_eq!(proved, plain);
            refused += usize::from(plain.0 != 0);
        }
        let ways = PAYMENT_WAYS.map(|way| {
            move |i: usize| {
                black_box(pay(way, black_box(&all[i])));
            }
        });
        let of = match refused {
            0 => of.clone(),
            _ => format!("{of}, {refused} refused"),
        };
        compare("payment", &of, all.len(), &ways);
    }
}

type Fill = unsafe extern "C" fn(u32, *mut u16, usize) -> i64;

const TEST_DAY_WAYS: [Fill; 2] = [soe_test_day, plain_test_day];

fn test_days(random: &mut Random) {
    for count in [1, 100, 3_600] {
        let seeds: Vec<u32> = (0..1_000).map(|_| random.below(1 << 24)).collect();
        for &seed in seeds.iter().chain(&[0, (1 << 31) - 1, 1 << 31, u32::MAX]) {
            let [proved, plain] = TEST_DAY_WAYS.map(|way| {
                let mut buffer = vec![7; count];
                (unsafe { way(seed, buffer.as_mut_ptr(), count) }, buffer)
            });
            assert_eq!(proved, plain);
        }
        let ways = TEST_DAY_WAYS.map(|way| {
            let (seeds, buffer) = (&seeds, Cell::new(vec![7; count]));
            move |i: usize| {
                let mut lent = buffer.take();
                black_box(unsafe { way(black_box(seeds[i]), lent.as_mut_ptr(), count) });
                buffer.set(black_box(lent));
            }
        });
        compare("test day", &format!("1,000 seeds, readings {count}"), seeds.len(), &ways);
    }
}

type Instruct = unsafe extern "C" fn(*mut u8, usize, u32, u64, u64, u32, u32, u32, u32) -> i64;

const INSTRUCTION_WAYS: [Instruct; 2] = [soe_instruction, plain_instruction];

fn instruct(f: Instruct, machine: *mut u8, length: usize, e: &Event) -> i64 {
    unsafe { f(machine, length, e.event, e.time, e.at, e.limit, e.available, e.armed, e.energy) }
}

// The number, and the bytes that both have afterwards.
fn same_instruction(lent: &Lent, e: &Event) -> (i64, [u8; 40]) {
    let [proved, plain] = INSTRUCTION_WAYS.map(|f| {
        let mut bytes = lent.0;
        (instruct(f, bytes.as_mut_ptr(), lent.1, e), bytes)
    });
    assert_eq!(proved, plain);
    plain
}

fn instructions(random: &mut Random) {
    // one machine through all of them
    let events = day(random, 10_000);
    let mut lent = ([0; 40], 32);
    for e in &events {
        let (number, after) = same_instruction(&lent, e);
        assert_eq!(number, 0);
        lent.0 = after;
    }
    let ways = INSTRUCTION_WAYS.map(|f| {
        let (events, machine) = (&events, Cell::new([0; 32]));
        move |i: usize| {
            if i == 0 {
                machine.set([0; 32]);
            }
            black_box(instruct(f, machine.as_ptr().cast(), 32, black_box(&events[i])));
        }
    });
    compare("instruction", "10,000 of one unit", events.len(), &ways);

    // a machine for each
    let all: Vec<_> = (0..10_000).map(|_| odd(random)).collect();
    let refused = all.iter().filter(|(lent, e)| same_instruction(lent, e).0 != 0).count();
    let ways = INSTRUCTION_WAYS.map(|f| {
        let all = &all;
        move |i: usize| {
            let ((mut bytes, length), e) = all[i];
            black_box(instruct(f, black_box(bytes.as_mut_ptr()), length, black_box(&e)));
        }
    });
    compare("instruction", &format!("10,000, of which {refused} refused"), all.len(), &ways);
}

fn same_closings(unit: [u32; 3], n: u32, c: &Closing, readings: &[u16], closed: u64, state: u64) {
    let number = closed * 4294967296 + state;
    assert_eq!(proved_closings(unit, n, c, readings), number);
    assert_eq!(plain_closings(unit, n, c, readings), number);
}

fn closing(purchase: i64, delivered: i64, taken: i64) -> Closing {
    Closing { purchase, delivered, taken, trader: 4 }
}

// A closing for each period, after those that are refused: as much is taken as delivered, so that all eight are carried out.
fn closings_of(unit: [u32; 3], periods: &[Vec<u16>]) -> Vec<Closing> {
    let c = closing;
    let mut all = Vec::new();
    for readings in periods {
        let bounds = plain_period([0, 0, 100], [2, 2, 2], readings);
        let (low, high) = ((bounds >> 32) as i64, (bounds & 0xffff_ffff) as i64);
        let both = low.min(high);
        same_closings(unit, 8, &c(0, both, both), readings, 8, 150_000);
        same_closings(unit, 9, &c(0, both, both), readings, 8, 150_000);
        same_closings(unit, 1, &c(1000, low, high), readings, 1, (151_000 - low + high) as u64);
        for refused in [c(0, low + 1, high), c(0, low, high + 1), c(0, -1, 0), c(0, 0, -1)] {
            same_closings(unit, 1, &refused, readings, 0, 150_000);
        }
        for purchase in [50_001, -50_001, i64::MAX, i64::MIN] {
            same_closings(unit, 1, &c(purchase, low, high), readings, 0, 150_000);
        }
        for trader in [0, 5] {
            same_closings(unit, 1, &Closing { trader, ..c(0, both, both) }, readings, 0, 150_000);
        }
        for unit in [[0, 300_000, 150_000], [100, 199_999, 100_000], [1001, 9_000_000, 4_500_000]] {
            same_closings(unit, 1, &c(0, both, both), readings, 0, 0);
        }
        all.push(c(0, both, both));
    }
    all
}

type Closings = fn([u32; 3], u32, &Closing, &[u16]) -> u64;

fn closing_ways<'a>(unit: [u32; 3], all: &'a [Closing], periods: &'a [Vec<u16>]) -> [impl Fn(usize) + 'a; 2] {
    [proved_closings as Closings, plain_closings].map(|f| {
        move |i: usize| {
            black_box(f(black_box(unit), black_box(8), black_box(&all[i]), black_box(&periods[i])));
        }
    })
}

fn closings(kinds: &[Kind]) {
    let unit = [100, 300_000, 150_000];
    for (n, kind) in kinds.iter().enumerate() {
        let all = closings_of(unit, &kind.two);
        let all_at_twenty = closings_of(unit, &kind.twenty);
        let two = closing_ways(unit, &all, &kind.two);
        // at twenty a second for the first kind alone: the plain ones take milliseconds
        if n == 0 {
            let twenty = closing_ways(unit, &all_at_twenty, &kind.twenty);
            compare_rates(["eight closings", "eight, 36,000"], kind.name, &two, &twenty);
        } else {
            compare("eight closings", kind.name, PERIODS, &two);
        }
    }
    // refused before a reading is looked at: what the record rule and the purchase cost by themselves
    let refused = [
        ("no readings: refused", unit, 1000, 150_000),
        ("purchase refused", unit, 1_000_000, 150_000),
        ("blank record refused", [0, 300_000, 150_000], 0, 0),
    ];
    for (name, unit, purchase, state) in refused {
        same_closings(unit, 8, &closing(purchase, 0, 0), &[], 0, state);
        let run = |f: Closings| {
            let c = closing(purchase, 0, 0);
            move |_: usize| {
                black_box(f(black_box(unit), black_box(8), black_box(&c), black_box(&[])));
            }
        };
        compare("eight closings", name, 1000, &[run(proved_closings), run(plain_closings)]);
    }
}

fn main() {
    let mut random = Random(1);
    let mut kind = |name, f| Kind::of(name, f, &mut random);
    let within = [kind("within 300 mHz", varied), kind("a slow walk", walk), kind("calm", calm)];
    let any = [kind("within 3,000 mHz", whole)];
    let title = |of: &str| format!("| {:>9} {:>6}  {:14}", of, "ratio", "middle half");
    println!("{:14} {:38} {:>9} {} {}", "work", "of", "Rattle, us", title("plain, us"), title("sketch"));
    odd_periods(&mut random);
    periods(&within);
    periods(&any);
    closings(&within);
    reports(&mut random);
    term_checks(&mut random);
    quantities(&mut random);
    instructions(&mut random);
    payments(&mut random);
    test_days(&mut random);
    println!("{:14} {:38} {:>9} {}", "work", "of", "table, us", title("steps, us"));
    for kinds in [&within[..], &any] {
        two_ways([proved_period_by_table, proved_period], same, &SERVED, kinds);
    }
    println!("{:14} {:38} {:>9} {} {}", "work", "of", "Rattle, us", title("plain, us"), title("table, us"));
    responses(&mut random);
    #[cfg(before)]
    {
        println!("{:14} {:38} {:>9} {}", "work", "of", "now, us", title("before, us"));
        for kinds in [&within[..], &any] {
            two_ways([proved_period, earlier_period], same_or_by_kilowatts, &SERVICES, kinds);
        }
    }
}
