//! Cases for real-time payments: figures, counts and times at their limits, amounts at a half and beside it, above and below 0.

use crate::host;
use crate::model::{Fraction, Int};
use crate::payment::Payment;
use crate::random::Random;
use crate::tally::{stop, Tally};

const MAX: Int = u32::MAX as Int;

/// A penny in parts that every sum has whole: 1,000 kW, 3,600 seconds, K and F in thousandths.
const PENNY: Int = 1_000 * 3_600 * 1_000 * 1_000;

/// The kW times seconds that pieces can have.
const MOST_WORK: Int = 1_000_000 * 1_800;

// Where an amount lies

const SIDES: [&str; 2] = ["below 0", "above 0"];

const PLACES: [&str; 8] = [
    "whole",
    "under a half",
    "just under a half",
    "a part under a half",
    "a half",
    "a part over a half",
    "just over a half",
    "over a half",
];

/// On which side of 0 an exact sum lies, and where above the whole number below it. Within a millionth of a half is just beside it,
/// and nearer than a part of a penny no sum is.
pub fn kind_of(exact: Fraction) -> [&'static str; 2] {
    let past = exact.past_whole();
    let beside = past.minus(Fraction::new(1, 2));
    let within = |n: Int| {
        let most = Fraction::new(1, n);
        let far = [beside.minus(most), beside.plus(most)].map(Fraction::sign);
        usize::from(far[0] <= 0 && far[1] >= 0)
    };
    let near = within(1_000_000) + within(PENNY);
    let place = match (past.sign(), beside.sign()) {
        (0, _) => 0,
        (_, 0) => 4,
        (_, 1) => 7 - near,
        _ => 1 + near,
    };
    let side = match exact.sign() {
        -1 => SIDES[0],
        0 => "0",
        _ => SIDES[1],
    };
    [side, PLACES[place]]
}

/// Stops where amounts of a kind were never reached.
pub fn all_reached(tally: &Tally) {
    let sides = SIDES
        .iter()
        .flat_map(|&side| PLACES.map(|place| [side, place]));
    for kind in sides.chain([["0", "whole"]]) {
        if tally.paid(kind) == 0 {
            stop("payment", b"", &format!("{kind:?}"), "never reached");
        }
    }
}

// Pieces

/// Pieces of that many kW times seconds, of 1,800 seconds or fewer together.
fn pieces_of(random: &mut Random, work: Int) -> Vec<(Int, Int)> {
    let long = match random.below(3) {
        0 => 1_799,
        _ => random.between((work / 1_000_000).clamp(1, 1_799), 1_799),
    };
    let quantity = (work / long).min(1_000_000);
    let mut pieces = vec![(quantity, long), (work - quantity * long, 1)];
    let most = random.pick(&[2, 3, 10, 64]);
    while pieces.len() < most {
        let i = random.below(pieces.len());
        let (quantity, duration) = pieces[i];
        let first = random.within(0, duration);
        pieces[i].1 = first;
        pieces.insert(i + 1, (quantity, duration - first));
    }
    pieces
}

/// That many pieces whose durations come to `seconds`.
fn lasting(random: &mut Random, count: usize, seconds: Int) -> Vec<(Int, Int)> {
    let mut left = seconds;
    let mut pieces = Vec::new();
    for i in 0..count {
        let duration = match (i + 1 == count, random.below(4)) {
            (true, _) => left,
            (_, 0) => 0,
            _ => random.between(0, 2 * left / (count - i) as Int).min(left),
        };
        left -= duration;
        pieces.push((random.within(0, 1_000_000), duration));
    }
    pieces
}

// Figures

const PRICES: [Int; 8] = [0, 1, 500, 9_999, 10_000, 10_001, 0x1_0000, MAX];

const FACTORS: [Int; 8] = [0, 1, 500, 999, 1_000, 1_001, 0x1_0000, MAX];

fn any_price(random: &mut Random) -> Int {
    match random.below(3) {
        0 => random.pick(&PRICES[..5]),
        1 => 50 * random.between(0, 200),
        _ => random.between(0, 10_000),
    }
}

fn any_factor(random: &mut Random) -> Int {
    match random.below(4) {
        0 => 1_000,
        1 => random.pick(&FACTORS[..5]),
        2 => 50 * random.between(0, 20),
        _ => random.between(0, 1_000),
    }
}

fn good_figures(random: &mut Random) -> Payment {
    Payment {
        price: any_price(random),
        adjustment: any_price(random),
        k: any_factor(random),
        f: any_factor(random),
        pieces: Vec::new(),
    }
}

/// A figure beyond what it may be.
fn break_figure(random: &mut Random, payment: &mut Payment) {
    let any = random.between(0, MAX);
    match random.below(5) {
        0 => payment.price = random.pick(&[10_001, payment.price + 0x1_0000, MAX, any]),
        1 => payment.adjustment = random.pick(&[10_001, payment.adjustment + 0x1_0000, MAX, any]),
        2 => payment.k = random.pick(&[1_001, payment.k + 0x1_0000, MAX, any]),
        3 => payment.f = random.pick(&[1_001, payment.f + 0x1_0000, MAX, any]),
        _ => {
            let i = random.below(payment.pieces.len() + 1);
            match payment.pieces.get_mut(i) {
                Some(piece) if random.once_in(2) => piece.0 = random.pick(&[1_000_001, MAX, any]),
                Some(piece) => piece.1 = random.pick(&[1_801, MAX, any]),
                None => payment.pieces = lasting(random, 65, 1_800),
            }
        }
    }
}

// Amounts at a half

/// The greatest number that divides both, and by what `a` is multiplied to give it, but for multiples of `b`.
fn common_divisor(a: Int, b: Int) -> (Int, Int) {
    let (mut r, mut s) = ((a, 1), (b, 0));
    while s.0 != 0 {
        let q = r.0.div_euclid(s.0);
        (r, s) = (s, (r.0 - q * s.0, r.1 - q * s.1));
    }
    r
}

/// What a kW and second pays, in parts of a penny past the whole number below it.
fn parts(payment: &Payment) -> Int {
    let one = Payment {
        pieces: vec![(1, 1)],
        ..payment.clone()
    };
    one.exactly().past_whole().times(PENNY).exact()
}

/// The kW times seconds at which the exact sum is a half past a whole number, or as near it as these figures let it come: the
/// `steps`-th sum above it.
fn work_beside_a_half(random: &mut Random, payment: &Payment, steps: Int) -> Option<Int> {
    let (divisor, factor) = common_divisor(parts(payment), PENNY);
    let round = PENNY / divisor;
    let wanted = (PENNY / 2).div_euclid(divisor) + steps;
    let least = (wanted.rem_euclid(round) * factor.rem_euclid(round)).rem_euclid(round);
    (least <= MOST_WORK).then(|| {
        let rounds = random.within(0, (MOST_WORK - least) / round);
        least + rounds * round
    })
}

/// Amounts at a half, and the next ones that the same figures can have.
fn halves(random: &mut Random, payment: &mut Payment, tally: &mut Tally) {
    for steps in -1..=1 {
        if let Some(work) = work_beside_a_half(random, payment, steps) {
            payment.pieces = pieces_of(random, work);
            let found = host::payment("payment, halves", payment, tally);
            laws(payment, found, tally);
        }
    }
}

/// Amounts a part under a half and a part over it, of as many figures as are tried. Few have one: those of which no number of parts
/// above 1 divides every sum, and of these one in 2,000.
fn one_part(random: &mut Random, tried: usize, tally: &mut Tally) {
    for _ in 0..tried {
        let [price, adjustment] = [(); 2].map(|()| random.between(0, 999) * 10 + 1);
        let [k, f] = [(); 2].map(|()| random.between(0, 99) * 10 + random.pick(&[1, 3, 7, 9]));
        let mut payment = Payment {
            price,
            adjustment,
            k,
            f,
            pieces: Vec::new(),
        };
        if common_divisor(parts(&payment), PENNY).0 != 1 {
            continue;
        }
        for steps in [-1, 1] {
            if let Some(work) = work_beside_a_half(random, &payment, steps) {
                payment.pieces = pieces_of(random, work);
                host::payment("payment, halves", &payment, tally);
            }
        }
    }
}

// The calls

/// The laws for a payment of which the call gave `found`: never more than price times quantity and time, rounded alike, which is
/// also what K and F of 1,000 pay; nothing for no pieces.
fn laws(payment: &Payment, found: Option<Int>, tally: &mut Tally) {
    const TOPIC: &str = "payment, laws";
    let law = |what: &str, holds: bool| {
        if !holds {
            stop(TOPIC, format!("{payment:?}\n").as_bytes(), what, "not so");
        }
    };
    let Some(found) = found else {
        return law("20 where something is over", payment.over().is_some());
    };
    law("never more", found <= payment.gross());
    law(
        "nothing for no pieces",
        !payment.pieces.is_empty() || found == 0,
    );
    let full = Payment {
        k: 1_000,
        f: 1_000,
        ..payment.clone()
    };
    let gross = host::payment(TOPIC, &full, tally);
    law("as much with full factors", gross == Some(payment.gross()));
}

const EDGES: &str = "payment, edges";

pub fn edges(random: &mut Random, tally: &mut Tally) {
    one_part(random, 50_000, tally);
    every_figure(tally);
    counts_and_times(random, tally);
    each_length(random, tally);
}

/// Every figure at its limits with every other, for pieces at theirs.
fn every_figure(tally: &mut Tally) {
    let lists: [&[(Int, Int)]; 8] = [
        &[],
        &[(0, 0)],
        &[(1, 1)],
        &[(1_000_000, 1_800)],
        &[(1_000_000, 900), (1_000_000, 900)],
        &[(1_000_001, 0)],
        &[(0, 1_801)],
        &[(1, 900), (1, 901)],
    ];
    for pieces in lists {
        for (price, adjustment) in pairs(&PRICES) {
            for (k, f) in pairs(&FACTORS) {
                let payment = Payment {
                    price,
                    adjustment,
                    k,
                    f,
                    pieces: pieces.to_vec(),
                };
                host::payment(EDGES, &payment, tally);
            }
        }
    }
}

/// Each with each.
fn pairs(numbers: &[Int]) -> Vec<(Int, Int)> {
    let with = |&a| numbers.iter().map(move |&b| (a, b));
    numbers.iter().flat_map(with).collect()
}

/// Figures within their limits, of which each counts.
fn some_figures(pieces: Vec<(Int, Int)>) -> Payment {
    Payment {
        price: 9_998,
        adjustment: 9_999,
        k: 999,
        f: 997,
        pieces,
    }
}

/// Counts and times beside the limits, with a piece beside its own at either end and in the middle.
fn counts_and_times(random: &mut Random, tally: &mut Tally) {
    let mut pay = |pieces| {
        host::payment(EDGES, &some_figures(pieces), tally);
    };
    for count in (0..=70).chain([127, 128, 129, 256, 320, 65_536, 65_600]) {
        for seconds in [0, 1, 1_799, 1_800, 1_801, 3_600] {
            pay(lasting(random, count, seconds));
        }
        for i in [0, count / 2, count.saturating_sub(1)] {
            for edge in [(1_000_000, 1_800), (1_000_001, 0), (0, 1_801), (MAX, 1)] {
                let mut pieces = vec![(0, 0); count];
                if let Some(piece) = pieces.get_mut(i) {
                    *piece = edge;
                }
                pay(pieces);
            }
        }
    }
    // Durations whose sum is small in 32 or 16 bits.
    for (count, duration) in [(2, 1 << 31), (4, 1 << 30), (64, 1 << 26), (16, 1 << 12)] {
        for more in [0, 1, 1_800] {
            let mut pieces = vec![(1, duration); count];
            pieces[0].1 += more;
            pay(pieces);
        }
    }
}

/// Each length of the bytes of 66 pieces, also with a price above its limit.
fn each_length(random: &mut Random, tally: &mut Tally) {
    let payment = some_figures(lasting(random, 66, 1_800));
    let over = Payment {
        price: 10_001,
        ..payment.clone()
    };
    let bytes = payment.bytes();
    for length in 0..=bytes.len() {
        host::payment_of(EDGES, &payment, &bytes[..length], tally);
        host::payment_of(EDGES, &over, &bytes[..length], tally);
    }
}

pub fn any(random: &mut Random, count: usize, tally: &mut Tally) {
    const TOPIC: &str = "payment";
    for _ in 0..count {
        let mut payment = good_figures(random);
        match random.below(4) {
            0 => {
                halves(random, &mut payment, tally);
                continue;
            }
            1 => {
                let work = random.within(0, MOST_WORK);
                payment.pieces = pieces_of(random, work);
            }
            _ => {
                let pieces = random.pick(&[0, 1, 2, 3, 10, 63, 64, 65]);
                let seconds = random.pick(&[1, 900, 1_799, 1_800, 1_801]);
                payment.pieces = lasting(random, pieces, seconds);
            }
        }
        if random.once_in(4) {
            break_figure(random, &mut payment);
        }
        if random.once_in(10) {
            let mut bytes = payment.bytes();
            bytes.resize(random.below(540), random.pick(&[0, 1, 255]));
            host::payment_of(TOPIC, &payment, &bytes, tally);
        } else {
            laws(&payment, host::payment(TOPIC, &payment, tally), tally);
        }
    }
}
