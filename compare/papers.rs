//! The examples of paper 01, the counts and divisors of both papers, what 02 prints of its table, of the response in watts and of
//! the payment, and the tables of documents 000 and 003 as they are printed, held to the model and compared.

use crate::host;
use crate::model::{self, containment, regulation, Direction, Int, Levels, Terms, Unit, RATES};
use crate::payment::Payment;
use crate::tally::{printed, Tally};
use crate::trace::{Runs, Script};

const TOPIC: &str = "papers";

/// Paper 01, Report.
pub const REPORT_INPUT: &str = "        1        0        0      100
    15000   100000
    12000    85000
    20000    72999
    40000    53000
    30000    20000
     4000        0
     5000     6000
     1000    21000
";

pub const REPORT_OUTPUT: &str = " 1    15000   100000    85000    15000        0        0 0 1
 2    12000    85000    73000    12000        0        0 0 1
 3    20000    73000    53000    20000        0        0 0 0
 4    40000    53000    13000    20000        0        0 0 1
 5    30000    13000    -2000    20000    15000    20000 1 1
 6     4000    -2000     6000    20000    12000    30000 1 1
 7     5000     6000    21000    19000    20000    14000 0 1
 8     1000    21000    40000     1000    20000        0 0 1
";

/// A table of document 000 in MWh: SP, LFE or HFE, start, end, SP0, SP4, left_over, allowed unavailability.
type Table = [[Int; 8]; 8];

/// 000, table 6: 100 MW of DR, low.
const TABLE_6: Table = [
    [1, 15, 100, 85, 15, 0, 0, 0],
    [2, 12, 85, 73, 12, 0, 0, 0],
    [3, 20, 73, 53, 20, 0, 0, 0],
    [4, 40, 53, 13, 20, 0, 0, 0],
    [5, 30, 13, -2, 20, 15, 20, 1],
    [6, 4, -2, 6, 20, 12, 30, 1],
    [7, 5, 6, 21, 19, 20, 14, 0],
    [8, 1, 21, 40, 1, 20, 0, 0],
];

/// 000, table 8: 40 MW of DC, high.
const TABLE_8: Table = [
    [1, 0, 10, 10, 0, 0, 0, 0],
    [2, 1, 10, 9, 1, 0, 0, 0],
    [3, 8, 9, 1, 2, 0, 0, 0],
    [4, 2, 1, -1, 2, 0, 6, 1],
    [5, 0, -1, -1, 2, 0, 6, 1],
    [6, 0, -1, 0, 2, 1, 4, 1],
    [7, 0, 0, 2, 2, 2, 2, 1],
    [8, 0, 2, 4, 0, 2, 0, 0],
];

pub fn compare(runs: &mut Runs, tally: &mut Tally) {
    rates();
    report(tally);
    terms(tally);
    quantity(tally);
    payment(tally);
    table(&TABLE_6, Direction([0, 0, 100]), 1, tally);
    table(&TABLE_8, Direction([40, 0, 0]), 2, tally);
    containment_table();
    runs.add(energy(), tally);
    runs.add(responses_by_table(), tally);
    runs.add(ledger(), tally);
}

/// "A period has 3,600 readings"; "a block has 28,800 readings". 02, No. 1: "A period of 36,000 readings is to be accepted"; "a
/// block may then have 288,000 readings". No. 5: "The period sum is divided by 7,200,000, or 72,000,000 at 20 Hz."
fn rates() {
    printed(
        "period, divisor and block",
        [(3_600, 7_200_000, 28_800), (36_000, 72_000_000, 288_000)],
        RATES.map(|rate| (rate.period(), rate.divisor(), rate.block())),
    );
}

fn report(tally: &mut Tally) {
    let input = REPORT_INPUT.as_bytes();
    printed(
        "report",
        Ok(REPORT_OUTPUT),
        model::report(input, 488).as_deref(),
    );
    host::report(TOPIC, input, 488, tally);
    host::report(TOPIC, input, 489, tally);
    printed("report, room 487", &Err(14), &model::report(input, 487));
    host::report(TOPIC, input, 487, tally);
}

/// "Import limit 48,000 kW: 40 MW DM each way fits; 47,999 is refusal 2."
fn terms(tally: &mut Tally) {
    let fits = Terms {
        low: Direction([0, 40, 0]),
        high: Direction([0, 40, 0]),
        export_limit: 48_000,
        import_limit: 48_000,
    };
    printed("import limit 48,000", 0, host::terms(TOPIC, &fits, tally));
    let short = Terms {
        import_limit: 47_999,
        ..fits
    };
    printed("import limit 47,999", -2, host::terms(TOPIC, &short, tally));
}

/// The quantity of an available unit with energy for offers and for bids, and the zeros of 02, No. 6: "zero in the low direction
/// when the offer energy is zero, and in the high direction when the bid energy is zero"; "an unavailable unit also has quantity
/// zero". The other direction's energy changes nothing.
fn contracted(direction: u32, unit: &Unit, tally: &mut Tally) -> i64 {
    let mut with = |available: Int, own: Int, other: Int| {
        let (offer, bid) = match direction {
            1 => (own, other),
            _ => (other, own),
        };
        let unit = Unit {
            available,
            offer,
            bid,
            ..unit.clone()
        };
        host::quantity(TOPIC, direction, &unit, tally)
    };
    let quantity = with(1, 1, 1);
    printed(
        "energies at their limit",
        quantity,
        with(1, 10_000_000, 10_000_000),
    );
    printed("no energy for the other direction", quantity, with(1, 1, 0));
    printed("no energy", 0, with(1, 0, 1));
    printed("no energy for either", 0, with(1, 0, 0));
    printed("unavailable", 0, with(0, 1, 1));
    quantity
}

/// 003, appendix 2, in kW; the last room by paper 01: "room 170 gives 100. 003 prints 80, against its rule".
fn quantity(tally: &mut Tally) {
    let low = [(0, 0), (10_000, 9_000), (50_000, 25_000), (100_000, 40_000)];
    let high = [(0, 0), (30_000, 20_000), (100_000, 60_000)];
    // Direction, MIL, SIL, SEL, MEL, OL; room and quantity, all in MW.
    let examples = [
        (1, [0, 0, 0, 100, 50], 50, 25),
        (1, [0, 0, 0, 100, 70], 30, 17),
        (1, [-100, -10, 10, 100, -50], 40, 21),
        (1, [-100, 0, 0, 100, -50], 150, 55),
        (2, [0, 0, 10, 100, 40], 30, 20),
        (2, [-50, 0, 0, 50, 15], 65, 40),
        (2, [-50, -10, 10, 50, -26], 24, 16),
        (2, [-100, 0, 0, 100, 70], 170, 100),
    ];
    for (direction, levels, room, quantity) in examples {
        let levels = levels_of(levels.map(|mw: Int| mw * 1_000));
        let (found, points) = if direction == 1 {
            (levels.headroom(), low.to_vec())
        } else {
            (levels.footroom(), high.to_vec())
        };
        printed("room", room * 1_000, found);
        let found = contracted(direction, &unit_of(levels, points), tally);
        printed("quantity", quantity * 1_000, found);
    }
    // 003, appendix 1: the rooms that its text gives, at levels that lead to them (its figures are not in the text); SEL and
    // SIL are 0 in the first three, and the third has a footroom of "around 50MW".
    let rooms = [
        ([-50, 0, 0, 50, -20], 70, 30),
        ([-50, 0, 0, 50, 0], 50, 50),
        ([-20, 0, 0, 50, 30], 20, 50),
        ([-80, -30, 30, 70, 50], 20, 20),
        ([-60, -30, 30, 70, -30], 0, 30),
    ];
    for (levels, headroom, footroom) in rooms {
        let unit = unit_of(levels_of(levels), vec![(0, 0), (1, 1)]);
        let found = (contracted(1, &unit, tally), contracted(2, &unit, tally));
        printed("rooms", (headroom, footroom), found);
    }
}

/// MIL, SIL, SEL, MEL and OL.
/// 02, No. 8: "With price 500, K and F 1,000, and 10,000 kW for 1,800 seconds it is 2,500 pence; with adjustment price 1,000 and
/// K 900, 2,000." The first has any adjustment price. "An empty list pays 0."
fn payment(tally: &mut Tally) {
    let mut pays = |adjustment: Int, k: Int, pieces: &[(Int, Int)]| {
        let payment = Payment {
            price: 500,
            adjustment,
            k,
            f: 1_000,
            pieces: pieces.to_vec(),
        };
        host::payment(TOPIC, &payment, tally)
    };
    let piece = [(10_000, 1_800)];
    for adjustment in 0..=10_000 {
        printed("payment", Some(2_500), pays(adjustment, 1_000, &piece));
    }
    printed("payment, K 900", Some(2_000), pays(1_000, 900, &piece));
    printed("payment, no pieces", Some(0), pays(1_000, 900, &[]));
}

fn levels_of([mil, sil, sel, mel, ol]: [Int; 5]) -> Levels {
    Levels {
        mil,
        sil,
        sel,
        mel,
        ol,
    }
}

/// An available unit with energy and a limit that is not smaller than any capability.
fn unit_of(levels: Levels, points: Vec<(Int, Int)>) -> Unit {
    Unit {
        available: 1,
        offer: 1,
        bid: 1,
        levels,
        points,
        limit: 4_000_000,
    }
}

/// The rows of a table in kWh by the report, once with reported energies that just pass and once with a kWh less, where a start
/// is above 0.
fn table(table: &Table, direction: Direction, number: Int, tally: &mut Tally) {
    for less in [0, 1] {
        let (mut bounds, mut reported, mut rows) = ([0; 8], [0; 8], [[0; 9]; 8]);
        for (i, row) in table.iter().enumerate() {
            let [period, bound, start, end, sched, back, left, flag] = *row;
            let [bound, start, end, sched, back, left] =
                [bound, start, end, sched, back, left].map(|mwh| mwh * 1_000);
            bounds[i] = bound;
            reported[i] = (start - less).max(0);
            let verdict = Int::from(less == 0 || start <= 0);
            rows[i] = [period, bound, start, end, sched, back, left, flag, verdict];
        }
        let [dc, dm, dr] = direction.0;
        let mut input = format!("{number:9}{dc:9}{dm:9}{dr:9}\n");
        for i in 0..8 {
            input += &format!("{:9}{:9}\n", bounds[i], reported[i]);
        }
        let text = rows.iter().map(|row| model::row_text(row) + "\n").collect();
        printed("table", Ok(text), model::report(input.as_bytes(), 488));
        host::report(TOPIC, input.as_bytes(), 488, tally);
    }
}

/// "Regulation, 100 MW: 49,985 gives 0 kW; 49,984 gives 541; 49,800 gives 100,000." 02, No. 5: "A reading of 49,984 under 100 MW
/// of regulation gives 540,541 W, in place of 01's 541 kW": 541 kW are half as many kWh in half an hour. "All 3,600 at 49,984:
/// 271 kWh": 3,600 × 540,541 / 7,200,000 and 36,000 × 540,541 / 72,000,000 are 270.27, rounded up. The other energies follow from
/// the W.
fn energy() -> Script {
    for (deviation, watts) in [(15, 0), (16, 540_541), (200, 100_000_000)] {
        printed(
            "response",
            watts,
            model::response(100, &regulation(), deviation),
        );
    }
    let (dr, none) = (Direction([0, 0, 100]), Direction::default());
    let curves = [containment(), regulation(), regulation()];
    let mut script = Script::new(TOPIC);
    script.curves(&curves);
    let mut constant = |reading, line: &str| {
        for count in [3_600, 36_000] {
            script.read(reading, count);
            script.energy(&dr, &none);
            script.printed(line);
        }
    };
    constant(49_985, "energy 0 0 0");
    constant(49_984, "energy 0 271 0");
    constant(49_800, "energy 0 50000 0");
    constant(50_016, "energy 0 0 0");
    for count in [3_600, 36_000] {
        let [low, _] = model::energies_by_kilowatts(&dr, &none, &curves, &vec![49_984; count]);
        printed("01's 541 kW", 541, low.times(2).exact());
    }
    script
}

/// 02, No. 4: "a constant table of 501 numbers"; "entry 200 is 555,000"; "Energies by table equal those by interpolation for
/// every reading and quantity", by the responses to each.
fn containment_table() {
    let table = model::table();
    printed("numbers of the table", 501, table.len());
    printed("entry 200", 555_000, table[200]);
    for deviation in 0..=3_000 {
        for mw in 0..=1_000 {
            printed(
                "response by table",
                model::response(mw, &containment(), deviation),
                model::response_by_table(mw, deviation),
            );
        }
    }
}

/// The containment curve's points in W: 100 MW respond with 100,000 times the share. Past the last "500 serving for larger
/// deviations". At 16 mHz the share is 50 / 185: 37 MW respond with 37,000 × 50 / 185 = 10,000 W, 36 with 9,729.7 rounded up and
/// 38 with 10,270.3 rounded up.
fn responses_by_table() -> Script {
    let mut script = Script::new(TOPIC);
    for (mw, deviation, line) in [
        (100, 15, "respond 0"),
        (100, 200, "respond 5000000"),
        (100, 500, "respond 100000000"),
        (100, 501, "respond 100000000"),
        (100, 3_000, "respond 100000000"),
        (36, 16, "respond 9730"),
        (37, 16, "respond 10000"),
        (38, 16, "respond 10271"),
    ] {
        script.respond(mw, deviation);
        script.printed(line);
    }
    script
}

/// "100 MW DR: REV 100,000, ER 20,000. 40 MW DC: 10,000 and 2,000." "100 MW DR low only, size and state 100,000: p = 0
/// accepted, 1 and −1 refused."
fn ledger() -> Script {
    let (dr, dc) = (Direction([0, 0, 100]), Direction([40, 0, 0]));
    printed("100 MW DR", (100_000, 20_000), (dr.rev(), dr.er()));
    printed("40 MW DC", (10_000, 2_000), (dc.rev(), dc.er()));
    let mut script = Script::new(TOPIC);
    script.curves(&[containment(), regulation(), regulation()]);
    let terms = Terms {
        low: dr,
        high: Direction::default(),
        export_limit: 100_000,
        import_limit: 40_000,
    };
    script.open(&terms, 100_000, 100_000);
    script.printed("record 0 100000 100000 0 0 0 0 0 0 0 0 0 0 0");
    for (p, number) in [(0, 0), (1, 8), (-1, 8)] {
        script.check(p);
        printed("purchase", number, script.record.check(p));
    }
    script
}
