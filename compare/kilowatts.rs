//! The one comparison with 01's rule by kilowatts: the bounds that ledger_trace prints are those of 01 or below them. 02, No. 5:
//! "Small contracts lose too much when each reading is rounded up to a kilowatt"; "Bounds can only fall or stay."

use crate::host_cases::good_direction;
use crate::model::{Curve, Direction, Int, Rate, RATES};
use crate::random::Random;
use crate::tally::{printed, stop, Tally};
use crate::trace::{Runs, Script};
use crate::trace_cases::{
    beside, bring_to_multiples, good_curve, good_curves, good_readings, responses, watts, Weather,
    FEW_STEPS,
};

const TOPIC: &str = "by kilowatts";

/// Bounds worked out by hand. 1 MW of each service, with a W for each mHz, responds to a deviation of d with 3d W together, and
/// by kilowatts with 3 kW up to 1,000 mHz and with 6 kW from there to 2,000. Half of the readings have one deviation, half
/// another.
pub fn edges(runs: &mut Runs, tally: &mut Tally) {
    let (one, none) = (Direction([1, 1, 1]), Direction::default());
    for rate in RATES {
        let mut script = Script::new(TOPIC);
        script.curves(&[watts(), watts(), watts()]);
        for (deviations, bound, by_kilowatts) in [
            // 0 in both
            ([0, 0], 0, 0),
            // 0.0015 kWh, and 1.5
            ([1, 1], 1, 2),
            // 1.5 kWh in both
            ([1_000, 1_000], 2, 2),
            // 1.5015 kWh, and 3
            ([1_001, 1_001], 2, 3),
            // 3 kWh in both
            ([2_000, 2_000], 3, 3),
            // 0.99975 kWh, and 0.75 + 1.5
            ([1, 1_332], 1, 3),
            // 1.0005 kWh, and 0.75 + 1.5
            ([1, 1_333], 2, 3),
        ] {
            for (side, low, high) in [(-1, &one, &none), (1, &none, &one)] {
                for deviation in deviations {
                    script.read(beside(side, deviation), rate.period() / 2);
                }
                let found = script.energy_and_kilowatts(low, high);
                let expected = [(bound, by_kilowatts), (0, 0)];
                let [first, second] = if side < 0 { [0, 1] } else { [1, 0] };
                printed("bounds", expected, [found[first], found[second]]);
            }
        }
        runs.add(script, tally);
    }
}

/// Any contracts and readings, some with sums at a multiple of the divisor.
pub fn any(random: &mut Random) -> Script {
    let mut script = Script::new(TOPIC);
    for rate in RATES {
        let curves = good_curves(random);
        let (low, high) = (good_direction(random), good_direction(random));
        let mut readings = good_readings(random, Weather::Any, &curves, rate, FEW_STEPS);
        if random.once_in(2) {
            bring_to_multiples(random, [&low, &high], &curves, rate, &mut readings);
        }
        script.curves(&curves);
        script.read_all(&readings);
        script.energy_and_kilowatts(&low, &high);
    }
    script
}

/// 1 to 3 MW of each service, with readings of any kind, and with such that the rounding to kilowatts adds most to.
pub fn small(random: &mut Random) -> Script {
    let mut script = Script::new(TOPIC);
    for rate in RATES {
        let curves = if random.once_in(2) {
            let curve = good_curve(random);
            [curve.clone(), curve.clone(), curve]
        } else {
            good_curves(random)
        };
        script.curves(&curves);
        let [low, high] = [(); 2].map(|()| Direction([(); 3].map(|()| random.between(1, 3))));
        script.read_all(&good_readings(
            random,
            Weather::Any,
            &curves,
            rate,
            FEW_STEPS,
        ));
        script.energy_and_kilowatts(&low, &high);
        for (side, direction) in [(-1, &low), (1, &high)] {
            let most = most_added(direction, &curves);
            let mut held = 0;
            while held < rate.period() {
                let run = (1 + random.below(rate.period() / 4)).min(rate.period() - held);
                script.read(beside(side, random.pick(&most)), run);
                held += run;
            }
            script.energy_and_kilowatts(&low, &high);
        }
    }
    script
}

/// The deviations at which the rounding of each service's response to kilowatts adds most, or nearly.
fn most_added(direction: &Direction, curves: &[Curve; 3]) -> Vec<Int> {
    let services = [0, 1, 2].map(|s| {
        let mut alone = Direction::default();
        alone.0[s] = direction.0[s];
        responses(&alone, curves)
    });
    let added = |d: Int| -> Int {
        let service = |watts: &Vec<Int>| (-watts[d as usize]).rem_euclid(1_000);
        services.iter().map(service).sum()
    };
    let most = (0..=3_000).map(added).max().unwrap_or(0);
    (0..=3_000).filter(|&d| 5 * added(d) >= 4 * most).collect()
}

/// Stops where bounds of one of the rates and directions do not all stay, fall by 1 and fall by 2 kWh.
pub fn all_reached(tally: &Tally) {
    for count in RATES.map(Rate::period) {
        for direction in ["low", "high"] {
            for by in 0..=2 {
                if tally.fell(count, direction, by) == 0 {
                    let case =
                        format!("{count} readings, {direction}: a bound {by} kWh below 01's");
                    stop(TOPIC, b"", &case, "never reached");
                }
            }
        }
    }
}
