//! A sample's runs by the port's own search, through its C interface, from its own starts or from starts moved a little.

use crate::calls::lent::{Lent, Report, Slice};
use crate::calls::port::{begin, go_on, report};
use crate::layer3::Problem;
use crate::sample::{Sample, CONFIGURATIONS};
use crate::simplex::Run;
use crate::{port, prepared, rules, searching};

/// The starts of one configuration, one behind the other.
pub fn starts(s: &Sample, families: (u8, u8)) -> Vec<f64> {
    let share = port::empirical_shelf_share(&s.bins, 1.0, s.valley, s.peak);
    let search = s.search(families, share.value);
    let mut out = search.out.clone();
    let written = port::fit_starts(&search, &mut out);
    assert!(share.number == 0 && written.number == 0 && written.items == out.len(), "the port refuses the starts");
    out
}

fn zeros(n: usize) -> Slice<f64> {
    Slice::of(&vec![0.0; n])
}

/// Each start's run to its end, all in one call after their beginning; the problem's list has the starts.
pub fn runs(p: &Problem) -> Vec<Run> {
    let length = rules::list_length(p.weibull(), p.with_shelf());
    let (n, width, end) = (p.theta.len() / length, length + 1, p.window_end);
    let (wholes, flags) = (Slice::of(&vec![0u64; n]), Slice::of(&vec![0u8; n]));
    let (simplexes, ready, table) = (zeros(n * width * width), zeros(prepared::entries(end) as usize), zeros(end as usize + 1));
    let mut lent = Lent { simplexes, iterations: wholes.clone(), stopped: flags.clone(), ready, table };
    let (places, lengths) = (wholes.clone(), wholes);
    let mut told = Report { converged: flags.clone(), costs: zeros(n), places, lengths, caps: flags };
    let begun = begin(p, &mut lent);
    let gone_on = go_on(p, n as u64, u64::MAX, &mut lent);
    let reported = report((p.error, p.genome), n as u64, &lent, &mut told);
    for written in [begun, gone_on, reported] {
        assert!(written.number == 0 && written.items == n, "the port refuses the search");
    }
    let run = |i: usize| {
        let list = lent.simplexes[told.places[i] as usize..][..told.lengths[i] as usize].to_vec();
        let (converged, capped) = (told.converged[i] != 0, told.caps[i] != 0);
        Run { converged, cost: told.costs[i], list, iterations: lent.iterations[i], capped }
    };
    (0..n).map(run).collect()
}

/// A run from each start of each configuration.
pub fn moved(s: &Sample, way: u64) -> Vec<Vec<Run>> {
    let lists = |f: (u8, u8)| starts(s, f).chunks_exact(rules::list_length(f.0 == 0, f.1 != 0)).map(<[f64]>::to_vec).collect();
    let starts = searching::moved(CONFIGURATIONS.map(lists), way);
    let search = |(&f, starts): (&(u8, u8), &Vec<Vec<f64>>)| runs(&Problem { theta: starts.concat(), ..s.problem(f) });
    CONFIGURATIONS.iter().zip(&starts).map(search).collect()
}
