//! Small exact examples of the rule.

use super::*;

fn state(vertices: &[(f64, &[f64])]) -> State {
    let vertices = vertices.iter().map(|&(cost, at)| Vertex { cost, at: at.to_vec() }).collect();
    State { vertices, iterations: 0, stopped: false }
}

fn listed(state: &State) -> Vec<(f64, Vec<f64>)> {
    state.vertices.iter().map(|v| (v.cost, v.at.clone())).collect()
}

fn square(at: &[f64]) -> f64 {
    at[0] * at[0] + at[1] * at[1]
}

/// The best at 0, the worst at 1: r is -1, e -2, the outer point -0.5, the inner one 0.5, and what shrinks goes to 0.5.
fn line(best: f64, worst: f64) -> State {
    state(&[(best, &[0.0]), (worst, &[1.0])])
}

/// One iteration over a cost that knows these points alone: what it did, and the two vertices.
fn iterated(mut state: State, known: &[(f64, f64)]) -> (Move, Vec<(f64, Vec<f64>)>) {
    let mut cost = |at: &[f64]| known.iter().find(|(x, _)| *x == at[0]).unwrap_or_else(|| panic!("{} is asked", at[0])).1;
    let how = state.turn(10, &mut cost).expect("an iteration");
    assert_eq!((state.iterations, state.stopped), (1, false));
    (how, listed(&state))
}

#[test]
fn a_square_in_two_coordinates_by_hand() {
    let mut run = State::first(&[1.0, 1.0], square);
    assert_eq!(listed(&run), [(2.0, vec![1.0, 1.0]), (3.25, vec![1.5, 1.0]), (3.25, vec![1.0, 1.5])]);
    // the later of the two that tie is the worst; c = (1.25, 1)
    assert_eq!(run.turn(1000, &mut square), Some(Move::Reflected));
    assert_eq!(listed(&run), [(2.0, vec![1.0, 1.0]), (3.25, vec![1.5, 1.0]), (2.5, vec![1.5, 0.5])]);
    // c = (1.25, 0.75), r = (1, 0.5) costs 1.25
    assert_eq!(run.turn(1000, &mut square), Some(Move::Expanded));
    assert_eq!(listed(&run), [(2.0, vec![1.0, 1.0]), (2.5, vec![1.5, 0.5]), (0.625, vec![0.75, 0.25])]);
    // c = (0.875, 0.625), and r costs as much as the best
    assert_eq!(run.turn(1000, &mut square), Some(Move::Reflected));
    assert_eq!(listed(&run), [(0.625, vec![0.75, 0.25]), (2.0, vec![1.0, 1.0]), (0.625, vec![0.25, 0.75])]);
    // c = (0.5, 0.5), e = (-0.5, -0.5) costs 0.5
    assert_eq!(run.turn(1000, &mut square), Some(Move::NotExpanded));
    assert_eq!(listed(&run), [(0.625, vec![0.75, 0.25]), (0.625, vec![0.25, 0.75]), (0.0, vec![0.0, 0.0])]);
    assert_eq!((run.iterations, run.stopped, run.best()), (4, false, 2));
}

#[test]
fn the_start_is_costed_before_its_vertices() {
    let mut asked = vec![];
    State::first(&[1.0, 2.0, 3.0], |at| {
        asked.push(at.to_vec());
        0.0
    });
    assert_eq!(asked, [[1.0, 2.0, 3.0], [1.5, 2.0, 3.0], [1.0, 2.5, 3.0], [1.0, 2.0, 3.5]]);
}

#[test]
fn reflection_and_expansion() {
    assert_eq!(iterated(line(1.0, 3.0), &[(-1.0, 0.5), (-2.0, 0.25)]), (Move::Expanded, vec![(1.0, vec![0.0]), (0.25, vec![-2.0])]));
    assert_eq!(iterated(line(1.0, 3.0), &[(-1.0, 0.5), (-2.0, 0.5)]), (Move::NotExpanded, vec![(1.0, vec![0.0]), (0.5, vec![-1.0])]));
    assert_eq!(iterated(line(1.0, 3.0), &[(-1.0, 0.5), (-2.0, 0.75)]), (Move::NotExpanded, vec![(1.0, vec![0.0]), (0.5, vec![-1.0])]));
}

#[test]
fn the_outer_point_is_taken_at_equality() {
    assert_eq!(iterated(line(1.0, 3.0), &[(-1.0, 2.0), (-0.5, 2.0)]), (Move::Outer, vec![(1.0, vec![0.0]), (2.0, vec![-0.5])]));
    // r ties with the best, which is the second worst too
    assert_eq!(iterated(line(1.0, 3.0), &[(-1.0, 1.0), (-0.5, 1.0)]), (Move::Outer, vec![(1.0, vec![0.0]), (1.0, vec![-0.5])]));
}

#[test]
fn a_dearer_outer_point_shrinks_and_r_is_not_taken() {
    let known = [(-1.0, 2.0), (-0.5, 2.5), (0.5, 9.0)];
    assert_eq!(iterated(line(1.0, 3.0), &known), (Move::ShrunkOuter, vec![(1.0, vec![0.0]), (9.0, vec![0.5])]));
}

#[test]
fn the_inner_point_is_taken_only_when_cheaper() {
    assert_eq!(iterated(line(1.0, 3.0), &[(-1.0, 3.0), (0.5, 2.5)]), (Move::Inner, vec![(1.0, vec![0.0]), (2.5, vec![0.5])]));
    assert_eq!(iterated(line(1.0, 3.0), &[(-1.0, 3.0), (0.5, 3.0)]), (Move::ShrunkInner, vec![(1.0, vec![0.0]), (3.0, vec![0.5])]));
    // compared with w, not with r
    assert_eq!(iterated(line(1.0, 3.0), &[(-1.0, 8.0), (0.5, 4.0)]), (Move::ShrunkInner, vec![(1.0, vec![0.0]), (4.0, vec![0.5])]));
}

#[test]
fn a_shrink_keeps_the_places_of_the_ordered_list() {
    let mut run = state(&[(5.0, &[4.0, 0.0]), (1.0, &[0.0, 0.0]), (3.0, &[0.0, 8.0])]);
    assert_eq!(run.turn(9, &mut |_: &[f64]| 7.0), Some(Move::ShrunkInner));
    assert_eq!(listed(&run), [(1.0, vec![0.0, 0.0]), (7.0, vec![0.0, 4.0]), (7.0, vec![2.0, 0.0])]);
}

#[test]
fn ties_keep_their_order_and_zeros_tie() {
    let mut run = state(&[(2.0, &[1.0]), (0.0, &[2.0]), (2.0, &[3.0]), (-0.0, &[4.0]), (1.0, &[5.0]), (0.0, &[6.0])]);
    run.order();
    assert_eq!(run.vertices.iter().map(|v| v.at[0]).collect::<Vec<_>>(), [2.0, 4.0, 6.0, 5.0, 1.0, 3.0]);
    assert_eq!((run.best(), state(&[(-0.0, &[1.0]), (0.0, &[2.0])]).best(), state(&[(3.0, &[1.0]), (2.0, &[2.0])]).best()), (0, 0, 1));
}

#[test]
fn a_sum_begins_at_its_first_term() {
    let run = state(&[(1.0, &[-0.0, 0.1]), (1.0, &[-0.0, 0.2]), (2.0, &[0.0, 0.0])]);
    let c = run.centroid();
    assert_eq!((c[0].to_bits(), c[1]), ((-0.0f64).to_bits(), (0.1 + 0.2) / 2.0));
    assert_eq!(state(&[(-0.0, &[1.0]), (-0.0, &[2.0])]).deviation().to_bits(), 0);
    assert_eq!(state(&[(1.0, &[1.0]), (2.0, &[2.0]), (6.0, &[2.0])]).deviation(), 14.0 / 3.0);
}

#[test]
fn the_test_comes_before_the_iteration_and_is_not_counted() {
    let mut run = state(&[(4.0, &[1.0]), (3.99999, &[2.0])]);
    run.turns(5, 1000, |_| panic!("no point is asked"));
    assert_eq!((run.stopped, run.iterations, run.converged(), run.capped(1000)), (true, 0, true, false));
    assert_eq!(listed(&run), [(3.99999, vec![2.0]), (4.0, vec![1.0])]);
    let mut apart = state(&[(4.0, &[1.0]), (3.9997, &[2.0])]);
    assert!(apart.turn(1000, &mut |_: &[f64]| 4.0).is_some());
}

#[test]
fn a_run_that_stops_at_no_cost_has_not_converged() {
    for cost in [0.0, -0.0, -1.0] {
        let mut run = state(&[(cost, &[1.0]), (cost, &[2.0])]);
        run.turns(1, 1000, |_| panic!("no point is asked"));
        assert_eq!((run.stopped, run.converged(), run.capped(1000)), (true, false, false));
    }
}

#[test]
fn infinite_costs_never_stop_a_run() {
    let mut run = State::first(&[1.0, 2.0], |_| f64::INFINITY);
    assert!(run.deviation().is_nan());
    assert_eq!(run.turn(1000, &mut |_: &[f64]| f64::INFINITY), Some(Move::ShrunkInner));
    assert_eq!(run.vertices[1].at, [1.25, 2.0]);
    run.turns(u64::MAX, 1000, |_| f64::INFINITY);
    assert_eq!((run.stopped, run.iterations, run.converged(), run.capped(1000)), (false, 1000, false, true));
    assert!(run.vertices.iter().all(|v| v.at == [1.0, 2.0]));
    let mut one = state(&[(f64::INFINITY, &[0.0]), (5.0, &[1.0])]);
    assert!(one.turn(1000, &mut |_: &[f64]| 6.0) == Some(Move::Outer));
    assert_eq!(listed(&one), [(5.0, vec![1.0]), (6.0, vec![1.5])]);
}

#[test]
fn the_cap_ends_a_run_untested() {
    let mut run = State { iterations: 999, ..state(&[(1.0, &[0.0]), (3.0, &[1.0])]) };
    run.turns(7, 1000, |_| 1.0);
    assert_eq!((run.iterations, run.stopped, run.capped(1000), run.deviation()), (1000, false, true, 0.0));
    let before = run.clone();
    run.turns(7, 1000, |_| panic!("no point is asked"));
    assert_eq!(run, before);
    // not yet at the cap of a shelf: the next turn tests
    run.turns(7, 2000, |_| panic!("no point is asked"));
    assert_eq!((run.iterations, run.stopped, run.converged()), (1000, true, true));
    assert_eq!((cap(false), cap(true)), (1000, 2000));
}

#[test]
fn a_limit_alone_is_neither_an_end_nor_a_test() {
    let mut run = state(&[(1.0, &[0.0]), (3.0, &[1.0])]);
    run.turns(0, 1000, |_| panic!("no point is asked"));
    assert_eq!(run, state(&[(1.0, &[0.0]), (3.0, &[1.0])]));
    run.turns(1, 1000, |_| 1.0);
    assert_eq!((run.iterations, run.stopped, run.converged(), run.capped(1000), run.deviation()), (1, false, false, false, 0.0));
}

/// Every cut of a run, and every two turns of it, one by one: the same bits.
#[test]
fn parts_make_the_whole() {
    let banana = |at: &[f64]| 100.0 * (at[1] - at[0] * at[0]) * (at[1] - at[0] * at[0]) + (1.0 - at[0]) * (1.0 - at[0]) + 1.0;
    let mut whole = State::first(&[-1.2, 1.0], banana);
    whole.turns(u64::MAX, 1000, banana);
    assert!(whole.converged() && whole.iterations > 40, "{whole:?}");
    for n in 0..whole.iterations + 3 {
        for m in [1, 2, u64::MAX] {
            let mut run = State::first(&[-1.2, 1.0], banana);
            run.turns(n, 1000, banana);
            assert!(run.stopped == (n > whole.iterations) && run.iterations == n.min(whole.iterations));
            while !run.stopped {
                run.turns(m, 1000, banana);
            }
            assert_eq!(run, whole);
        }
    }
}
