//! The worked examples of `docs/RULES.md` and `docs/REFUSALS.md`.

use model::choosing::{balanced, slack, Choosing, Share};
use model::cores::{self, Cores};
use model::fitting::Fitting;
use model::ledger::Ledger;
use model::load::Load;
use model::plan::Plan;
use model::refusal::Refusal;
use model::run::Run;
use model::table::{printed, Answer, Call, Question};
use model::tables::DEEP;

fn load(cores: u32, unit: u32, frames: u32, rates: &[u16]) -> Load {
    Load { cores, unit, frames, rates: rates.to_vec() }
}

fn share((left, rate, deadline): (u32, u16, u32)) -> Share {
    Share { left, rate, deadline }
}

fn server_rates(plan: &Plan) -> Vec<Vec<u16>> {
    plan.levels.iter().map(|level| level.rates()).collect()
}

#[test]
fn idle_tasks_fill_the_cores() {
    assert_eq!(load(2, 10, 1, &[4]).idle(), [10, 6]);
    assert_eq!(load(2, 10, 1, &[10, 10]).idle(), []);
}

#[test]
fn fitting_rules() {
    let used = [5, 6, 3];
    assert_eq!(Fitting::First.fit(&used, 10, 4), Some(0));
    assert_eq!(Fitting::Best.fit(&used, 10, 4), Some(1));
    assert_eq!(Fitting::Worst.fit(&used, 10, 4), Some(2));
    for rule in Fitting::ALL {
        assert_eq!(rule.fit(&used, 10, 8), None);
        assert_eq!(rule.fit(&[5, 5], 10, 5), Some(0), "the first of equals");
        assert_eq!(rule.fit(&[65_535, 65_535], 65_535, 65_535), None);
    }
}

#[test]
fn plan_of_three_tasks() {
    for rule in Fitting::ALL {
        let plan = Plan::make(rule, 3, &[2, 2, 2]);
        assert_eq!(server_rates(&plan), [vec![2, 2, 2], vec![3]]);
        assert_eq!(plan.reductions(), 1);
    }
}

#[test]
fn plan_of_eleven_tasks() {
    let plan = Plan::make(Fitting::First, 11, &[7; 11]);
    let expected = [vec![7; 11], vec![8, 8, 8, 8, 8, 4], vec![9, 6, 7], vec![11]];
    assert_eq!(server_rates(&plan), expected);
    assert_eq!(plan.reductions(), 3);
    assert_eq!(plan.climb(4), [4, 2, 0, 0]);
}

#[test]
fn plan_of_five_tasks() {
    let plan = Plan::make(Fitting::First, 5, &[2; 5]);
    assert_eq!(server_rates(&plan), [vec![4, 4, 2], vec![5]]);
    assert_eq!(plan.reductions(), 1);
}

#[test]
fn plan_with_four_reductions() {
    let plan = Plan::make(Fitting::Worst, 100, &load(12, 100, 1, &DEEP).all_rates());
    assert_eq!(plan.reductions(), 4);
    assert_eq!(plan.levels.iter().map(|level| level.servers.len()).collect::<Vec<_>>(), [18, 9, 5, 3, 1]);
}

#[test]
fn balance_and_choice() {
    let server = share((5, 5, 1));
    let clients = [(1, 1, 1), (8, 4, 2)].map(share);
    assert!(balanced(&server, &clients));
    assert_eq!(Choosing::Earliest.choose(&server, &clients), Some(0));
    assert_eq!(clients.map(|client| slack(&server, &client)), [4, 2]);
    assert_eq!(Choosing::Slack.choose(&server, &clients), Some(1));
    assert!(balanced(&share((4, 5, 1)), &[(0, 1, 1), (8, 4, 2)].map(share)));
    assert!(balanced(&share((4, 5, 1)), &[(1, 1, 1), (7, 4, 2)].map(share)));
}

#[test]
fn fixed_priority_breaks_the_law() {
    assert!(balanced(&share((6, 5, 2)), &[(2, 2, 3), (6, 3, 2)].map(share)));
    assert!(!balanced(&share((5, 5, 2)), &[(1, 2, 3), (6, 3, 2)].map(share)));
}

#[test]
fn choosing_at_the_edges() {
    let server = share((u32::MAX, u16::MAX, u32::MAX));
    for rule in Choosing::ALL {
        assert_eq!(rule.choose(&server, &[]), None);
        assert_eq!(rule.choose(&server, &[(0, 1, 1), (0, 9, 0)].map(share)), None);
        assert_eq!(rule.choose(&server, &[share((1, 1, 1)); 80]), Some(0));
        assert_eq!(rule.choose(&server, &[share((1, 1, 1)); 81]), None);
    }
    // Slacks may be negative.
    let clients = [(1, 1, 1), (u32::MAX, 1, 0)].map(share);
    assert_eq!(Choosing::Slack.choose(&share((0, u16::MAX, u32::MAX)), &clients), Some(1));
}

/// The run of three tasks, announced as in the examples, with what each tick is to do.
#[test]
fn three_tasks_tick_by_tick() {
    let mut run = Run::open(load(2, 3, 2, &[2, 2, 2]), Fitting::First, Choosing::Earliest).unwrap();
    for (task, deadline) in [(0, 1), (1, 2), (2, 2)] {
        run.announce(task, deadline).unwrap();
    }
    let lefts = |run: &Run| -> Vec<u32> { run.tasks().iter().map(|task| task.left).collect() };
    assert_eq!(lefts(&run), [2, 4, 4]);
    let ticks: [([u8; 2], [u32; 3]); 6] = [
        ([1, 2], [2, 3, 3]),
        ([0, 2], [1, 3, 2]),
        ([0, 2], [0, 3, 1]),
        ([1, 2], [2, 2, 0]),
        ([0, 1], [1, 1, 0]),
        ([0, 1], [0, 0, 0]),
    ];
    for (tick, (named, left)) in ticks.into_iter().enumerate() {
        if tick == 3 {
            run.announce(0, 2).unwrap();
        }
        let mut list = [255; 2];
        run.tick(&mut list).unwrap();
        list.sort_unstable();
        assert_eq!(list, named, "tick {tick}");
        assert_eq!(lefts(&run), left, "tick {tick}");
        // What servers took at a frame start, less what the tick spent.
        let after = |level, server| run.server(level, server);
        if tick == 0 {
            assert_eq!(after(0, 0), (share((2, 2, 1)), share((0, 1, 1))));
            assert_eq!(after(0, 1), (share((3, 2, 2)), share((2, 1, 2))));
            assert_eq!(after(1, 0).0, share((2, 3, 1)));
        }
        if tick == 3 {
            assert_eq!(after(0, 0), (share((2, 2, 2)), share((0, 1, 2))));
            assert_eq!(after(1, 0).0, share((2, 3, 2)));
        }
    }
    assert!(run.is_over());
    assert_eq!((run.ask_preemptions(), run.ask_jobs(), run.ask_reductions()), (1, 4, 1));
}

#[test]
fn ledger_of_three_tasks() {
    let load = load(2, 3, 2, &[2, 2, 2]);
    let mut run = Run::open(load.clone(), Fitting::First, Choosing::Earliest).unwrap();
    let mut ledger = Ledger::new(load, true);
    let mut calls: Vec<Call> = [(0, 1), (1, 2), (2, 2)].map(|(task, due)| Call::Announce(task, due)).to_vec();
    calls.extend([Call::Tick(2), Call::Tick(2), Call::Tick(2), Call::Announce(0, 2)]);
    calls.extend([Call::Tick(2), Call::Tick(2), Call::Tick(2), Call::Ask(Question::Preemptions)]);
    for call in &calls {
        let answer = match *call {
            Call::Announce(task, due) => run.announce(task, due).into(),
            Call::Tick(_) => {
                let mut list = vec![255; 2];
                run.tick(&mut list).unwrap();
                Answer::Cores(list)
            }
            _ => Answer::Number(run.ask_preemptions()),
        };
        assert_eq!(ledger.post(call, &answer), Ok(()));
    }
    assert_eq!(ledger.check_jobs(), Ok(()));
    let jobs: Vec<(usize, u32, u32, Vec<u32>)> =
        ledger.jobs.iter().map(|job| (job.task, job.release, job.deadline, job.held.clone())).collect();
    let expected =
        [(0, 0, 1, vec![1, 2]), (1, 0, 2, vec![0, 3, 4, 5]), (2, 0, 2, vec![0, 1, 2, 3]), (0, 1, 2, vec![4, 5])];
    assert_eq!(jobs, expected);
    assert_eq!((ledger.time, ledger.preemptions), (6, 1));
}

/// A run that gives the first tick to the idle task conforms, although earliest deadline names the other.
#[test]
fn the_ledger_does_not_know_the_rules() {
    let load = load(1, 2, 1, &[1]);
    let mut ledger = Ledger::new(load.clone(), true);
    assert_eq!(ledger.post(&Call::Announce(0, 1), &Answer::Granted), Ok(()));
    assert_eq!(ledger.post(&Call::Tick(1), &Answer::Cores(vec![1])), Ok(()));
    assert_eq!(ledger.post(&Call::Tick(1), &Answer::Cores(vec![0])), Ok(()));
    assert_eq!(ledger.check_jobs(), Ok(()));
    let mut run = Run::open(load, Fitting::First, Choosing::Earliest).unwrap();
    run.announce(0, 1).unwrap();
    let mut list = [255];
    run.tick(&mut list).unwrap();
    assert_eq!(list, [0]);
}

#[test]
fn the_ledger_tells_what_is_wrong() {
    let fresh = || {
        let mut ledger = Ledger::new(load(1, 2, 1, &[1]), true);
        ledger.post(&Call::Announce(0, 1), &Answer::Granted).unwrap();
        ledger
    };
    let tick = Call::Tick(1);
    assert!(fresh().post(&tick, &Answer::Cores(vec![2])).is_err(), "no such task");
    assert!(fresh().post(&tick, &Answer::Granted).is_err(), "no list");
    assert!(fresh().post(&Call::Ask(Question::Left(0)), &Answer::Number(2)).is_err(), "left is 1");
    let mut twice = fresh();
    twice.post(&tick, &Answer::Cores(vec![0])).unwrap();
    assert!(twice.post(&tick, &Answer::Cores(vec![0])).is_err(), "nothing left");
}

#[test]
fn tasks_on_cores() {
    let mut cores = Cores::new(3);
    let ticks: [([usize; 3], [u8; 3]); 5] = [
        ([0, 1, 2], [0, 1, 2]),
        ([1, 2, 4], [4, 1, 2]),
        ([0, 2, 4], [4, 0, 2]),
        ([0, 1, 3], [1, 0, 3]),
        ([2, 3, 4], [4, 2, 3]),
    ];
    for (named, expected) in ticks {
        let mut list = [255; 4];
        cores::write(cores.place(&named), &mut list);
        assert_eq!(list, [expected[0], expected[1], expected[2], 255]);
    }
}

#[test]
fn one_preemption() {
    // Of the tasks 0, 2, 4 named before, 0 and 4 have left; now 0, 1, 3 are named.
    assert_eq!(cores::preemptions(&[0, 4], &[0, 1, 3]), 1);
}

#[test]
fn whatever_is_named_is_placed() {
    let mut cores = Cores::new(40);
    assert_eq!(cores.place(&[]).len(), 16);
    let mut cores = Cores::new(2);
    assert_eq!(cores.place(&[80, 7, 7, 3, 9, 1_000]), [Some(3), Some(7)]);
    let mut short = [255];
    cores::write(cores.place(&[7]), &mut short);
    assert_eq!(short, [255], "task 7 is on core 1, for which there is no entry");
}

#[test]
fn loads_that_are_refused() {
    let told = |cores, unit, frames, rates: &[u16]| load(cores, unit, frames, rates).check();
    assert_eq!(told(2, 3, 1, &[3, 3]), Ok(()));
    assert_eq!(told(2, 3, 1, &[3, 3, 1]), Err(Refusal::Overload));
    assert_eq!(told(2, 3, 1, &[3, 0, 4]), Err(Refusal::BadRate(1)));
    assert_eq!(told(0, 0, 0, &[]), Err(Refusal::BadCores));
    assert_eq!(told(2, 3, 0, &[3, 3]), Err(Refusal::BadFrames));
    assert_eq!(told(16, 1_000, 65_535, &[1; 64]), Ok(()));
    assert_eq!(told(16, 1_000, 65_535, &[1; 65]), Err(Refusal::BadTaskCount));
    assert_eq!(told(17, 0, 0, &[]), Err(Refusal::BadCores));
    assert_eq!(told(1, 1_001, 0, &[]), Err(Refusal::BadUnit));
    assert_eq!(told(1, 1, 65_536, &[]), Err(Refusal::BadFrames));
}

/// Each line of a table with its answer.
fn check_table(lines: &[&str]) {
    let calls: Vec<&str> = lines.iter().map(|line| line.rsplit_once(' ').unwrap().0).collect();
    let out = printed((calls.join("\n") + "\n").as_bytes());
    assert_eq!(String::from_utf8(out).unwrap(), lines.join("\n") + "\n");
}

#[test]
fn calls_that_are_refused() {
    check_table(&[
        "ask,left,0 no,12",
        "ask,tick 0",
        "announce,0,1 no,11",
        "tick,20 no,11",
        "open,first,earliest,2,3,2,2,2,2 ok",
        "tick,2 no,22,0",
        "announce,0,0 no,14",
        "announce,0,3 no,15",
        "announce,0,1 ok",
        "announce,0,2 no,13",
        "announce,3,1 no,12",
        "ask,left,3 no,12",
        "tick,1 no,21",
        "open,first,earliest,2,3,2,0 no,5,0",
        "tick,2 no,22,1",
        "announce,1,2 ok",
        "announce,2,2 ok",
        "tick,2 1,2",
        "tick,2 0,2",
        "tick,2 0,2",
        "ask,awaited,0 true",
        "ask,preemptions 1",
        "announce,0,2 ok",
        "tick,2 1,2",
        "tick,2 1,0",
        "tick,3 1,0,255",
        "ask,awaited,0 false",
        "announce,9,9 no,11",
        "ask,left,9 no,12",
        "ask,jobs 4",
        "tick,1 no,11",
    ]);
}

#[test]
fn table_of_the_example() {
    check_table(&[
        "open,first,earliest,2,3,1,2,2,2 ok",
        "announce,0,1 ok",
        "announce,1,1 ok",
        "announce,2,1 ok",
        "tick,3 1,2,255",
        "ask,left,1 1",
        "ask,left,3 no,12",
        "tick,21 ?",
        " ?",
        "ask,left,4294967296 ?",
        "ask,left,4294967295 no,12",
        "open,first,slack,1,1,1,65536 ?",
        "ask,tick 1",
        "open,first,slack,0,1,1,65535 no,1",
        "ask,tick 0",
        "tick,0 no,11",
    ]);
}
