//! What holds of every run, tried on random tables of calls.

use model::choosing::{Choosing, Share};
use model::fitting::Fitting;
use model::ledger::Ledger;
use model::plan::Plan;
use model::random::Random;
use model::table::{Answer, Call, Question, Trials};
use model::tables;

/// The ledger of each choosing rule's run, and the core lists that its ticks gave.
#[derive(Default)]
struct Watch {
    ledger: Option<Ledger>,
    lists: Vec<Vec<u8>>,
}

/// What was seen in some tables.
#[derive(Default)]
struct Seen {
    runs: u32,
    over: u32,
    ticks: u32,
    reductions: [u32; 5],
}

/// Tasks that stay keep their cores; who comes back to another core found its last one taken by a task that stayed
/// or came back before it.
fn check_cores(lists: &[Vec<u8>], cores: usize) {
    let [.., before, now] = lists else { return };
    for (core, &task) in now[..cores].iter().enumerate() {
        let last = lists[..lists.len() - 1].iter().rev().find_map(|list| list[..cores].iter().position(|&t| t == task));
        let stays = before[..cores].contains(&task);
        assert!(!stays || last == Some(core), "task {task} stays on its core");
        if let Some(last) = last.filter(|&last| last != core) {
            let taker = now[last];
            let taker_stays = before[last] == taker;
            assert!(taker_stays || taker < task, "task {task} could come back to core {last}");
        }
    }
}

fn watch_call(watch: &mut Watch, call: &Call, answer: &Answer, trials: &Trials, seen: &mut Seen) {
    let run = trials.run();
    if let (Call::Open(_, choosing, load), Answer::Granted) = (call, answer) {
        let mut ledger = Ledger::new(load.clone(), *choosing == Choosing::Earliest);
        let reductions = run.ask_reductions();
        ledger.post(&Call::Ask(Question::Reductions), &Answer::Number(reductions)).unwrap();
        *watch = Watch { ledger: Some(ledger), lists: Vec::new() };
        seen.runs += 1;
        seen.reductions[reductions as usize] += 1;
        return;
    }
    let Some(ledger) = &mut watch.ledger else { return };
    if matches!(call, Call::Open(..)) {
        return;
    }
    ledger.post(call, answer).unwrap();
    if let Answer::Cores(list) = answer {
        watch.lists.push(list.clone());
        check_cores(&watch.lists, run.load().cores as usize);
        assert!(run.is_balanced());
        seen.ticks += 1;
        if ledger.time % run.load().unit == 0 {
            ledger.check_jobs().unwrap();
        }
        if run.is_over() {
            seen.over += 1;
            assert!(run.tasks().iter().all(|task| task.left == 0));
        }
    }
}

/// Whether every law is kept in one table.
fn watch_table(seed: u64, place: u64, seen: &mut Seen) {
    let table = tables::table(seed, place);
    let mut trials = Trials::default();
    let mut watches = [Watch::default(), Watch::default()];
    let mut present = 0;
    for line in table.split(|&byte| byte == b'\n') {
        let Some(call) = Call::read(line) else { continue };
        if let Call::Open(_, choosing, _) = &call {
            present = usize::from(*choosing == Choosing::Slack);
        }
        let answer = trials.call(call.clone());
        watch_call(&mut watches[present], &call, &answer, &trials, seen);
    }
    for ledger in watches.iter().filter_map(|watch| watch.ledger.as_ref()) {
        ledger.check_jobs().unwrap();
    }
}

#[test]
fn every_law_is_kept() {
    let mut seen = Seen::default();
    for place in 0..2_500 {
        watch_table(7, place, &mut seen);
    }
    println!("{} runs, {} of them over, {} ticks, reductions {:?}", seen.runs, seen.over, seen.ticks, seen.reductions);
    assert!(seen.runs > 5_000 && seen.over > 1_000 && seen.reductions.iter().all(|&runs| runs > 0));
}

#[test]
fn every_plan_is_small_and_sound() {
    let mut random = Random::new(11, 0);
    for _ in 0..20_000 {
        let load = tables::load(&mut random);
        assert_eq!(load.check(), Ok(()));
        for fitting in Fitting::ALL {
            check_plan(&Plan::make(fitting, load.unit as u16, &load.all_rates()), load.all_rates().len());
        }
    }
}

fn check_plan(plan: &Plan, tasks: usize) {
    let most = [31, 16, 8, 4, 2];
    assert!(tasks <= 80 && plan.levels.len() <= 5);
    for (level, most) in plan.levels.iter().zip(most) {
        let rates = level.rates();
        assert!(rates.len() <= most);
        for (later, rate) in rates.iter().enumerate() {
            assert!(rates[..later].iter().all(|earlier| earlier + rate > plan.unit));
        }
    }
    for task in 0..tasks {
        let way = plan.climb(task);
        assert!(plan.is_root(way.len() - 1, way[way.len() - 1]));
    }
}

#[test]
fn refused_openings_are_refused() {
    let mut random = Random::new(12, 0);
    let mut seen = [0; 7];
    for _ in 0..20_000 {
        let load = tables::load(&mut random);
        let load = tables::damaged(&mut random, load);
        seen[load.check().map_or_else(|refusal| refusal.number() as usize, |()| 0)] += 1;
    }
    assert!(seen[1..].iter().all(|&times| times > 100), "{seen:?}");
}

/// After a tick for the client that it named, earliest deadline names it again while it has left.
#[test]
fn earliest_deadline_goes_on() {
    let mut random = Random::new(13, 0);
    for _ in 0..20_000 {
        let mut some =
            || Share { left: random.within(0, 4), rate: random.within(0, 9) as u16, deadline: random.within(0, 5) };
        let server = some();
        let mut clients: Vec<Share> = (0..6).map(|_| some()).collect();
        let Some(named) = Choosing::Earliest.choose(&server, &clients) else { continue };
        clients[named].spend();
        if clients[named].left > 0 {
            assert_eq!(Choosing::Earliest.choose(&server, &clients), Some(named));
        }
    }
}
