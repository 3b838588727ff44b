//! Made-up records, noted in made-up orders, against a plain closure: `PROGRAM SEED COUNT`.
//!
//! Each call is made again and again, its first request for memory refused, then its second, and so on, until it goes through. After
//! a refusal all that is asked of the records is as before.
use crate::shim::*;
use crate::{Leaf, Leaves, Mark, Marks, Part, Parts, Records};
use std::collections::{BTreeMap as Map, BTreeSet as Set};
use std::vec::Vec;

type Answer<T> = Result<T, String>;
/// A port or step, and a place.
type Label = (&'static str, Vec<u32>);
type Job = Vec<Label>;

/// A mark, or a group by its number.
#[derive(Clone, Debug)]
enum Used {
    Given(Label),
    Made(Job),
    Group(usize),
}

macro_rules! ensure {
    ($c:expr, $($t:tt)*) => { if !$c { return Err(format!($($t)*)) } };
}

pub fn main() {
    let words: Vec<u64> = std::env::args().skip(1).map(|w| w.parse().unwrap()).collect();
    let mut tally = Tally::default();
    for i in 0..words[1] {
        if let Err(why) = run(&mut Random::new(words[0].wrapping_add(i)), &mut tally) {
            println!("trial {i}: {why}");
            std::process::exit(1);
        }
    }
    let Tally { records, shares, queries, refusals } = tally;
    println!("{} trials, {records} records, {shares} shares, {queries} queries, {refusals} refusals, no difference", words[1]);
}

#[derive(Default)]
struct Tally {
    records: u64,
    shares: u64,
    queries: u64,
    refusals: u64,
}

// ---- numbers that are made up from a seed

struct Random(u64);

impl Random {
    fn new(seed: u64) -> Random {
        let mut random = Random(seed.wrapping_mul(0x9E37_79B9_7F4A_7C15) ^ 0x1234_5678_9ABC_DEF1);
        for _ in 0..8 {
            random.next();
        }
        random
    }

    fn next(&mut self) -> u64 {
        self.0 = self.0.max(1);
        self.0 ^= self.0 << 13;
        self.0 ^= self.0 >> 7;
        self.0 ^= self.0 << 17;
        self.0 >> 11
    }

    /// A number below `count`.
    fn below(&mut self, count: usize) -> usize {
        (self.next() % (count as u64)) as usize
    }

    fn place(&mut self) -> Vec<u32> {
        (0..self.below(3)).map(|_| self.below(3) as u32).collect()
    }

    fn label(&mut self, names: &[&'static str]) -> Label {
        (names[self.below(names.len())], self.place())
    }

    fn job(&mut self) -> Job {
        let levels = if self.below(5) == 0 { 2 } else { 1 };
        (0..levels).map(|_| self.label(&["a", "b", "cc"])).collect()
    }

    /// What a job used: elements, results of jobs, noted or not, its own among them, and some of so many groups.
    fn used(&mut self, groups: usize) -> Vec<Used> {
        (0..self.below(5))
            .map(|_| match self.below(5) {
                0 | 1 => Used::Given(self.label(&["x", "y"])),
                2 if groups > 0 => Used::Group(self.below(groups)),
                _ => Used::Made(self.job()),
            })
            .collect()
    }

    /// Marks alone.
    fn marks(&mut self) -> Vec<Used> {
        self.used(0)
    }
}

// ---- what they are in the code

fn element(alloc: Global, label: &Label) -> Result<(Name, Place), NoMemory> {
    Ok((Text::from_str(alloc, label.0)?, Place::of(alloc, &label.1)?))
}

fn sequence<T>(alloc: Global, items: Vec<T>) -> Result<Sequence<T>, NoMemory> {
    let mut made = crate::shim::Vec::new(alloc);
    for item in items {
        made.push(item)?;
    }
    Ok(Sequence::of(made))
}

fn job_name(alloc: Global, job: &Job) -> JobName {
    sequence(alloc, job.iter().map(|level| element(alloc, level).unwrap()).collect()).unwrap()
}

fn mark(alloc: Global, used: &Used) -> Mark {
    match used {
        Used::Given(label) => {
            let (port, place) = element(alloc, label).unwrap();
            Mark::Given(port, place)
        }
        Used::Made(job) => Mark::Made(job_name(alloc, job)),
        Used::Group(_) => unreachable!(),
    }
}

fn marks(alloc: Global, used: &[Used]) -> Marks {
    sequence(alloc, used.iter().map(|one| mark(alloc, one)).collect()).unwrap()
}

fn parts(alloc: Global, used: &[Used]) -> Parts {
    let part = |one: &Used| match one {
        Used::Group(number) => Part::Group(*number),
        one => Part::Single(mark(alloc, one)),
    };
    sequence(alloc, used.iter().map(part).collect()).unwrap()
}

fn labels(found: &[(Name, Place)]) -> Vec<(String, Vec<u32>)> {
    found.iter().map(|l| (l.0.as_str().to_string(), l.1.as_slice().to_vec())).collect()
}

// ---- the plain closure

/// What was noted and shared, as it was said.
#[derive(Default)]
struct Said {
    jobs: Map<Job, Vec<Used>>,
    groups: Map<usize, Vec<Used>>,
}

impl Said {
    /// Puts what these lead to into `found`.
    fn reach(&self, used: &[Used], met: &mut Set<String>, found: &mut Set<Label>) {
        for one in used {
            if !met.insert(format!("{one:?}")) {
                continue;
            }
            match one {
                Used::Given(label) => {
                    found.insert(label.clone());
                }
                Used::Made(job) => self.reach(self.jobs.get(job).map_or(&[], |used| used), met, found),
                Used::Group(number) => self.reach(&self.groups[number], met, found),
            }
        }
    }

    fn backward(&self, used: &[Used]) -> Vec<Label> {
        let mut found = Set::new();
        self.reach(used, &mut Set::new(), &mut found);
        found.into_iter().collect()
    }

    fn forward(&self, leaves: &[(Label, Vec<Used>)], of: &Label) -> Vec<Label> {
        let touches = |l: &Label| l.0 == of.0 && (l.1.starts_with(&of.1) || of.1.starts_with(&l.1));
        let made = |used: &[Used]| self.backward(used).iter().any(touches);
        leaves.iter().filter(|leaf| made(&leaf.1)).map(|leaf| leaf.0.clone()).collect()
    }

    fn by_step(&self, step: &'static str) -> Vec<Vec<u32>> {
        self.jobs.keys().filter(|job| job.len() == 1 && job[0].0 == step).map(|job| job[0].1.clone()).collect()
    }
}

fn same(found: &[(Name, Place)], want: &[Label]) -> bool {
    labels(found) == want.iter().map(|l| (l.0.to_string(), l.1.clone())).collect::<Vec<_>>()
}

// ---- questions

struct Questions {
    used: Vec<Vec<Used>>,
    leaves: Vec<(Label, Vec<Used>)>,
    of: Vec<Label>,
    jobs: Vec<Job>,
}

impl Questions {
    fn new(random: &mut Random) -> Questions {
        Questions {
            used: (0..4).map(|_| random.marks()).collect(),
            leaves: (0..6).map(|_| (random.label(&["out", "o"]), random.marks())).collect(),
            of: (0..3).map(|_| random.label(&["x", "y", "z"])).collect(),
            jobs: (0..6).map(|_| random.job()).collect(),
        }
    }

    fn leaves(&self, alloc: Global) -> Leaves {
        let leaf = |(label, used): &(Label, Vec<Used>)| {
            let (port, place) = element(alloc, label).unwrap();
            Leaf { port, place, used: marks(alloc, used) }
        };
        sequence(alloc, self.leaves.iter().map(leaf).collect()).unwrap()
    }

    /// Asks all, each with so many requests let through before one is refused; a question that is refused is asked again.
    fn asked(&self, alloc: Global, records: &Records, said: &Said, refusing: bool, tally: &mut Tally) -> Answer<()> {
        for used in &self.used {
            let asked = marks(alloc, used);
            let found = at_last(refusing, tally, || records.backward(alloc, &asked));
            ensure!(same(found.as_slice(), &said.backward(used)), "backward of {used:?}: {found:?}");
        }
        let leaves = self.leaves(alloc);
        for of in &self.of {
            let (port, place) = element(alloc, of).unwrap();
            let found = at_last(refusing, tally, || records.forward(alloc, &leaves, &port, &place));
            ensure!(same(found.as_slice(), &said.forward(&self.leaves, of)), "forward of {of:?}: {found:?}");
        }
        for step in ["a", "b", "cc", "x"] {
            let name = Text::from_str(alloc, step).unwrap();
            let found = at_last(refusing, tally, || records.by_step(alloc, &name));
            let want: Vec<_> = said.by_step(step).into_iter().map(|place| job_name(alloc, &vec![(step, place)])).collect();
            ensure!(found.as_slice() == want.as_slice(), "jobs of {step}: {found:?}");
        }
        for job in &self.jobs {
            let noted = records.has(&job_name(alloc, job));
            ensure!(noted == said.jobs.contains_key(job), "has {job:?}: {noted}");
        }
        tally.queries += (self.used.len() + self.of.len() + 4 + self.jobs.len()) as u64;
        Ok(())
    }
}

/// What a question answers, after its first request was refused, then its second, and so on.
fn at_last<T>(refusing: bool, tally: &mut Tally, ask: impl Fn() -> Result<T, NoMemory>) -> T {
    let mut through = 0;
    loop {
        if refusing {
            refuse_after(through);
        }
        let answer = ask();
        refuse_none();
        match answer {
            Ok(answer) => return answer,
            Err(NoMemory) => tally.refusals += 1,
        }
        through += 1;
    }
}

// ---- one trial

fn run(random: &mut Random, tally: &mut Tally) -> Answer<()> {
    let alloc = Global;
    let mut records = Records::start(alloc).unwrap();
    let mut said = Said::default();
    let questions = Questions::new(random);
    questions.asked(alloc, &records, &said, true, tally)?;
    // How many groups there are: each noted job makes one too.
    let mut groups = 0;
    for _ in 0..random.below(14) {
        if random.below(3) == 0 {
            let used = random.used(groups);
            let part = shared(&mut records, &said, &questions, tally, &used)?;
            let Part::Group(number) = part else {
                return Err("what is shared is no group".to_string());
            };
            said.groups.insert(number, used);
            groups = number + 1;
            tally.shares += 1;
        } else {
            let job = random.job();
            if said.jobs.contains_key(&job) {
                continue;
            }
            let whole = random.below(2) == 0;
            let used = if whole { random.marks() } else { random.used(groups) };
            noted(&mut records, &said, &questions, tally, &job, &used, whole)?;
            said.groups.insert(groups, used.clone());
            groups += 1;
            said.jobs.insert(job, used);
            tally.records += 1;
        }
        questions.asked(alloc, &records, &said, false, tally)?;
    }
    questions.asked(alloc, &records, &said, true, tally)
}

fn shared(records: &mut Records, said: &Said, questions: &Questions, tally: &mut Tally, used: &[Used]) -> Answer<Part> {
    let mut through = 0;
    loop {
        let parts = parts(Global, used);
        refuse_after(through);
        let answer = records.share(parts);
        refuse_none();
        if let Ok(part) = answer {
            return Ok(part);
        }
        tally.refusals += 1;
        questions.asked(Global, records, said, false, tally)?;
        through += 1;
    }
}

fn noted(
    records: &mut Records,
    said: &Said,
    questions: &Questions,
    tally: &mut Tally,
    job: &Job,
    used: &[Used],
    whole: bool,
) -> Answer<()> {
    let mut through = 0;
    loop {
        let name = job_name(Global, job);
        let (marks, parts) = if whole { (Some(marks(Global, used)), None) } else { (None, Some(parts(Global, used))) };
        refuse_after(through);
        let answer = match (marks, parts) {
            (Some(marks), _) => records.note(Global, name, marks),
            (_, Some(parts)) => records.note_parts(Global, name, parts),
            _ => unreachable!(),
        };
        refuse_none();
        if answer.is_ok() {
            return Ok(());
        }
        tally.refusals += 1;
        ensure!(!records.has(&job_name(Global, job)), "{job:?} was noted though it was refused");
        questions.asked(Global, records, said, false, tally)?;
        through += 1;
    }
}
