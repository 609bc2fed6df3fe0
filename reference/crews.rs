//! The second program: plays the scripts of `rehearse` with all places in one
//! loop. It is written from docs/PROTOCOL.md and shares no code with the
//! engine, so that the two can be compared. It is meant to be obvious, not fast.
//!
//! It plays no crew. With a crew's script it takes a number of rounds for each
//! worker as its arguments, and prints each worker's places as they are after
//! these rounds: what a crew has to come to, however it gets there.

use std::io::{self, BufWriter, Read, Write};
use std::process::ExitCode;

const MAX_PLACES: u32 = 1 << 20;
const MAX_STATE: usize = 256;
const MAX_LETTERS: usize = 64;
const MAX_LETTER: usize = 64;

// ---------------------------------------------------------------- the meaning

struct Place {
    state: Vec<u8>,
    rests: bool,
    /// The letters that were sent to this place in the round before.
    letters: Vec<Letter>,
}

struct Letter {
    from: u32,
    bytes: Vec<u8>,
}

/// What a place does in a round.
struct Deed {
    state: Vec<u8>,
    /// Receiver and bytes of each letter, in the order sent.
    sends: Vec<(u32, Vec<u8>)>,
    rests: bool,
}

fn over(places: &[Place]) -> bool {
    places.iter().all(|p| p.rests && p.letters.is_empty())
}

fn do_round(plan: &Plan, round: u32, places: &mut [Place]) {
    let n = places.len() as u32;
    let mut sent: Vec<Vec<Letter>> = places.iter().map(|_| Vec::new()).collect();

    for (number, place) in places.iter_mut().enumerate() {
        let number = number as u32;
        if place.rests && place.letters.is_empty() {
            continue;
        }
        let deed = plan.deed(n, round, number, &place.state, &place.letters);
        assert!(deed.state.len() <= MAX_STATE);
        assert!(deed.sends.len() <= MAX_LETTERS);
        place.state = deed.state;
        place.rests = deed.rests;
        for (to, bytes) in deed.sends {
            assert!(bytes.len() <= MAX_LETTER);
            if to < n {
                sent[to as usize].push(Letter { from: number, bytes });
            }
        }
    }

    for (place, mut letters) in places.iter_mut().zip(sent) {
        // This sort keeps the order of letters with the same sender.
        letters.sort_by_key(|letter| letter.from);
        place.letters = letters;
    }
}

/// Does `rounds` rounds, or fewer where it is over before; says how many.
fn alone(plan: &Plan, rounds: u32, places: &mut [Place]) -> u32 {
    for round in 0..rounds {
        if over(places) {
            return round;
        }
        do_round(plan, round, places);
    }
    rounds
}

// ------------------------------------------------------------------ the plans

enum Plan {
    Sum,
    Echo,
    Scramble { last: u32 },
    Grid { width: u32, last: u32 },
}

impl Plan {
    fn name(&self) -> String {
        match self {
            Plan::Sum => "sum".to_string(),
            Plan::Echo => "echo".to_string(),
            Plan::Scramble { last } => format!("scramble {last}"),
            Plan::Grid { width, last } => format!("grid {width} {last}"),
        }
    }

    fn first_state(&self, place: u32) -> Vec<u8> {
        match self {
            Plan::Sum => vec![0; 4],
            Plan::Echo => vec![],
            Plan::Scramble { .. } => place.to_be_bytes().to_vec(),
            Plan::Grid { .. } => (place as u64).to_be_bytes().to_vec(),
        }
    }

    fn deed(&self, n: u32, round: u32, place: u32, state: &[u8], letters: &[Letter]) -> Deed {
        match *self {
            Plan::Sum => sum(round, place, state, letters),
            Plan::Echo => Deed { state: state.to_vec(), sends: vec![], rests: true },
            Plan::Scramble { last } => scramble(n, last, round, place, state, letters),
            Plan::Grid { width, last } => grid(width, last, round, place, state, letters),
        }
    }
}

fn sum(round: u32, place: u32, state: &[u8], letters: &[Letter]) -> Deed {
    let mut total = u32::from_be_bytes(state.try_into().unwrap());
    for letter in letters {
        let number = u32::from_be_bytes(letter.bytes[..].try_into().unwrap());
        total = total.wrapping_add(number);
    }
    let mut sends = vec![];
    if round == 0 {
        sends.push((0, place.to_be_bytes().to_vec()));
    }
    Deed { state: total.to_be_bytes().to_vec(), sends, rests: true }
}

fn fnv(mut h: u64, bytes: &[u8]) -> u64 {
    for b in bytes {
        h = (h ^ *b as u64).wrapping_mul(0x100000001b3);
    }
    h
}

/// The 8 bytes of `number`, again and again, cut to `length` bytes.
fn again_and_again(number: u64, length: u64) -> Vec<u8> {
    let bytes = number.to_be_bytes();
    (0..length as usize).map(|i| bytes[i % 8]).collect()
}

fn scramble(n: u32, last: u32, round: u32, place: u32, state: &[u8], letters: &[Letter]) -> Deed {
    let mut given: Vec<u8> = vec![];
    given.extend(round.to_be_bytes());
    given.extend(place.to_be_bytes());
    given.extend((state.len() as u16).to_be_bytes());
    given.extend(state);
    given.extend((letters.len() as u32).to_be_bytes());
    for letter in letters {
        given.extend(letter.from.to_be_bytes());
        given.push(letter.bytes.len() as u8);
        given.extend(&letter.bytes);
    }
    let h = fnv(0xcbf29ce484222325, &given);
    let g = |j: u64| fnv(h, &[j as u8]);

    if round >= last {
        return Deed { state: h.to_be_bytes().to_vec(), sends: vec![], rests: true };
    }
    let t = g(254) >> 32;
    let count = if (t / 65) % 8 == 0 { t % 65 } else { t % 4 };
    let n = n as u64;
    let mut sends = vec![];
    for j in 0..count {
        let to = (g(j) >> 32) % (n + n / 8 + 1);
        sends.push((to as u32, again_and_again(g(j), (g(j) >> 24) % 65)));
    }
    Deed {
        state: again_and_again(h, (g(253) >> 32) % 257),
        sends,
        rests: (g(252) >> 32) % 4 != 0,
    }
}

fn grid(width: u32, last: u32, round: u32, v: u32, state: &[u8], letters: &[Letter]) -> Deed {
    let x = u64::from_be_bytes(state.try_into().unwrap());
    let mut s: u64 = 0;
    for letter in letters {
        s = s.wrapping_add(u64::from_be_bytes(letter.bytes[..].try_into().unwrap()));
    }
    let y = x
        .wrapping_mul(6364136223846793005)
        .wrapping_add(s)
        .wrapping_add(1442695040888963407);
    let y = y.to_be_bytes().to_vec();

    if round >= last {
        return Deed { state: y, sends: vec![], rests: true };
    }
    let mut sends = vec![];
    if v >= width {
        sends.push((v - width, y.clone()));
    }
    if v % width != 0 {
        sends.push((v - 1, y.clone()));
    }
    if v % width != width - 1 {
        sends.push((v + 1, y.clone()));
    }
    sends.push((v + width, y.clone()));
    Deed { state: y, sends, rests: false }
}

// ----------------------------------------------------------------- the script

const MAX_WORKERS: u32 = 8;
const FOREMAN: u32 = 64;

struct Script {
    places: u32,
    plan: Plan,
    run: Run,
}

enum Run {
    Alone { rounds: u32 },
    /// The worker of each place.
    Crew { workers: u32, owners: Vec<u32> },
}

/// A number of 1 to 10 digits within its limits.
fn number(word: &str, least: u32, most: u32) -> Result<u32, String> {
    let digits = (1..=10).contains(&word.len()) && word.bytes().all(|b| b.is_ascii_digit());
    match word.parse::<u64>() {
        Ok(x) if digits && least as u64 <= x && x <= most as u64 => Ok(x as u32),
        _ => Err(format!("expected a number from {least} to {most}, found '{word}'")),
    }
}

fn read_places(words: &[&str]) -> Result<u32, String> {
    match words {
        ["places", n] => number(n, 0, MAX_PLACES),
        _ => Err(format!("expected 'places N', found '{}'", words.join(" "))),
    }
}

fn read_plan(words: &[&str]) -> Result<Plan, String> {
    match words {
        ["plan", "sum"] => Ok(Plan::Sum),
        ["plan", "echo"] => Ok(Plan::Echo),
        ["plan", "scramble", last] => Ok(Plan::Scramble { last: number(last, 0, u32::MAX)? }),
        ["plan", "grid", width, last] => Ok(Plan::Grid {
            width: number(width, 1, 1 << 20)?,
            last: number(last, 0, u32::MAX)?,
        }),
        _ => Err(format!(
            "expected 'plan sum', 'plan echo', 'plan scramble L' or 'plan grid W L', found '{}'",
            words.join(" ")
        )),
    }
}

fn read_alone(words: &[&str]) -> Result<u32, String> {
    match words {
        ["alone", r] => number(r, 0, (1 << 31) - 1),
        _ => Err(format!("expected 'alone R', found '{}'", words.join(" "))),
    }
}

fn read_workers(words: &[&str]) -> Result<u32, String> {
    match words {
        ["workers", m] => number(m, 1, MAX_WORKERS),
        _ => Err(format!("expected 'workers M', found '{}'", words.join(" "))),
    }
}

fn read_owner(words: &[&str]) -> Result<(u32, u32), String> {
    match words {
        ["owner", first, worker] => {
            Ok((number(first, 0, MAX_PLACES - 1)?, number(worker, 0, MAX_WORKERS - 1)?))
        }
        _ => Err(format!("expected 'owner FIRST WORKER', found '{}'", words.join(" "))),
    }
}

/// An event. Nothing of it is kept, since no crew is played here.
fn read_event(workers: u32, words: &[&str]) -> Result<(), String> {
    let machine = |word: &str| match number(word, 0, FOREMAN)? {
        i if i < workers || i == FOREMAN => Ok(()),
        _ => Err(format!("expected a worker or {FOREMAN}, found '{word}'")),
    };
    match words {
        ["tick" | "up" | "cut", i] => machine(i),
        ["cut", i, b] => number(b, 0, u32::MAX).and(machine(i)),
        ["give" | "lose" | "twice"] => Ok(()),
        ["late", k] => number(k, 0, u32::MAX).map(|_| ()),
        ["seed", s, t] => number(s, 0, u32::MAX).and(number(t, 0, u32::MAX)).map(|_| ()),
        ["until", "over", t] => number(t, 0, u32::MAX).map(|_| ()),
        _ => Err(format!("expected an event, found '{}'", words.join(" "))),
    }
}

/// The words of each line that has some, with its number.
fn statements(text: &[u8]) -> Vec<(usize, Vec<String>)> {
    let mut all = vec![];
    for (index, line) in text.split(|b| *b == b'\n').enumerate() {
        let code = line.split(|b| *b == b'#').next().unwrap();
        // Bytes that are no text become a sign that no statement has.
        let code = String::from_utf8_lossy(code);
        let words = code.split([' ', '\t', '\r']).filter(|w| !w.is_empty());
        let words: Vec<String> = words.map(|w| w.to_string()).collect();
        if !words.is_empty() {
            all.push((index + 1, words));
        }
    }
    all
}

/// Reads a script, or says all that is wrong with it.
fn read_script(text: &[u8]) -> Result<Script, Vec<String>> {
    let all = statements(text);
    let first = |word: &str| all.iter().find(|(_, words)| words[0] == word);
    let words_of = |word: &str| -> Option<Vec<&str>> {
        first(word).map(|(_, words)| words.iter().map(|w| w.as_str()).collect())
    };
    // What other lines are judged by.
    let places = words_of("places").and_then(|w| read_places(&w).ok());
    let workers = words_of("workers").and_then(|w| read_workers(&w).ok());
    let most_places = places.unwrap_or(MAX_PLACES);
    let most_workers = workers.unwrap_or(MAX_WORKERS);
    let with_crew = first("workers").is_some();

    let mut errors = vec![];
    let mut seen: Vec<&str> = vec![];
    let (mut plan, mut rounds) = (None, None);
    let mut stretches: Vec<(u32, u32)> = vec![];

    for (line, words) in &all {
        let words: Vec<&str> = words.iter().map(|w| w.as_str()).collect();
        let result = match words[0] {
            word @ ("places" | "plan" | "alone" | "workers") if seen.contains(&word) => {
                Err(format!("expected '{word}' once, found it again"))
            }
            "alone" if seen.contains(&"workers") => Err("expected no 'alone' beside 'workers'".into()),
            "workers" if seen.contains(&"alone") => Err("expected no 'workers' beside 'alone'".into()),
            "places" => read_places(&words).map(|_| ()),
            "plan" => read_plan(&words).map(|x| plan = Some(x)),
            "alone" => read_alone(&words).map(|x| rounds = Some(x)),
            "workers" => read_workers(&words).map(|_| ()),
            "owner" | "tick" | "up" | "cut" | "give" | "lose" | "twice" | "late" | "seed" | "until"
                if !with_crew =>
            {
                Err(format!("expected '{}' only with a line 'workers M'", words[0]))
            }
            "owner" => read_owner(&words).and_then(|(first, worker)| {
                // The one before, be it good or bad; what follows is compared with this one.
                let rises = match (stretches.last(), seen.contains(&"owner")) {
                    (Some((before, _)), _) => first > *before,
                    (None, true) => first > 0,
                    (None, false) => first == 0,
                };
                stretches.push((first, worker));
                if rises && first < most_places && worker < most_workers {
                    Ok(())
                } else {
                    Err(format!("expected a stretch that fits, found '{}'", words.join(" ")))
                }
            }),
            "tick" | "up" | "cut" | "give" | "lose" | "twice" | "late" | "seed" | "until" => {
                read_event(most_workers, &words)
            }
            other => Err(format!("expected a statement, found '{other}'")),
        };
        seen.push(words[0]);
        if let Err(error) = result {
            errors.push(format!("line {line}: {error}"));
        }
    }

    let missing = |words: &[&str]| !words.iter().any(|word| seen.contains(word));
    if missing(&["places"]) {
        errors.push("expected a line 'places N'".into());
    }
    if missing(&["plan"]) {
        errors.push("expected a line 'plan NAME'".into());
    }
    if missing(&["alone", "workers"]) {
        errors.push("expected a line 'alone R' or 'workers M'".into());
    }
    if !errors.is_empty() {
        return Err(errors);
    }
    let places = places.unwrap();
    let run = match workers {
        None => Run::Alone { rounds: rounds.unwrap() },
        Some(workers) => Run::Crew { workers, owners: owners(places, workers, &stretches) },
    };
    Ok(Script { places, plan: plan.unwrap(), run })
}

/// The worker of each place.
fn owners(places: u32, workers: u32, stretches: &[(u32, u32)]) -> Vec<u32> {
    let share = |i: u32| (i as u64 * places as u64 / workers as u64) as u32;
    let of = |place: u32| {
        if stretches.is_empty() {
            (0..workers).find(|i| share(*i) <= place && place < share(i + 1)).unwrap()
        } else {
            stretches.iter().rev().find(|(first, _)| *first <= place).unwrap().1
        }
    };
    (0..places).map(of).collect()
}

// ---------------------------------------------------------------- the program

/// A line for the rounds, and one for each of these places.
fn print(round: u32, places: &[Place], which: &[usize]) -> io::Result<()> {
    let mut out = BufWriter::new(io::stdout().lock());
    writeln!(out, "round {round}")?;
    for number in which {
        let place = &places[*number];
        write!(out, "{number} {} ", place.rests as u8)?;
        if place.state.is_empty() {
            write!(out, "-")?;
        }
        for byte in &place.state {
            write!(out, "{byte:02x}")?;
        }
        writeln!(out)?;
    }
    out.flush()
}

fn start(script: &Script) -> Vec<Place> {
    let place = |v| Place { state: script.plan.first_state(v), rests: false, letters: vec![] };
    (0..script.places).map(place).collect()
}

fn play_alone(script: &Script, rounds: u32) -> io::Result<()> {
    let mut places = start(script);
    let done = alone(&script.plan, rounds, &mut places);
    let all: Vec<usize> = (0..places.len()).collect();
    print(done, &places, &all)?;
    eprintln!(
        "alone: {} places, plan {}, {done} rounds, {}",
        script.places,
        script.plan.name(),
        if over(&places) { "over" } else { "not over" },
    );
    Ok(())
}

/// What each worker has after its rounds.
fn tell_crew(script: &Script, owners: &[u32], rounds: &[u32]) -> io::Result<()> {
    for (worker, round) in rounds.iter().enumerate() {
        let mut places = start(script);
        for r in 0..*round {
            do_round(&script.plan, r, &mut places);
        }
        let of_worker = |v: &usize| owners[*v] as usize == worker;
        let its: Vec<usize> = (0..places.len()).filter(of_worker).collect();
        print(*round, &places, &its)?;
    }
    Ok(())
}

/// The arguments: for a crew a number of rounds for each worker, else none.
fn arguments(count: usize) -> Result<Vec<u32>, String> {
    let mut all = vec![];
    for word in std::env::args().skip(1) {
        all.push(number(&word, 0, (1 << 31) - 1)?);
    }
    if all.len() != count {
        return Err(format!("expected {count} numbers of rounds, one for each worker, found {}", all.len()));
    }
    Ok(all)
}

fn main() -> ExitCode {
    let mut text = vec![];
    if let Err(error) = io::stdin().read_to_end(&mut text) {
        eprintln!("rehearse: standard input: {error}");
        return ExitCode::FAILURE;
    }
    let script = match read_script(&text) {
        Ok(script) => script,
        Err(errors) => {
            for error in errors {
                eprintln!("rehearse: {error}");
            }
            return ExitCode::FAILURE;
        }
    };
    let count = match &script.run {
        Run::Alone { .. } => 0,
        Run::Crew { workers, .. } => *workers as usize,
    };
    let rounds = match arguments(count) {
        Ok(rounds) => rounds,
        Err(error) => {
            eprintln!("reference: {error}");
            return ExitCode::from(2);
        }
    };
    let played = match &script.run {
        Run::Alone { rounds } => play_alone(&script, *rounds),
        Run::Crew { owners, .. } => tell_crew(&script, owners, &rounds),
    };
    if let Err(error) = played {
        eprintln!("rehearse: standard output: {error}");
        return ExitCode::FAILURE;
    }
    ExitCode::SUCCESS
}
