//! Processor time, of this process and of the programs that it ran, by the best of several rounds. The rivals take turns, so that what else the machine
//! does weighs on all alike.
use std::time::Duration;

#[repr(C)]
struct Time {
    seconds: i64,
    micros: i64,
}

/// C's `struct rusage` on Linux: two times, then fourteen numbers that are not asked for.
#[repr(C)]
struct Usage {
    user: Time,
    system: Time,
    rest: [i64; 14],
}

#[repr(C)]
struct Spec {
    seconds: i64,
    nanos: i64,
}

extern "C" {
    fn getrusage(who: i32, usage: *mut Usage) -> i32;
    fn clock_gettime(clock: i32, spec: *mut Spec) -> i32;
}

const CHILDREN: i32 = -1;
const PROCESS: i32 = 2;

fn spent() -> Duration {
    let mut own = Spec { seconds: 0, nanos: 0 };
    let mut usage = Usage { user: Time { seconds: 0, micros: 0 }, system: Time { seconds: 0, micros: 0 }, rest: [0; 14] };
    let answers = unsafe { (clock_gettime(PROCESS, &mut own), getrusage(CHILDREN, &mut usage)) };
    assert_eq!(answers, (0, 0));
    let children = (usage.user.seconds + usage.system.seconds) * 1_000_000 + usage.user.micros + usage.system.micros;
    Duration::new(own.seconds as u64, own.nanos as u32) + Duration::from_micros(children as u64)
}

const ROUNDS: usize = 9;
const AT_LEAST: Duration = Duration::from_millis(40);

pub struct Rival<'a> {
    name: String,
    ahead: Box<dyn FnMut(u32) + 'a>,
    work: Box<dyn FnMut() + 'a>,
    best: Duration,
    times: u32,
}

pub fn rival<'a>(name: &str, work: impl FnMut() + 'a) -> Rival<'a> {
    prepared(name, |_| (), work)
}

/// Work for which something is made ready first, outside the time, for so many pieces.
pub fn prepared<'a>(name: &str, ahead: impl FnMut(u32) + 'a, work: impl FnMut() + 'a) -> Rival<'a> {
    Rival { name: name.to_string(), ahead: Box::new(ahead), work: Box::new(work), best: Duration::MAX, times: 1 }
}

impl Rival<'_> {
    fn run(&mut self) -> Duration {
        (self.ahead)(self.times);
        let start = spent();
        for _ in 0..self.times {
            (self.work)();
        }
        spent() - start
    }

    /// As often as makes a round long enough to be timed.
    fn settle(&mut self) {
        while self.run() < AT_LEAST && self.times < 1 << 24 {
            self.times *= 2;
        }
    }
}

/// Seconds for one piece of work of each rival.
pub fn race(mut rivals: Vec<Rival>) -> Vec<(String, f64)> {
    rivals.iter_mut().for_each(Rival::settle);
    for _ in 0..ROUNDS {
        for rival in &mut rivals {
            rival.best = rival.best.min(rival.run());
        }
    }
    rivals.into_iter().map(|r| (r.name, r.best.as_secs_f64() / r.times as f64)).collect()
}
