// Holds: calls timed in turns, and what the samples come to: the best and the quartiles.
// Rests on: Linux's clock of a thread's own time, which stands still while others have the processor.

use std::time::Duration;

/// Samples of a call, and how long one sample takes at the least.
const SAMPLES: usize = 51;
const SAMPLE: Duration = Duration::from_millis(10);

/// How many events a call does, and the call.
pub type Timed<'a> = (u64, Box<dyn FnMut() + 'a>);

/// Speeds in events a second, times in seconds, or ratios of either, in the order taken.
pub struct Samples(Vec<f64>);

extern "C" {
    fn clock_gettime(clock: i32, time: *mut [i64; 2]) -> i32;
}

/// The processor time that this thread has had.
fn own_time() -> Duration {
    const THREAD_TIME: i32 = 3;
    let mut time = [0; 2];
    // Sound: C's struct of seconds and nanoseconds has the layout of two 64-bit numbers on x86-64.
    let answer = unsafe { clock_gettime(THREAD_TIME, &mut time) };
    assert_eq!(answer, 0, "there is no clock of a thread's own time");
    Duration::new(time[0] as u64, time[1] as u32)
}

fn time(call: &mut dyn FnMut(), times: u32) -> Duration {
    let start = own_time();
    for _ in 0..times {
        call();
    }
    own_time() - start
}

/// So many times that they take as long as a sample; the calls made to find out also warm up.
fn times_needed(call: &mut dyn FnMut()) -> u32 {
    let mut times = 1;
    while time(call, times) < SAMPLE {
        times *= 2;
    }
    times
}

/// Takes samples of all calls in turns, so that what slows the machine down for a while slows all of them.
pub fn in_turns(calls: &mut [Timed]) -> Vec<Samples> {
    let times: Vec<u32> = calls
        .iter_mut()
        .map(|(_, call)| times_needed(call))
        .collect();
    let mut speeds: Vec<Samples> = calls.iter().map(|_| Samples(Vec::new())).collect();
    for _ in 0..SAMPLES {
        for (k, (events, call)) in calls.iter_mut().enumerate() {
            let seconds = time(call, times[k]).as_secs_f64();
            let done = *events as f64 * f64::from(times[k]);
            speeds[k].0.push(done / seconds);
        }
    }
    speeds
}

impl Samples {
    /// The ratio of samples that were taken in the same turn.
    pub fn ratio(above: &Samples, below: &Samples) -> Samples {
        let turns = above.0.iter().zip(&below.0);
        Samples(turns.map(|(a, b)| a / b).collect())
    }

    /// What an event of one call takes beyond an event of another: by the best speeds, and turn by turn.
    #[cfg(not(feature = "model-only"))]
    pub fn beyond(whole: &Samples, part: &Samples) -> (f64, Samples) {
        let seconds = |whole: f64, part: f64| 1.0 / whole - 1.0 / part;
        let turns = whole.0.iter().zip(&part.0);
        let turns = turns.map(|(&a, &b)| seconds(a, b)).collect();
        (seconds(whole.best(), part.best()), Samples(turns))
    }

    /// What stands at a part of the way from the least to the most.
    fn at(&self, part: f64) -> f64 {
        let mut sorted = self.0.clone();
        sorted.sort_by(f64::total_cmp);
        sorted[((sorted.len() - 1) as f64 * part).round() as usize]
    }

    /// The best is what the call comes to where nothing else disturbs it.
    pub fn best(&self) -> f64 {
        self.at(1.0)
    }

    pub fn quartiles(&self) -> (f64, f64) {
        (self.at(0.25), self.at(0.75))
    }
}
