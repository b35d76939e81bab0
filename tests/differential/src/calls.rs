//! One call of the library beside the same call of the second implementation: answer, counts, every lent byte and its
//! guards have to agree; and on what is accepted the order of neighbours, the regional maxima and minima, the channels,
//! and both counts together with the components of sufficient area.

use crate::convert;
use crate::guarded::Guarded;
use crate::in_memory;
use crate::inputs::{self, one_in, PassNumbers, SettingsNumbers};
use crate::orders;
use crate::work::Work;
use mlhe::ffi;
use mlhe_reference as reference;
use mlhe_reference::extrema::{keeps_shapes, reversed_channels};
use mlhe_reference::random::Random;
use mlhe_reference::{Counts, Pass, Refusal, Rule, Settings, Version, EIGHT, FOUR};

/// The kinds of case, in the order of `case`.
pub const KINDS: [&str; 12] = [
    "intensity",
    "pass",
    "recolour",
    "enhance",
    "list",
    "read",
    "write",
    "chain",
    "levels",
    "passes",
    "convert",
    "orders",
];

/// What a call that counts answered: its counts, or the refusal.
pub type Counted = Result<Counts, Refusal>;

/// What came of a case: the answers of its calls, the sums of what they counted, and whether they changed a plane that
/// was then held against its first one by eight neighbours too.
#[derive(Default)]
pub struct Outcome {
    pub answers: Vec<i64>,
    pub counts: Counts,
    pub by_eight: bool,
}

impl Outcome {
    /// That of one call, which counts nothing.
    fn of(answer: i64) -> Outcome {
        Outcome { answers: vec![answer], ..Outcome::default() }
    }

    /// That of one call.
    pub fn counted(answer: Counted) -> Outcome {
        let mut outcome = Outcome::default();
        outcome.add(answer);
        outcome
    }

    pub fn add(&mut self, answer: Counted) {
        self.answers.push(status(answer));
        self.counts = [self.counts, answer.unwrap_or_default()].into_iter().sum();
    }
}

/// What came of a case, or what differs.
pub type Compared = Result<Outcome, String>;

/// Runs one case of a kind.
pub fn case(kind: usize, random: &mut Random) -> Compared {
    match kind {
        0 => intensity(random),
        1 => single_pass(random),
        2 => recolour(random),
        3 => enhance(random),
        4 => single_list(random),
        5 => read(random),
        6 => write(random),
        7 => chain(random),
        8 => levels(random),
        9 => in_memory::passes(random),
        10 => convert::there_and_back(random),
        _ => orders::orders(random),
    }
}

/// An answer as the C functions give it.
pub fn encoded<T: Into<u64>>(answer: Result<T, Refusal>) -> i64 {
    match answer {
        Ok(value) => value.into() as i64,
        Err(number) => -i64::from(number),
    }
}

/// The answer of a C function that counts: 0, or its refusal.
fn status(answer: Counted) -> i64 {
    encoded(answer.map(|_| 0u64))
}

pub fn require(holds: bool, what: &str) -> Result<(), String> {
    if holds {
        Ok(())
    } else {
        Err(what.to_string())
    }
}

pub fn same_answer(library: i64, expected: i64) -> Result<(), String> {
    require(library == expected, &format!("the answer is {library} and should be {expected}"))
}

/// Both counts of accepted passes together are the components of sufficient area, each pass's in the plane as the pass
/// finds it.
pub fn sufficient(counts: Counts, passes: &[Pass], first: &[u8], w: usize, h: usize) -> Result<(), String> {
    let all = reference::sufficient_in_all(passes, first, w, h);
    require(counts.together() == all, &format!("{counts:?}, but {all} components are of sufficient area"))
}

/// The lent memory holds what it should, and its guards are untouched.
pub fn same_content(name: &str, memory: &Guarded<u8>, expected: &[u8]) -> Result<(), String> {
    require(memory.kept_beyond(memory.len()), &format!("the guards of the {name} are not kept"))?;
    require(memory.now() == expected, &format!("the {name} differs"))
}

/// What holds of every accepted chain of passes by four neighbours, and by eight where all its accepted passes have
/// eight. Answers whether a plane that has changed was held against the first by eight.
pub fn same_shapes(first: &[u8], last: &[u8], w: usize, h: usize, all_eight: bool) -> Result<bool, String> {
    let what = "neighbours or regional maxima or minima are not kept";
    require(keeps_shapes(first, last, w, h, FOUR), what)?;
    if all_eight {
        require(keeps_shapes(first, last, w, h, EIGHT), &format!("by eight neighbours {what}"))?;
    }
    Ok(all_eight && first != last)
}

/// The rule and the number of neighbours that a C function makes of the numbers that it is lent, four where that number
/// is not lent; none where it answers 17.
fn rule(lent: &Guarded<u16>) -> Option<(Rule, u8)> {
    let (&[code, first, second, segments], neighbours) = match lent.now() {
        [numbers @ .., neighbours] if numbers.len() == 4 => (numbers.first_chunk()?, *neighbours),
        numbers if numbers.len() == 4 => (numbers.first_chunk()?, FOUR.into()),
        _ => return None,
    };
    let [first, second, segments] = [first, second, segments].map(u32::from);
    let rule = match (code, second, segments) {
        (0, _, 0) => Rule::Plain { low: first, high: second },
        (1, 0, 0) => Rule::Limited { k: first },
        (2, ..) => Rule::Affine { segments, smin: first, smax: second },
        _ => return None,
    };
    // Beyond a byte it is refused as 0 is.
    Some((rule, u8::try_from(neighbours).unwrap_or(0)))
}

fn intensity(random: &mut Random) -> Compared {
    let (w, h) = inputs::sides(random);
    let (frame_length, plane_length) = (inputs::exact_length(random, 3 * w * h), inputs::exact_length(random, w * h));
    let frame = Guarded::holding(&inputs::frame_bytes(random, w, frame_length), random);
    let mut plane = Guarded::filled(plane_length, random);
    let (w, h) = inputs::told_sides(random, w, h);

    let mut expected = plane.now().to_vec();
    let answer = encoded(reference::intensity(frame.now(), w, h, &mut expected).map(|()| 0u64));
    // SAFETY: each pointer goes with the length of its own memory.
    let library = unsafe { ffi::mlhe_intensity(frame.ptr(), frame.len(), w, h, plane.mut_ptr(), plane.len()) };
    same_answer(library, answer)?;
    same_content("plane", &plane, &expected)?;
    require(frame.untouched(), "the frame is not kept")?;
    Ok(Outcome::of(answer))
}

fn recolour(random: &mut Random) -> Compared {
    let (w, h) = inputs::sides(random);
    let (frame_length, plane_length) = (inputs::exact_length(random, 3 * w * h), inputs::exact_length(random, w * h));
    let frame = Guarded::holding(&inputs::frame_bytes(random, w, frame_length), random);
    let plane = Guarded::holding(&inputs::values(random, w, plane_length), random);
    let output_length = inputs::length(random, 3 * w * h);
    let mut output = Guarded::filled(output_length, random);
    let (w, h) = inputs::told_sides(random, w, h);
    Ok(Outcome::of(recolour_call(&frame, w, h, &plane, &mut output)?))
}

fn recolour_call(
    frame: &Guarded<u8>,
    w: usize,
    h: usize,
    plane: &Guarded<u8>,
    output: &mut Guarded<u8>,
) -> Result<i64, String> {
    let mut expected = output.now().to_vec();
    let answer = encoded(reference::recolour(frame.now(), w, h, plane.now(), &mut expected).map(|()| 0u64));
    // SAFETY: each pointer goes with the length of its own memory.
    let library = unsafe {
        ffi::mlhe_recolour(frame.ptr(), frame.len(), w, h, plane.ptr(), plane.len(), output.mut_ptr(), output.len())
    };
    same_answer(library, answer)?;
    same_content("output", output, &expected)?;
    require(frame.untouched() && plane.untouched(), "the frame or the plane is not kept")?;
    if answer >= 0 {
        let written = &output.now()[..frame.len()];
        require(reversed_channels(frame.now(), written) == 0, "channels are reversed")?;
    }
    Ok(answer)
}

fn single_pass(random: &mut Random) -> Compared {
    let (w, h) = inputs::sides(random);
    let length = inputs::exact_length(random, w * h);
    let mut plane = Guarded::holding(&inputs::values(random, w, length), random);
    let mut work = Work::new(random, w * h);
    let pass = inputs::pass_numbers(random, w * h, &[4, 8]);
    let (w, h) = inputs::told_sides(random, w, h);
    let answer = pass_call(&mut plane, &mut work, w, h, &pass)?;
    let mut outcome = Outcome::counted(answer);
    if answer.is_ok() {
        outcome.by_eight = same_shapes(plane.then(), plane.now(), w, h, has_eight(&pass))?;
    }
    Ok(outcome)
}

/// A pass by the second implementation.
fn pass_by_reference(plane: &mut [u8], work: &Work, w: usize, h: usize, pass: &PassNumbers) -> Counted {
    let mut run = |pass: &Pass| reference::pass(plane, work.marks.len(), work.queue.len(), w, h, pass);
    match pass_of(pass) {
        Some(pass) => run(&pass),
        // The second implementation has no rules but its own. 17 is tested right before 5, so a pass with a above b
        // tells whether anything comes before it.
        None => {
            let telling = Pass { a: 1, b: 0, area: 1, rule: Rule::Limited { k: 0 }, neighbours: FOUR };
            run(&telling).map_err(|number| if number == 5 { 17 } else { number })
        }
    }
}

fn pass_of(pass: &PassNumbers) -> Option<Pass> {
    rule(&pass.rule).map(|(rule, neighbours)| Pass { a: pass.a, b: pass.b, area: pass.area, rule, neighbours })
}

fn has_eight(pass: &PassNumbers) -> bool {
    pass_of(pass).is_some_and(|pass| pass.neighbours == EIGHT)
}

fn pass_call(
    plane: &mut Guarded<u8>,
    work: &mut Work,
    w: usize,
    h: usize,
    pass: &PassNumbers,
) -> Result<Counted, String> {
    let first = plane.now().to_vec();
    let mut expected = first.clone();
    let answer = work.judged(pass_by_reference(&mut expected, work, w, h, pass));
    // SAFETY: each pointer goes with the length of its own memory.
    let library = unsafe {
        ffi::mlhe_pass(
            plane.mut_ptr(),
            plane.len(),
            work.marks.mut_ptr(),
            work.marks.len(),
            work.queue.mut_ptr(),
            work.queue.len(),
            w,
            h,
            pass.a,
            pass.b,
            pass.area,
            pass.rule.ptr(),
            pass.rule.len(),
            work.counts.mut_ptr(),
            work.counts.len(),
        )
    };
    same_answer(library, status(answer))?;
    same_content("plane", plane, if answer.is_ok() { &expected } else { &first })?;
    work.same(answer, plane.len())?;
    require(pass.rule.untouched(), "the rule is not kept")?;
    if let (Ok(counts), Some(pass)) = (answer, pass_of(pass)) {
        sufficient(counts, &[pass], &first, w, h)?;
    }
    Ok(answer)
}

fn single_list(random: &mut Random) -> Compared {
    let long = one_in(random, 60);
    let (w, h) = if long { (random.between(1, 3), 1) } else { inputs::sides(random) };
    let length = inputs::exact_length(random, w * h);
    let mut plane = Guarded::holding(&inputs::values(random, w, length), random);
    let mut work = Work::new(random, w * h);
    let neighbours = inputs::neighbours(random);
    let list = if long { inputs::long_list(random) } else { inputs::list_bytes(random, 6, w * h, neighbours) };
    let list = Guarded::holding(&list, random);
    let (w, h) = inputs::told_sides(random, w, h);
    let answer = list_call(&list, &mut plane, &mut work, w, h)?;
    let mut outcome = Outcome::counted(answer);
    if answer.is_ok() {
        outcome.by_eight = same_shapes(plane.then(), plane.now(), w, h, list_has_eight(&list))?;
    }
    Ok(outcome)
}

/// Whether a list is sound and all its passes have eight neighbours.
fn list_has_eight(list: &Guarded<u8>) -> bool {
    reference::list_passes(list.now()).is_ok_and(|passes| passes.iter().all(|pass| pass.neighbours == EIGHT))
}

/// The plane that a list leaves of a first plane, and its answer.
pub fn listed(
    list: &Guarded<u8>,
    first: &[u8],
    w: usize,
    h: usize,
    random: &mut Random,
) -> Result<(Vec<u8>, Counted), String> {
    let (mut plane, mut work) = (Guarded::holding(first, random), Work::exact(random, w * h));
    let answer = list_call(list, &mut plane, &mut work, w, h)?;
    Ok((plane.now().to_vec(), answer))
}

fn list_call(
    list: &Guarded<u8>,
    plane: &mut Guarded<u8>,
    work: &mut Work,
    w: usize,
    h: usize,
) -> Result<Counted, String> {
    let first = plane.now().to_vec();
    let mut expected = first.clone();
    let (marks, queue) = (work.marks.len(), work.queue.len());
    let answer = work.judged(reference::run_list(list.now(), &mut expected, marks, queue, w, h));
    // SAFETY: each pointer goes with the length of its own memory.
    let library = unsafe {
        ffi::mlhe_run_list(
            list.ptr(),
            list.len(),
            plane.mut_ptr(),
            plane.len(),
            work.marks.mut_ptr(),
            work.marks.len(),
            work.queue.mut_ptr(),
            work.queue.len(),
            w,
            h,
            work.counts.mut_ptr(),
            work.counts.len(),
        )
    };
    same_answer(library, status(answer))?;
    same_content("plane", plane, if answer.is_ok() { &expected } else { &first })?;
    work.same(answer, plane.len())?;
    require(list.untouched(), "the list is not kept")?;
    if let (Ok(counts), Ok(passes)) = (answer, reference::list_passes(list.now())) {
        sufficient(counts, &passes, &first, w, h)?;
    }
    Ok(answer)
}

fn enhance(random: &mut Random) -> Compared {
    let (w, h) = inputs::sides(random);
    let n = w * h;
    let (frame_length, plane_length) = (inputs::exact_length(random, 3 * n), inputs::exact_length(random, n));
    let frame = Guarded::holding(&inputs::frame_bytes(random, w, frame_length), random);
    let mut plane = Guarded::filled(plane_length, random);
    let output_length = inputs::length(random, 3 * n);
    let mut output = Guarded::filled(output_length, random);
    let mut work = Work::new(random, n);
    let settings = inputs::settings_numbers(random, n);
    let (w, h) = inputs::told_sides(random, w, h);
    let answer = enhance_call(&frame, w, h, &settings, &mut plane, &mut work, &mut output)?;
    let mut outcome = Outcome::counted(answer);
    if let (Ok(counts), Some(settings)) = (answer, settings_of(&settings)) {
        let mut first = vec![0; plane.len()];
        reference::intensity(frame.now(), w, h, &mut first).map_err(|_| "the frame is refused")?;
        outcome.by_eight = same_shapes(&first, plane.now(), w, h, settings.neighbours == EIGHT)?;
        sufficient(counts, &reference::level_by_level(&settings), &first, w, h)?;
    }
    Ok(outcome)
}

/// An enhancement by the second implementation.
fn enhance_by_reference(
    frame: &[u8],
    w: usize,
    h: usize,
    settings: &SettingsNumbers,
    plane: &mut [u8],
    work: &Work,
    output: &mut [u8],
) -> Counted {
    let mut run = |settings: &Settings| {
        reference::enhance(frame, w, h, settings, plane, work.marks.len(), work.queue.len(), output)
    };
    match settings_of(settings) {
        Some(settings) => run(&settings),
        // As for a pass: 17 is tested right before 9.
        None => {
            let telling = Settings { last_level: 8, area: 1, rule: Rule::Limited { k: 0 }, neighbours: FOUR };
            run(&telling).map_err(|number| if number == 9 { 17 } else { number })
        }
    }
}

fn enhance_by_library(
    frame: &Guarded<u8>,
    w: usize,
    h: usize,
    settings: &SettingsNumbers,
    plane: &mut Guarded<u8>,
    work: &mut Work,
    output: &mut Guarded<u8>,
) -> i64 {
    // SAFETY: each pointer goes with the length of its own memory.
    unsafe {
        ffi::mlhe_enhance(
            frame.ptr(),
            frame.len(),
            w,
            h,
            settings.last,
            settings.area,
            settings.rule.ptr(),
            settings.rule.len(),
            plane.mut_ptr(),
            plane.len(),
            work.marks.mut_ptr(),
            work.marks.len(),
            work.queue.mut_ptr(),
            work.queue.len(),
            output.mut_ptr(),
            output.len(),
            work.counts.mut_ptr(),
            work.counts.len(),
        )
    }
}

fn settings_of(settings: &SettingsNumbers) -> Option<Settings> {
    let (rule, neighbours) = rule(&settings.rule)?;
    Some(Settings { last_level: settings.last.into(), area: settings.area, rule, neighbours })
}

fn enhance_call(
    frame: &Guarded<u8>,
    w: usize,
    h: usize,
    settings: &SettingsNumbers,
    plane: &mut Guarded<u8>,
    work: &mut Work,
    output: &mut Guarded<u8>,
) -> Result<Counted, String> {
    let (mut expected, mut recoloured) = (plane.now().to_vec(), output.now().to_vec());
    let by_reference = enhance_by_reference(frame.now(), w, h, settings, &mut expected, work, &mut recoloured);
    let answer = work.judged(by_reference);
    same_answer(enhance_by_library(frame, w, h, settings, plane, work, output), status(answer))?;
    same_content("plane", plane, if answer.is_ok() { &expected } else { plane.then() })?;
    same_content("output", output, if answer.is_ok() { &recoloured } else { output.then() })?;
    work.same(answer, plane.len())?;
    require(frame.untouched() && settings.rule.untouched(), "the frame or the rule is not kept")?;
    if answer.is_ok() {
        let written = &output.now()[..frame.len()];
        require(reversed_channels(frame.now(), written) == 0, "channels are reversed")?;
    }
    Ok(answer)
}

/// An enhancement of the greatest number of pixels, with the house setting but for the number of neighbours.
pub fn greatest(w: usize, h: usize, neighbours: u16, random: &mut Random) -> Compared {
    let n = w * h;
    let settings = inputs::house(random, neighbours);
    let frame = Guarded::holding(&inputs::frame_bytes(random, w, 3 * n), random);
    let (mut plane, mut output) = (Guarded::filled(n, random), Guarded::filled(3 * n, random));
    let mut work = Work::exact(random, n);
    Ok(Outcome::counted(enhance_call(&frame, w, h, &settings, &mut plane, &mut work, &mut output)?))
}

/// Enhancements of a grey frame with many components of one value, at every last level. The library's own list of the
/// same passes, of version 2 where they have eight neighbours, leaves the same plane and the same counts.
fn levels(random: &mut Random) -> Compared {
    let (w, h) = (random.between(1, 12), random.between(1, 12));
    let n = w * h;
    let greys = inputs::flat_values(random, w, n);
    let frame: Vec<u8> = greys.iter().flat_map(|&grey| [grey; 3]).collect();
    let frame = Guarded::holding(&frame, random);
    let (area, [code, low, high, segments]) = inputs::sound_numbers(random, n);
    let lent = [code, low, high, segments, random.one_of(&[4, 8])];
    let mut outcome = Outcome::default();
    for last in 0..=7 {
        let settings = SettingsNumbers { last, area, rule: Guarded::holding(&lent, random) };
        let (mut plane, mut output) = (Guarded::filled(n, random), Guarded::filled(3 * n, random));
        let mut work = Work::exact(random, n);
        let enhanced = enhance_call(&frame, w, h, &settings, &mut plane, &mut work, &mut output)?;
        let settings = settings_of(&settings).ok_or("there is no such rule")?;
        let version = if settings.neighbours == EIGHT { Version::Two } else { random.one_of(&Version::BOTH) };
        let list = reference::list_bytes_of(version, &reference::level_by_level(&settings));
        let (listed, run) = listed(&Guarded::holding(&list, random), &greys, w, h, random)?;
        require(enhanced == run, &format!("an enhancement answers {enhanced:?}, and its list {run:?}"))?;
        require(plane.now() == listed, "an enhancement and its list leave different planes")?;
        outcome.by_eight |= same_shapes(&greys, &listed, w, h, settings.neighbours == EIGHT)?;
        outcome.add(enhanced);
        outcome.add(run);
    }
    Ok(outcome)
}

fn read(random: &mut Random) -> Compared {
    let bytes = Guarded::holding(&inputs::p6_bytes(random), random);
    let lent = random.one_of(&[0, 2, 3, 3, 3, 3, 4, 9]);
    let mut numbers: Guarded<usize> = Guarded::filled(lent, random);
    let mut expected = numbers.now().to_vec();
    let result = reference::read(bytes.now(), reference::GREATEST_PIXELS).and_then(|frame| {
        let first = expected.get_mut(..3).ok_or(14)?;
        first.copy_from_slice(&[frame.w, frame.h, frame.offset]);
        Ok(0u64)
    });
    let answer = encoded(result);
    // SAFETY: each pointer goes with the length of its own memory.
    let library = unsafe { ffi::mlhe_read(bytes.ptr(), bytes.len(), numbers.mut_ptr(), numbers.len()) };
    same_answer(library, answer)?;
    require(numbers.kept_beyond(numbers.len()), "the guards of the numbers are not kept")?;
    require(numbers.now() == expected, "the numbers differ")?;
    require(bytes.untouched(), "the bytes are not kept")?;
    Ok(Outcome::of(answer))
}

fn write(random: &mut Random) -> Compared {
    let (w, h) = inputs::sides(random);
    let raster_length = inputs::exact_length(random, 3 * w * h);
    let raster = Guarded::holding(&inputs::frame_bytes(random, w, raster_length), random);
    let needed = reference::header(w, h).len() + 3 * w * h;
    let output_length = inputs::length(random, needed);
    let mut output = Guarded::filled(output_length, random);
    let (w, h) = inputs::told_sides(random, w, h);

    let mut expected = output.now().to_vec();
    let answer = encoded(reference::write(raster.now(), w, h, &mut expected).map(|length| length as u64));
    // SAFETY: each pointer goes with the length of its own memory.
    let library = unsafe { ffi::mlhe_write(raster.ptr(), raster.len(), w, h, output.mut_ptr(), output.len()) };
    same_answer(library, answer)?;
    same_content("output", &output, &expected)?;
    require(raster.untouched(), "the raster is not kept")?;
    if answer >= 0 {
        let mut numbers = [0; 3];
        // SAFETY: so many bytes were written, and `numbers` has three elements.
        let back = unsafe { ffi::mlhe_read(output.ptr(), answer as usize, numbers.as_mut_ptr(), 3) };
        let offset = answer as usize - raster.len();
        require(back == 0 && numbers == [w, h, offset], "what was written does not read back")?;
    }
    Ok(Outcome::of(answer))
}

/// One call of a chain: a pass with one of these numbers of neighbours, or a list of such. Answers also whether all its
/// passes have eight.
fn link(
    plane: &mut Guarded<u8>,
    w: usize,
    h: usize,
    neighbours: inputs::Neighbours,
    random: &mut Random,
) -> Result<(Counted, bool), String> {
    let n = w * h;
    let mut work = Work::new(random, n);
    if one_in(random, 6) {
        let list = Guarded::holding(&inputs::list_bytes(random, 4, n, neighbours), random);
        return Ok((list_call(&list, plane, &mut work, w, h)?, list_has_eight(&list)));
    }
    let pass = inputs::pass_numbers(random, n, neighbours);
    Ok((pass_call(plane, &mut work, w, h, &pass)?, has_eight(&pass)))
}

/// A frame's intensity, any number of passes and lists on it, accepted or refused, and its recolouring. The accepted
/// passes have four neighbours, eight, or now the one and now the other.
fn chain(random: &mut Random) -> Compared {
    let (w, h) = inputs::sides(random);
    let n = w * h;
    let frame = Guarded::holding(&inputs::frame_bytes(random, w, 3 * n), random);
    let mut plane = Guarded::filled(n, random);
    // SAFETY: each pointer goes with the length of its own memory.
    let filled = unsafe { ffi::mlhe_intensity(frame.ptr(), frame.len(), w, h, plane.mut_ptr(), plane.len()) };
    same_answer(filled, 0)?;
    let mut first = vec![0; n];
    reference::intensity(frame.now(), w, h, &mut first).map_err(|_| "the frame is refused")?;
    same_content("plane", &plane, &first)?;

    let mut outcome = Outcome::of(filled);
    let neighbours = inputs::neighbours(random);
    let mut all_eight = true;
    for _ in 0..random.between(0, 9) {
        plane.settle();
        let (answer, with_eight) = link(&mut plane, w, h, neighbours, random)?;
        all_eight &= answer.is_err() || with_eight;
        outcome.add(answer);
    }
    outcome.by_eight = same_shapes(&first, plane.now(), w, h, all_eight)?;

    plane.settle();
    let beyond = random.between(0, 9);
    let mut output = Guarded::filled(3 * n + beyond, random);
    outcome.answers.push(recolour_call(&frame, w, h, &plane, &mut output)?);
    Ok(outcome)
}
