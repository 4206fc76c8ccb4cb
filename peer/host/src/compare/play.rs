//! A script on the library's agent, every call compared, with calls between that no script has.

use crate::alter::{any_bytes, HARMLESS};
use crate::call::{compared, Call};
use crate::flood;
use crate::ground::{self, MEETINGS};
use crate::spoil::WAYS;
use crate::tally::{Tally, INPUTS_MAX, INPUTS_SOUND, INPUTS_UNSOUND, MARKED_ENDS, SHORT_BUFFERS};
use crate::window;
use host::library::{SaturnAgent, FALLBACK, RUN};
use host::state;
use peer::generate::random::Random;
use peer::generate::{self, sample};
use peer::module::registers::INPUTS;
use peer::module::{Agent, Fixed, REPLY_ROOM};
use peer::script::{parse, Line};

/// Calls between: of each sort, one in this many lines.
const UNSOUND: usize = 2;
const HARMLESS_CHANGE: usize = 30;
const ANY_BYTES: usize = 4;
const SHORT_BUFFER: usize = 2;
const WRONG_HOST: usize = 6;
const FLOOD: usize = 8;
const WINDOW: usize = 4;
const MEETING: usize = 4;

/// What is fixed in the module, and in the one that the scenes are for; by the seed in turn.
const FIXED: [(Fixed, Fixed); 4] = [
    (Fixed::DOORS, Fixed::DOORS),
    (Fixed::LIGHTING, Fixed::LIGHTING),
    (Fixed::DOORS, Fixed::DOORS),
    (Fixed::LIGHTING, Fixed::DOORS),
];

pub struct Play<'a> {
    random: Random,
    seed: u64,
    line: usize,
    scenes: Fixed,
    state: SaturnAgent,
    /// The next way, the next short length, the next length of inputs, and the next meeting of grounds.
    way: usize,
    room: usize,
    length: usize,
    meeting: usize,
    tally: &'a mut Tally,
}

impl<'a> Play<'a> {
    pub fn new(seed: u64, tally: &'a mut Tally) -> Play<'a> {
        let random = Random::new(!seed);
        let (fixed, scenes) = FIXED[seed as usize % FIXED.len()];
        Play {
            seed,
            line: 0,
            scenes,
            state: state::laid_out(&Agent::power_up(1, 2, 0, fixed), &state::BLANK),
            way: seed as usize,
            room: seed as usize * 101 % REPLY_ROOM,
            length: seed as usize,
            meeting: seed as usize,
            random,
            tally,
        }
    }

    /// BAD lines are passed over.
    pub fn script(&mut self, lines: usize) -> Result<(), String> {
        let script = generate::script_as(self.scenes, self.seed, lines);
        for line in script.split(|&byte| byte == b'\n') {
            self.line += 1;
            match parse(line) {
                None => {}
                Some(Line::Ticks(count)) => {
                    let tick = Call::Tick(self.state.regs[INPUTS].to_vec());
                    for _ in 0..count {
                        self.keep(&tick)?;
                    }
                    self.between(&tick)?;
                }
                Some(Line::Inputs(inputs)) => self.both(&Call::Tick(inputs))?,
                Some(Line::Frame { port, body }) => {
                    let room = REPLY_ROOM + self.random.pick(&[0, 0, 1, 55]);
                    self.both(&Call::Frame { port, body, room })?;
                }
            }
        }
        Ok(())
    }

    fn both(&mut self, call: &Call) -> Result<(), String> {
        self.between(call)?;
        self.keep(call)
    }

    /// The call on the agent, which goes on from what it leaves.
    fn keep(&mut self, call: &Call) -> Result<(), String> {
        let before = self.state;
        self.state = self.compare(&before, call)?.1;
        Ok(())
    }

    /// The answer and the state after it, the same on both sides.
    fn compare(&mut self, before: &SaturnAgent, call: &Call) -> Result<(u8, SaturnAgent), String> {
        let (seed, line) = (self.seed, self.line);
        let left = compared(before, call)
            .map_err(|difference| format!("seed {seed}, line {line}: {difference}"))?;
        let answer = format!("answer {:2}", left.answer);
        self.tally.add_limited(&answer, before.fixed.limit);
        if left.answer != 19 {
            self.tally.add(&ground::sound(before));
        }
        if let Some(passage) = ground::passage(before, &left.state) {
            self.tally.add(&passage);
        }
        Ok((left.answer, left.state))
    }

    /// Calls on other states and with other arguments, most of which leave nothing behind.
    fn between(&mut self, call: &Call) -> Result<(), String> {
        if self.random.one_in(UNSOUND) {
            self.unsound(call)?;
        }
        if self.random.one_in(ANY_BYTES) {
            let mut other = self.state;
            any_bytes(&mut self.random, &mut other);
            let call = self.some_call(call);
            self.compare(&other, &call)?;
            self.tally.add("any bytes");
        }
        if self.random.one_in(SHORT_BUFFER) {
            self.short_buffer(call)?;
        }
        if self.random.one_in(WRONG_HOST) {
            self.wrong_host(call)?;
        }
        if self.random.one_in(FLOOD) {
            self.flood()?;
        }
        if self.random.one_in(WINDOW) {
            self.window()?;
        }
        if self.random.one_in(MEETING) {
            self.meet()?;
        }
        if self.random.one_in(HARMLESS_CHANGE) {
            self.harmless(call)?;
        }
        Ok(())
    }

    /// The next way that this state has.
    fn unsound(&mut self, call: &Call) -> Result<(), String> {
        for _ in 0..WAYS.len() {
            self.way += 1;
            let way = &WAYS[self.way % WAYS.len()];
            let mut other = self.state;
            if (way.make)(&mut self.random, &mut other) {
                let call = self.some_call(call);
                let (answer, _) = self.compare(&other, &call)?;
                if answer != 19 {
                    return Err(format!("{} is answered {answer}: {other:?}", way.name));
                }
                self.tally.add(&format!("unsound: {}", way.name));
                if let Call::Tick(inputs) = call {
                    self.tally.add_length(INPUTS_UNSOUND, inputs.len());
                }
                return Ok(());
            }
        }
        Ok(())
    }

    /// The call itself or one of the others, now and then with a wrong argument too.
    fn some_call(&mut self, call: &Call) -> Call {
        match (self.random.below(4), call) {
            (0, _) => Call::Tick(sample::bytes(&mut self.random, 64)),
            (1, _) => Call::Tick(self.next_inputs()),
            (2, Call::Frame { body, .. }) => Call::Frame {
                port: self.random.pick(&[0, 1, 2, 3]),
                body: body.clone(),
                room: self.random.pick(&[0, 544, 545, 545]),
            },
            _ => call.clone(),
        }
    }

    /// Of the next length.
    fn next_inputs(&mut self) -> Vec<u8> {
        self.length = (self.length + 1) % (INPUTS_MAX + 1);
        sample::bytes(&mut self.random, self.length)
    }

    /// The next length, on a port that may be wrong too.
    fn short_buffer(&mut self, call: &Call) -> Result<(), String> {
        let Call::Frame { port, body, .. } = call else {
            return Ok(());
        };
        self.room = (self.room + 1) % REPLY_ROOM;
        let other = self.random.byte();
        let short = Call::Frame {
            port: self.random.pick(&[*port, *port, other]),
            body: body.clone(),
            room: self.room,
        };
        let before = self.state;
        self.compare(&before, &short)?;
        self.tally.add_length(SHORT_BUFFERS, self.room);
        Ok(())
    }

    /// Any port with the body at hand, and inputs of the next length.
    fn wrong_host(&mut self, call: &Call) -> Result<(), String> {
        let before = self.state;
        if let Call::Frame { body, .. } = call {
            let (port, body) = (self.random.byte(), body.clone());
            let room = REPLY_ROOM;
            self.compare(&before, &Call::Frame { port, body, room })?;
            self.tally.add("any port");
        }
        let inputs = self.next_inputs();
        self.tally.add_length(INPUTS_SOUND, inputs.len());
        self.compare(&before, &Call::Tick(inputs))?;
        Ok(())
    }

    /// The last requests that the limit lets in, and some that it does not.
    fn flood(&mut self) -> Result<(), String> {
        let mut state = self.state;
        if state.heard == 0 {
            return Ok(());
        }
        state.taken = state.fixed.limit - self.random.below(5) as u8;
        for _ in 0..6 {
            let call = flood::request(&mut self.random, &state);
            state = self.compare(&state, &call)?.1;
        }
        Ok(())
    }

    /// In RUN: a sync about its window, then two ms.
    fn window(&mut self) -> Result<(), String> {
        let mut state = self.state;
        if state.mode != RUN {
            return Ok(());
        }
        window::alter(&mut self.random, &mut state);
        let call = window::sync(&mut self.random, &state);
        state = self.compare(&state, &call)?.1;
        for _ in 0..2 {
            let before = state;
            state = self.compare(&before, &Call::Tick(vec![0; 64]))?.1;
            let fell = before.mode == RUN && state.mode == FALLBACK;
            if fell && before.mark == 1 && before.cycle != state.cycle {
                self.tally.add(MARKED_ENDS);
            }
        }
        Ok(())
    }

    /// In RUN: the tick of the next meeting of grounds, if these limits have it, then one ms more.
    fn meet(&mut self) -> Result<(), String> {
        self.meeting += 1;
        let (name, meeting) = MEETINGS[self.meeting % MEETINGS.len()];
        let mut state = self.state;
        if state.mode != RUN || !ground::alter(&mut self.random, &mut state, meeting) {
            return Ok(());
        }
        for _ in 0..2 {
            let before = state;
            state = self.compare(&before, &Call::Tick(vec![0; 64]))?.1;
            if before.mode == RUN && state.mode == FALLBACK {
                self.tally.add(&ground::met(name));
            }
        }
        Ok(())
    }

    /// The agent goes on from the altered state, if it is sound.
    fn harmless(&mut self, call: &Call) -> Result<(), String> {
        let place = self.random.below(HARMLESS.len());
        let (name, change) = HARMLESS[place];
        let mut other = self.state;
        change(&mut self.random, &mut other);
        let (answer, after) = self.compare(&other, call)?;
        if answer != 19 {
            self.tally.add(&format!("sound: {name}"));
            self.state = after;
        }
        Ok(())
    }
}
