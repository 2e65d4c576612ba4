// Document 02, Asks 8 and 11, over lists of calls. No state is kept here: a trail is a start and the steps since, each kept name has one, and a state is what
// replaying its trail leaves in the stepping model. A start is a job that was opened, or drawings that were laid together.
use crate::model::lone::Act;
use crate::oracle::open;
use crate::output;
use crate::reasons::History;
use crate::table::Table;
use crate::text::number;
use std::borrow::Cow;
use std::rc::Rc;

/// So many states may be kept.
pub const STATES: usize = 4;
pub const MUDDLED: u8 = 7;
pub const UNKNOWN_NAME: u8 = 14;
pub const NO_PLACE: u8 = 15;

/// A start, and the record numbers stepped since, refused steps too.
#[derive(Clone)]
pub struct Trail {
    start: Rc<Table>,
    steps: Vec<usize>,
}

impl Trail {
    fn begun(start: Table) -> Trail {
        Trail { start: Rc::new(start), steps: Vec::new() }
    }

    /// The state that it leads to.
    pub fn replayed(&self) -> Table {
        let mut state = Table::clone(&self.start);
        for &record in &self.steps {
            // A refused step changes nothing.
            let _ = state.step(record);
        }
        state
    }
}

/// The trail of the live state and of each place's copy; none where somebody else wrote the words.
#[derive(Clone)]
pub struct Trails {
    live: Option<Trail>,
    /// The live state: what replaying its trail gives, step by step.
    now: Table,
    /// Each place's word: a name and 1; 0 and every other number is free.
    names: [u32; STATES],
    places: [Option<Trail>; STATES],
}

impl Default for Trails {
    /// A work space of any words.
    fn default() -> Trails {
        Trails { live: None, now: Table::of(History::nothing()), names: [0; STATES], places: Default::default() }
    }
}

impl Trails {
    /// A job was opened: its start is the live state, and no name is kept. Copies are as found.
    pub fn open(&mut self, start: History) {
        self.begin(Table::of(start));
        self.names = [0; STATES];
    }

    fn begin(&mut self, start: Table) {
        self.now = start.clone();
        self.live = Some(Trail::begun(start));
    }

    /// The second's drawings are laid after this one's: a start. Names and copies stay, and none of the second's is brought. Both live states must be known.
    pub fn lay(&mut self, second: &Trails) -> Result<(), u8> {
        self.tested()?;
        second.tested()?;
        self.begin(self.now.beside(&second.now)?);
        Ok(())
    }

    /// A job was refused: every word is 0, those of copies too, and zeros are a state without a record.
    pub fn refused(&mut self) {
        self.open(History::nothing());
        self.places = std::array::from_fn(|_| Some(Trail::begun(Table::of(History::nothing()))));
    }

    /// Somebody wrote into the live block.
    pub fn lose_live(&mut self) {
        self.live = None;
    }

    /// Somebody wrote a place's word.
    pub fn write_word(&mut self, place: usize, word: u32) {
        self.names[place] = word;
    }

    /// Somebody wrote into a place's copy.
    pub fn lose_copy(&mut self, place: usize) {
        self.places[place] = None;
    }

    /// Whether only calls made the live state.
    pub fn is_known(&self) -> bool {
        self.live.is_some()
    }

    /// The live state, if only calls made it, and then its table.
    pub fn live(&self) -> Option<Cow<'_, History>> {
        self.table().map(Table::as_one)
    }

    pub fn table(&self) -> Option<&Table> {
        self.live.as_ref().map(|_| &self.now)
    }

    /// What a place's copy holds, whether it is kept or not.
    pub fn copy(&self, place: usize) -> Option<Table> {
        self.places[place].as_ref().map(Trail::replayed)
    }

    /// Whether a place's trail has another start than the live one.
    pub fn is_earlier(&self, place: usize) -> bool {
        let starts = self.live.as_ref().zip(self.places[place].as_ref());
        starts.is_some_and(|(live, kept)| !Rc::ptr_eq(&live.start, &kept.start))
    }

    /// The live state once more, from its start.
    pub fn live_replayed(&self) -> Option<Table> {
        self.live.as_ref().map(Trail::replayed)
    }

    /// "A work space keeping one name twice meets 7."
    pub fn tested(&self) -> Result<(), u8> {
        let kept: Vec<u32> = self.names.into_iter().filter(|word| (1..=256).contains(word)).collect();
        let twice = kept.iter().enumerate().any(|(at, word)| kept[..at].contains(word));
        if twice {
            return Err(MUDDLED);
        }
        Ok(())
    }

    fn place_of(&self, name: u8) -> Option<usize> {
        self.names.iter().position(|word| *word == u32::from(name) + 1)
    }

    pub fn step(&mut self, record: usize) -> Result<Act, u8> {
        self.tested()?;
        if let Some(trail) = &mut self.live {
            trail.steps.push(record);
        }
        self.now.step(record)
    }

    /// Every ring to done, records rising, as finishing in one call does.
    pub fn finish(&mut self) -> Result<(), u8> {
        let mut record = 0;
        while record < self.now.records() {
            match self.step(record) {
                Ok(_) => {}
                Err(crate::model::forest::OUT_OF_TURN) => record += 1,
                Err(refusal) => return Err(refusal),
            }
        }
        Ok(())
    }

    /// The place that the name is kept at.
    pub fn keep(&mut self, name: u8) -> Result<usize, u8> {
        self.tested()?;
        let free = |word: &u32| !(1..=256).contains(word);
        let place = self.place_of(name).or_else(|| self.names.iter().position(free)).ok_or(NO_PLACE)?;
        self.names[place] = u32::from(name) + 1;
        self.places[place] = self.live.clone();
        Ok(place)
    }

    /// The place that was gone back to.
    pub fn go_back(&mut self, name: u8) -> Result<usize, u8> {
        self.tested()?;
        let place = self.place_of(name).ok_or(UNKNOWN_NAME)?;
        self.live = self.places[place].clone();
        if let Some(trail) = &self.live {
            self.now = trail.replayed();
        }
        Ok(place)
    }

    /// The place that is free now.
    pub fn drop_name(&mut self, name: u8) -> Result<usize, u8> {
        self.tested()?;
        let place = self.place_of(name).ok_or(UNKNOWN_NAME)?;
        self.names[place] = 0;
        Ok(place)
    }

    /// One line of a list of calls, and what the program `states_cases` prints of it.
    fn line(&mut self, line: &str, start: &History) -> Result<String, String> {
        let words: Vec<&str> = line.split(' ').collect();
        let answer = match words[..] {
            ["open"] => {
                self.open(start.clone());
                return Ok(String::new());
            }
            ["word", place, word] => {
                let place: usize = number(place)?;
                if place >= STATES {
                    return Err(format!("no such place: {line}"));
                }
                self.write_word(place, number(word)?);
                return Ok(String::new());
            }
            ["step", record] => self.step(number(record)?).map(|_| 0),
            ["keep", name] => self.keep(number(name)?),
            ["back", name] => self.go_back(number(name)?),
            ["drop", name] => self.drop_name(number(name)?),
            _ => return Err(format!("no such call: {line}")),
        };
        let table = self.table().ok_or("a state that no call left")?;
        let answer = answer.err().unwrap_or(0);
        Ok(format!("{line} {answer} {} {}\n", table.points(), table.records()))
    }
}

/// A list of calls in a file, on a job: each call, its answer, and both counts after it.
pub fn list(job: &[u8], file: &str) -> Result<(), String> {
    let calls = std::fs::read_to_string(file).map_err(|why| format!("cannot read {file}: {why}"))?;
    let opened = open(job).map_err(|refusal| format!("the job is refused with {refusal}"))?;
    let start = History::opened(&opened);
    let mut trails = Trails::default();
    trails.open(start.clone());
    let lines: Result<String, String> = calls.lines().map(|line| trails.line(line, &start)).collect();
    output(lines?.as_bytes())
}
