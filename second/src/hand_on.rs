//! The folder for the restorers (docs/HAND-ON.md): sound, marks and labels of each programme, and what the reel says
//! beside them. Holds one superframe at a time.

pub mod names;
pub mod stretches;
pub mod wav;

use crate::listing::Tally;
use crate::radius;
use crate::reel::{self, End};
use crate::superframe::{State, Taken, FRAMES, PROGRAMMES};
use crate::totals::Totals;
use crate::transcript;
use names::Names;
use std::ffi::OsString;
use std::fs::{self, File};
use std::io::{self, BufWriter, Read, Write};
use std::os::unix::ffi::OsStrExt;
use std::path::{Path, PathBuf};
use stretches::{Stretch, Stretches, Trouble};
use wav::Track;

const BUFFER: usize = 1 << 16;

type Buffered = BufWriter<File>;

/// What shall be written where: `FOLDER [NAME COMMIT [RADIUS]]`.
#[derive(Debug)]
pub struct Order {
    pub folder: PathBuf,
    /// The reel's name as it was given.
    pub name: OsString,
    pub commit: OsString,
    pub radius: u8,
}

impl Order {
    /// None where the words are too few or too many.
    pub fn parse(words: &[OsString]) -> Option<Result<Order, String>> {
        let dash = OsString::from("-");
        let (folder, name, commit, radius) = match words {
            [folder] => (folder, &dash, &dash, Ok(radius::ORDINARY)),
            [folder, name, commit] => (folder, name, commit, Ok(radius::ORDINARY)),
            [folder, name, commit, radius] => (
                folder,
                name,
                commit,
                radius::parse(&radius.to_string_lossy()),
            ),
            _ => return None,
        };
        Some(radius.map(|radius| Order {
            folder: folder.into(),
            name: name.clone(),
            commit: commit.clone(),
            radius,
        }))
    }
}

/// Writes the folder, which must not be there; none is left where the header is refused.
pub fn write(input: impl Read, order: &Order) -> io::Result<End> {
    fs::create_dir(&order.folder)?;
    let mut folder = Folder::start(&order.folder)?;
    let mut state = State::fresh();
    let end = reel::walk(input, |bytes| {
        let (answer, next) = state.take(order.radius, bytes);
        // The listing counts by the ordinary reading, whatever the radius.
        match order.radius {
            radius::ORDINARY => folder.tally.add(&answer),
            _ => folder.tally.add(&state.take(radius::ORDINARY, bytes).0),
        }
        let before = std::mem::replace(&mut state, next);
        folder.superframes += 1;
        match answer {
            Ok(taken) => folder.put_taken(&before, &taken),
            Err(_) => folder.put_lost(),
        }
    })?;
    if end == End::Refused {
        fs::remove_dir_all(&order.folder)?;
    } else {
        folder.finish(end, order, &state.totals)?;
    }
    Ok(end)
}

/// The folder while it is written.
struct Folder {
    superframes: u64,
    programmes: Vec<Programme>,
    tally: Tally,
    notes: Names,
    names: Buffered,
    words: Buffered,
    about: Buffered,
    listing: Buffered,
    totals: Buffered,
}

impl Folder {
    fn start(folder: &Path) -> io::Result<Folder> {
        let programmes = (1..=PROGRAMMES).map(|number| Programme::start(folder, number));
        Ok(Folder {
            superframes: 0,
            programmes: programmes.collect::<io::Result<_>>()?,
            tally: Tally::default(),
            notes: Names::default(),
            names: create(folder, "names.txt")?,
            words: create(folder, "words.txt")?,
            about: create(folder, "about.txt")?,
            listing: create(folder, "listing.txt")?,
            totals: create(folder, "totals.txt")?,
        })
    }

    fn put_taken(&mut self, before: &State, taken: &Taken) -> io::Result<()> {
        for (p, programme) in self.programmes.iter_mut().enumerate() {
            programme.put_taken(p, taken)?;
        }
        let service = &before.service;
        let lines = self
            .notes
            .hear(self.superframes, service, &taken.six, &taken.heard);
        self.names.write_all(lines.as_bytes())?;
        writeln!(self.words, "{}", transcript::words_line(taken))
    }

    fn put_lost(&mut self) -> io::Result<()> {
        for programme in &mut self.programmes {
            programme.put_lost()?;
        }
        writeln!(self.words, "lost")
    }

    fn finish(mut self, end: End, order: &Order, totals: &Totals) -> io::Result<()> {
        for programme in self.programmes {
            programme.finish()?;
        }
        self.tally.write(end, &mut self.listing)?;
        totals.write(end, &mut self.totals)?;
        let Order {
            name,
            commit,
            radius,
            ..
        } = order;
        for (word, value) in [
            ("reel", name.as_bytes()),
            ("radius", radius.to_string().as_bytes()),
            ("commit", commit.as_bytes()),
        ] {
            self.about
                .write_all(&[word.as_bytes(), b" ", value, b"\n"].concat())?;
        }
        // Dropped, a buffer would not say that its file could not be written.
        for mut text in [
            self.names,
            self.words,
            self.about,
            self.listing,
            self.totals,
        ] {
            text.flush()?;
        }
        Ok(())
    }
}

/// The three files of a programme.
struct Programme {
    sound: Track<Buffered>,
    marks: Track<Buffered>,
    stretches: Stretches,
    labels: Buffered,
}

impl Programme {
    fn start(folder: &Path, number: usize) -> io::Result<Programme> {
        let create = |kind| create(folder, &format!("{number:02}.{kind}"));
        Ok(Programme {
            sound: Track::start(wav::SOUND, create("wav")?)?,
            marks: Track::start(wav::MARKS, create("marks.wav")?)?,
            stretches: Stretches::default(),
            labels: create("labels.txt")?,
        })
    }

    /// Of programme `p`, counted from 0.
    fn put_taken(&mut self, p: usize, taken: &Taken) -> io::Result<()> {
        for (samples, marks) in taken.samples.iter().zip(&taken.marks) {
            let (left, right) = (2 * p, 2 * p + 1);
            let marks = [marks[left], marks[right]];
            self.sound
                .put(&wav::sound_bytes([samples[left], samples[right]]))?;
            self.marks.put(&wav::mark_bytes(marks))?;
            let trouble = Trouble::of_marks(marks);
            put_label(&mut self.labels, self.stretches.pair(trouble))?;
        }
        Ok(())
    }

    fn put_lost(&mut self) -> io::Result<()> {
        for _ in 0..FRAMES {
            self.sound.put(&wav::sound_bytes([0, 0]))?;
            self.marks.put(&[wav::LOST, wav::LOST])?;
            put_label(&mut self.labels, self.stretches.pair(Some(Trouble::Lost)))?;
        }
        Ok(())
    }

    fn finish(mut self) -> io::Result<()> {
        self.sound.finish()?;
        self.marks.finish()?;
        put_label(&mut self.labels, self.stretches.end())?;
        self.labels.flush()
    }
}

fn put_label(labels: &mut Buffered, stretch: Option<Stretch>) -> io::Result<()> {
    stretch.map_or(Ok(()), |stretch| writeln!(labels, "{}", stretch.line()))
}

fn create(folder: &Path, name: &str) -> io::Result<Buffered> {
    Ok(BufWriter::with_capacity(
        BUFFER,
        File::create_new(folder.join(name))?,
    ))
}
