//! Nesting: openers name the place of their closer, closers must stand there ("The file").

/// The number of entries that may be open at once.
pub const MAX_OPEN: usize = 16;

/// Room for the open entries and for one below them that is none; a power of two, so that an
/// index is kept inside by a mask.
pub(crate) const LEVELS: usize = 32;

/// The closer that an open entry waits for. An IF waits for its ELSE, then for its END.
#[derive(Clone, Copy, Debug, PartialEq, Eq)]
pub(crate) enum Closer {
    Else,
    EndOfIf,
    Again,
    EndOfBlock,
}

/// An open entry: the closer it waits for, the place it names, its opener's place.
#[derive(Clone, Copy)]
struct Entry {
    closer: Closer,
    named: usize,
    opener: usize,
}

/// Stands below the open entries and names no place, so that no closer fits it.
const NO_ENTRY: Entry = Entry {
    closer: Closer::Else,
    named: usize::MAX,
    opener: 0,
};

/// What an END ends, with the opener's place.
pub(crate) enum Ended {
    If(usize),
    Block(usize),
}

/// The nesting is broken at the place at hand.
pub(crate) struct Broken;

/// The open entries met so far in one thread's code, innermost last.
pub(crate) struct Nesting {
    entries: [Entry; LEVELS],
    depth: usize,
    /// The place that the innermost entry names.
    named: usize,
}

impl Nesting {
    #[inline]
    pub fn new() -> Nesting {
        Nesting {
            entries: [NO_ENTRY; LEVELS],
            depth: 0,
            named: NO_ENTRY.named,
        }
    }

    /// How many entries are open: none, at the code's end.
    #[inline]
    pub fn depth(&self) -> usize {
        self.depth
    }

    /// An instruction that neither opens nor closes.
    #[inline]
    pub fn plain(&self, place: usize) -> Result<(), Broken> {
        require(place != self.named)
    }

    /// IF, WHILE, ATOMIC.
    #[inline]
    pub fn open(&mut self, closer: Closer, place: usize, distance: u16) -> Result<(), Broken> {
        require((place != self.named) & (distance != 0) & (self.depth < MAX_OPEN))?;
        self.depth += 1;
        self.wait_for(closer, place + usize::from(distance), place);
        Ok(())
    }

    /// ELSE puts its END's place into its IF's entry: it never opens a 17th, and an outer entry
    /// that names the same place is no offence yet.
    #[inline]
    pub fn turn_to_else(&mut self, place: usize, distance: u16) -> Result<(), Broken> {
        let entry = self.innermost();
        require((place == self.named) & (entry.closer == Closer::Else) & (distance != 0))?;
        let named = place + usize::from(distance);
        self.wait_for(Closer::EndOfIf, named, entry.opener);
        Ok(())
    }

    /// AGAIN; answers its WHILE's place.
    #[inline]
    pub fn again(&mut self, place: usize, distance: u16) -> Result<usize, Broken> {
        let entry = self.innermost();
        require((place == self.named) & (entry.closer == Closer::Again))?;
        require(place - entry.opener == usize::from(distance))?;
        self.close();
        Ok(entry.opener)
    }

    /// END; answers what it ends.
    #[inline]
    pub fn end(&mut self, place: usize) -> Result<Ended, Broken> {
        let entry = self.innermost();
        require(place == self.named)?;
        self.close();
        match entry.closer {
            Closer::EndOfIf => Ok(Ended::If(entry.opener)),
            Closer::EndOfBlock => Ok(Ended::Block(entry.opener)),
            Closer::Else | Closer::Again => Err(Broken),
        }
    }

    #[inline]
    fn innermost(&self) -> Entry {
        self.entries[self.depth % LEVELS]
    }

    #[inline]
    fn wait_for(&mut self, closer: Closer, named: usize, opener: usize) {
        self.named = named;
        self.entries[self.depth % LEVELS] = Entry {
            closer,
            named,
            opener,
        };
    }

    #[inline]
    fn close(&mut self) {
        self.depth -= 1;
        self.named = self.innermost().named;
    }
}

#[inline]
fn require(holds: bool) -> Result<(), Broken> {
    if holds {
        Ok(())
    } else {
        Err(Broken)
    }
}
