//! How a run is opened.
use crate::{Backend, Command, Driver, ImageSet, Mode, NameList, Refusal, Session, REPLY};

/// What a session is opened with and how its run behaves. Only backend and mode have no default.
///
/// ```
/// use worgesli::{Backend, Mode, Options};
/// let options = Options::new(Backend::Usb, Mode::MemoryDebug).names(["ocimem", "ddrcs0_0"]).timeouts(3);
/// let run = options.start()?;
/// # Ok::<(), worgesli::Refusal>(())
/// ```
#[derive(Clone, Debug)]
#[must_use]
pub struct Options {
    pub(crate) backend: Backend,
    pub(crate) mode: Mode,
    pub(crate) command: Option<Command>,
    images: Result<ImageSet, Refusal>,
    names: Result<NameList, Refusal>,
    pub(crate) reply: usize,
    pub(crate) timeouts: u32,
}

impl Options {
    /// No command, no images, no names (the device's preference decides), no time-out borne, a reply of up to [`REPLY`] bytes.
    pub fn new(backend: Backend, mode: Mode) -> Options {
        let (images, names) = (ImageSet::new(&[]), NameList::new::<&[u8]>(&[]));
        Options { backend, mode, command: None, images, names, reply: REPLY, timeouts: 0 }
    }

    /// What a device in command mode is asked for.
    pub fn command(self, command: Command) -> Options {
        Options { command: Some(command), ..self }
    }

    /// The images that a device may ask for, by slot. With one slot, every ID means it; an absent image has a slot too.
    pub fn images(self, images: &[Option<Vec<u8>>]) -> Options {
        Options { images: ImageSet::new(images), ..self }
    }

    /// An image set made elsewhere.
    pub fn image_set(self, set: ImageSet) -> Options {
        Options { images: Ok(set), ..self }
    }

    /// The names of the regions to dump: stems of filenames, in any case.
    pub fn names<N: AsRef<[u8]>>(self, names: impl IntoIterator<Item = N>) -> Options {
        let names: Vec<N> = names.into_iter().collect();
        Options { names: NameList::new(&names), ..self }
    }

    /// A name list made elsewhere.
    pub fn name_list(self, names: NameList) -> Options {
        Options { names: Ok(names), ..self }
    }

    /// The longest reply to a command; a longer one is refused (16).
    pub fn reply(self, len: usize) -> Options {
        Options { reply: len, ..self }
    }

    /// How many time-outs in a row a run bears, a read of 0 bytes counted as one.
    pub fn timeouts(self, timeouts: u32) -> Options {
        Options { timeouts, ..self }
    }

    /// Opens a session. Refused: 1 and 2, where there are more than 64 images or names, or more than 2^32 - 2 bytes of them.
    pub fn start(&self) -> Result<Driver, Refusal> {
        let (set, names) = self.bundles()?;
        Ok(Driver::with(Session::open(self.mode, self.command, self.backend), set, names, self.reply, self.timeouts))
    }

    pub(crate) fn bundles(&self) -> Result<(ImageSet, NameList), Refusal> {
        Ok((self.images.clone()?, self.names.clone()?))
    }
}
