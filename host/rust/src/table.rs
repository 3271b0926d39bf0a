//! The table: its memory, and a method for each call. But for a load they do not test the table: it is its owner, and [`Scenes`] says why
//! that is enough.
#![allow(unsafe_code)]
use core::sync::atomic::{compiler_fence, Ordering};

use crate::answers::{Done, Error, InfoRow, Scene, SceneList, Stored};
use crate::ffi::{self, Lent, LentMut, Outcome, SceneRead, State};
use crate::fields::{ask_pairs, pairs_max, Asked};
use crate::requests::{Applied, CopyRequest, GroupKey, Membership, SceneKey, Transition};

/// The version of the interface that this crate is for. It steps whenever a struct, an answer or a call of the library changes.
pub const VERSION: u32 = 8;

/// The version of the library that was linked: [`VERSION`], unless the crate was linked with another's.
///
/// ```
/// assert_eq!(scenes::library_version(), scenes::VERSION);
/// ```
pub fn library_version() -> u32 {
    ffi::version()
}

/// The largest table.
pub const MAX_SCENES: usize = 1024;

/// The most field bytes of a scene.
pub const MAX_FIELDS: usize = 128;

/// The bytes that an entry's fields take: a length, then room for [`MAX_FIELDS`].
pub const STRIDE: usize = 129;

/// No image of a table of so many places has more bytes.
///
/// ```
/// assert_eq!(scenes::image_max(16), 2744);
/// ```
pub const fn image_max(places: usize) -> usize {
    171 * places + 8
}

/// The longest transition time, in milliseconds.
pub const MAX_TIME: u32 = 60_000_000;

/// The most that is reported of a remaining capacity: so many, or more, remain.
pub const MAX_REMAINING: u8 = 253;

/// All that a table is: its head but for N, and its memory as it lies. What a host keeps over a power failure is the image that
/// [`save`](Scenes::save) writes.
#[derive(Clone, Debug, PartialEq, Eq)]
pub struct Memory<const N: usize> {
    /// How many scenes there are.
    pub entries: usize,
    /// How many fabrics have a current scene.
    pub recorded: usize,
    /// The data version of FabricSceneInfo.
    pub dataver: u32,
    /// The table's [`modes`](crate::modes).
    pub modes: u8,
    /// For each scene its key word: fabric × 2^40 + endpoint × 2^24 + group × 2^8 + scene.
    pub keys: [u64; N],
    /// For each scene its transition time.
    pub times: [u32; N],
    /// For each scene the length of its fields, and the fields.
    pub fields: [[u8; STRIDE]; N],
    /// For each fabric's current scene its key word, plus 2^48 while it is valid.
    pub records: [u64; N],
}

/// A table of at most `N` scenes that owns its memory. A table of more than [`MAX_SCENES`] does not compile:
///
/// ```compile_fail
/// let table = scenes::Scenes::<1025>::new();
/// ```
///
/// Its calls do not test whether the table is sound, as those of a host in C do: nobody else can write the memory of a table that owns it.
/// What is given up with the test is that a stray write, of other unsafe code or by faulty memory, is noticed: after one a call may answer
/// anything, and read or write elsewhere. A host that wants to notice it asks [`is_sound`](Scenes::is_sound).
// INVARIANT: the table is sound, which is the condition of an unchecked call. It begins so: `empty` has a new head over arrays of N places, N
// at most 1,024 (`new-sound` of crates/observation/specs/Owned.antt), and `from_memory` tests what it is given. And from a sound start the
// condition holds before every call of any list, loads among them and whatever is answered, if the head that comes back is kept, as `done`
// does (`stays_sound`, there). Nothing else writes: `memory` is private, `memory()` lends it to be read, and `GroupedScenes` says the same of
// its own calls.
#[derive(Clone, Debug, PartialEq, Eq)]
pub struct Scenes<const N: usize> {
    pub(crate) memory: Memory<N>,
}

impl<const N: usize> Default for Scenes<N> {
    fn default() -> Self {
        Self::new()
    }
}

impl<const N: usize> Scenes<N> {
    const FITS: () = assert!(N <= MAX_SCENES, "a table has at most 1,024 scenes");

    /// An empty table without modes, at data version 0.
    ///
    /// ```
    /// let table = scenes::Scenes::<16>::new();
    /// assert_eq!((table.entries(), table.data_version(), table.modes()), (0, 0, 0));
    /// ```
    pub fn new() -> Self {
        Self::empty(ffi::new(N))
    }

    /// An empty table with [`modes`](crate::modes), at data version 0. They are fixed: every call keeps them. An image does not hold them:
    /// a table that is loaded from one is made with its modes again.
    ///
    /// ```
    /// use scenes::{modes, Error, Membership, SceneKey, Scenes};
    ///
    /// // Of five places a fabric's share is two.
    /// let mut table = Scenes::<5>::with_modes(modes::SHARE);
    /// let key = |fabric, scene| SceneKey { fabric, endpoint: 1, group: 0, scene };
    /// table.add(key(1, 1), 1000, Membership::Yes, &[], b"\x18")?;
    /// table.add(key(1, 2), 1000, Membership::Yes, &[], b"\x18")?;
    /// assert_eq!(table.add(key(1, 3), 1000, Membership::Yes, &[], b"\x18"), Err(Error::InsufficientSpace));
    ///
    /// // One of the two is overwritten, and another fabric has a share of its own.
    /// assert!(table.add(key(1, 2), 2000, Membership::Yes, &[], b"\x18")?.save);
    /// assert!(table.add(key(2, 3), 1000, Membership::Yes, &[], b"\x18")?.save);
    /// # Ok::<(), Error>(())
    /// ```
    pub fn with_modes(modes: u8) -> Self {
        Self::empty(ffi::new_with_modes(N, modes))
    }

    // The table of a new head, with zeros in its memory.
    fn empty(head: State) -> Self {
        let () = Self::FITS;
        let State { entries, recorded, dataver, modes, .. } = head;
        let memory =
            Memory { entries, recorded, dataver, modes, keys: [0; N], times: [0; N], fields: [[0; STRIDE]; N], records: [0; N] };
        Scenes { memory }
    }

    /// The table in memory that was copied, with its modes. [`Error::Unsound`] if it is not that of a table.
    ///
    /// ```
    /// use scenes::{Error, Scenes};
    ///
    /// let mut memory = Scenes::<16>::new().memory().clone();
    /// assert!(Scenes::from_memory(memory.clone()).is_ok());
    /// memory.entries = 17;
    /// assert_eq!(Scenes::from_memory(memory), Err(Error::Unsound));
    /// ```
    pub fn from_memory(memory: Memory<N>) -> Result<Self, Error> {
        let () = Self::FITS;
        let table = Scenes { memory };
        if table.is_sound() {
            Ok(table)
        } else {
            Err(Error::Unsound)
        }
    }

    /// The table's memory, as it lies.
    pub fn memory(&self) -> &Memory<N> {
        &self.memory
    }

    /// No image of this table has more bytes.
    pub const IMAGE_MAX: usize = image_max(N);

    /// Writes the table's image, which is what rs-matter saves, into the front of a buffer. [`IMAGE_MAX`](Scenes::IMAGE_MAX) bytes are
    /// always enough; in a shorter buffer that it does not fit nothing is written.
    ///
    /// ```
    /// use scenes::{Error, Membership, SceneKey, Scenes};
    ///
    /// let mut table = Scenes::<16>::new();
    /// let key = SceneKey { fabric: 1, endpoint: 1, group: 0, scene: 5 };
    /// table.store(key, Membership::Yes, b"")?;
    /// let mut buffer = [0; Scenes::<16>::IMAGE_MAX];
    /// let image = table.save(&mut buffer)?;
    ///
    /// let mut other = Scenes::<16>::new();
    /// other.load(image)?;
    /// assert_eq!(other.view(key, Membership::Yes), table.view(key, Membership::Yes));
    /// assert_eq!(table.save(&mut [0; 4]), Err(Error::BufferTooShort));
    /// # Ok::<(), Error>(())
    /// ```
    pub fn save<'a>(&self, buffer: &'a mut [u8]) -> Result<&'a [u8], Error> {
        // SAFETY: the table is sound, by the invariant of `Scenes`.
        let saved = unsafe { ffi::unchecked::save_image(self.state(), self.lent(), buffer) };
        if saved.status != 0 {
            return Err(Error::of(saved.status));
        }
        Ok(buffer.get(..saved.len).unwrap_or(&[]))
    }

    /// Replaces the scenes and the records by those of an image, in order, and steps the data version. Whatever the bytes are: what is
    /// no image of a table of this size is refused, and changes nothing. No bytes, as a new memory chip has them, are a
    /// [`startup`](Scenes::startup). Of all the calls this one tests the table that is there: [`Error::Unsound`] if it is not sound.
    ///
    /// ```
    /// use scenes::{Error, Scenes};
    ///
    /// let mut table = Scenes::<16>::new();
    /// assert_eq!(table.load(b"\x15\x36\x00\x18"), Err(Error::BadImage));
    /// assert!(table.load(b"\x15\x36\x00\x18\x36\x01\x18\x18").is_ok());
    /// assert_eq!((table.entries(), table.data_version()), (0, 1));
    /// assert!(table.load(b"").is_ok());
    /// assert_eq!((table.entries(), table.data_version()), (0, 1));
    /// ```
    pub fn load(&mut self, image: &[u8]) -> Result<Done, Error> {
        let (state, lent) = self.lend();
        let done = ffi::tested::load_image(state, lent, image);
        self.done(done)
    }

    /// How many scenes there are.
    pub fn entries(&self) -> usize {
        self.memory.entries
    }

    /// How many fabrics have a current scene.
    pub fn recorded(&self) -> usize {
        self.memory.recorded
    }

    /// The data version of FabricSceneInfo.
    pub fn data_version(&self) -> u32 {
        self.memory.dataver
    }

    /// The table's [`modes`](crate::modes), with which it was made.
    pub fn modes(&self) -> u8 {
        self.memory.modes
    }

    /// Whether the table is sound: it is, as long as only the table's own calls write its memory. A host that reckons with stray writes asks
    /// after whatever may have made one, a watchdog's reset or a memory error that was reported, and at times that it chooses, as before a
    /// save. A table that is not sound is not to be used any more, nor saved: a [`new`](Scenes::new) one is, and the last image is loaded into it.
    ///
    /// ```
    /// assert!(scenes::Scenes::<16>::new().is_sound());
    /// ```
    pub fn is_sound(&self) -> bool {
        ffi::is_sound(self.state(), self.lent())
    }

    /// Adds a scene, or gives it a new time and new fields. `pairs` has a byte of [`pair`](crate::pair) for each attribute that it sets.
    ///
    /// ```
    /// use scenes::{pair, Error, Membership, SceneKey, Scenes};
    ///
    /// let mut table = Scenes::<16>::new();
    /// let key = SceneKey { fabric: 1, endpoint: 1, group: 0, scene: 5 };
    /// assert!(table.add(key, 1000, Membership::Yes, &[pair::SCENABLE], b"\x18")?.save);
    /// assert_eq!(table.add(key, 1000, Membership::Yes, &[pair::NOT_SCENABLE], b"\x18"), Err(Error::InvalidCommand));
    /// # Ok::<(), Error>(())
    /// ```
    pub fn add(&mut self, key: SceneKey, time: u32, member: Membership, pairs: &[u8], fields: &[u8]) -> Result<Done, Error> {
        let (state, lent) = self.lend();
        // SAFETY: the table is sound, by the invariant of `Scenes`.
        let done = unsafe { ffi::unchecked::add(state, lent, key, time, member.number(), pairs, fields) };
        self.done(done)
    }

    /// Adds a scene by its raw field bytes. Their pairs are read, and each is asked about, in order: `ask` is given the cluster and the
    /// attribute, and answers a byte of [`pair`](crate::pair). Bytes that are no list of field sets are refused, and nothing is asked.
    ///
    /// ```
    /// use scenes::{pair, Error, Membership, SceneKey, Scenes};
    ///
    /// let fields = b"\x15\x24\x00\x06\x36\x01\x15\x24\x00\x01\x18\x15\x24\x00\x02\x18\x18\x18\x18";
    /// let scenable = |cluster, attribute| match (cluster, attribute) {
    ///     (6, 1 | 2) => pair::SCENABLE,
    ///     (6, _) => pair::NOT_SCENABLE,
    ///     _ => pair::CLUSTER_UNKNOWN,
    /// };
    /// let mut table = Scenes::<16>::new();
    /// let key = SceneKey { fabric: 1, endpoint: 1, group: 0, scene: 5 };
    /// assert!(table.add_read(key, 1000, Membership::Yes, fields, scenable)?.save);
    /// assert_eq!(table.add_read(key, 1000, Membership::Yes, &fields[..18], scenable), Err(Error::BadFieldSets));
    /// # Ok::<(), Error>(())
    /// ```
    pub fn add_read(
        &mut self,
        key: SceneKey,
        time: u32,
        member: Membership,
        fields: &[u8],
        ask: impl FnMut(u32, u32) -> u8,
    ) -> Result<Done, Error> {
        match ask_pairs(fields, &mut [0; pairs_max(MAX_FIELDS)], ask) {
            Asked::Read(pairs) => self.add_answered(key, time, member, pairs, fields),
            Asked::Listed(pairs) => self.add(key, time, member, pairs, fields),
        }
    }

    /// Adds a scene by its raw field bytes, as [`add_read`](Scenes::add_read) does, for a host that has asked before: `pairs` has a byte of
    /// [`pair`](crate::pair) for each of [`field_pairs`](crate::field_pairs).
    ///
    /// ```
    /// use scenes::{pair, Error, Membership, SceneKey, Scenes};
    ///
    /// let fields = b"\x15\x24\x00\x06\x36\x01\x15\x24\x00\x01\x18\x15\x24\x00\x02\x18\x18\x18\x18";
    /// let mut table = Scenes::<16>::new();
    /// let key = SceneKey { fabric: 1, endpoint: 1, group: 0, scene: 5 };
    /// assert!(table.add_answered(key, 1000, Membership::Yes, &[pair::SCENABLE; 2], fields)?.save);
    /// assert_eq!(table.add_answered(key, 1000, Membership::Yes, &[pair::SCENABLE], fields), Err(Error::BadFieldSets));
    /// # Ok::<(), Error>(())
    /// ```
    pub fn add_answered(
        &mut self,
        key: SceneKey,
        time: u32,
        member: Membership,
        pairs: &[u8],
        fields: &[u8],
    ) -> Result<Done, Error> {
        let (state, lent) = self.lend();
        // SAFETY: the table is sound, by the invariant of `Scenes`.
        let done = unsafe { ffi::unchecked::add_read(state, lent, key, time, member.number(), pairs, fields) };
        self.done(done)
    }

    /// Stores captured bytes as a scene, with the end of their container behind them. It becomes the fabric's current scene. The host is told
    /// how many key words were compared; an empty table has none, so 0 is the count of a success too.
    ///
    /// ```
    /// use scenes::{Error, Membership, SceneKey, Scenes, Stored};
    ///
    /// let mut table = Scenes::<16>::new();
    /// let key = SceneKey { fabric: 1, endpoint: 1, group: 2, scene: 5 };
    /// assert_eq!(table.store(key, Membership::No, b"\x15"), Err(Error::InvalidCommand));
    /// assert_eq!(table.store(key, Membership::Yes, b"\x15")?, Stored { save: true, compared: 0 });
    /// assert_eq!(table.store(key, Membership::Yes, b"\x15")?, Stored { save: true, compared: 1 });
    /// # Ok::<(), Error>(())
    /// ```
    pub fn store(&mut self, key: SceneKey, member: Membership, captured: &[u8]) -> Result<Stored, Error> {
        let (state, lent) = self.lend();
        // SAFETY: the table is sound, by the invariant of `Scenes`.
        let ffi::Stored { state, status, save, compared } =
            unsafe { ffi::unchecked::store(state, lent, key, member.number(), captured) };
        let Done { save } = self.done(Outcome { state, status, save })?;
        Ok(Stored { save, compared })
    }

    /// A scene's time and fields.
    ///
    /// ```
    /// use scenes::{Error, Membership, SceneKey, Scenes};
    ///
    /// let mut table = Scenes::<16>::new();
    /// let key = SceneKey { fabric: 1, endpoint: 1, group: 0, scene: 5 };
    /// assert_eq!(table.view(key, Membership::Yes), Err(Error::NotFound));
    /// table.add(key, 1000, Membership::Yes, &[], b"\x18")?;
    /// let scene = table.view(key, Membership::Yes)?;
    /// assert_eq!((scene.time, scene.fields), (1000, &b"\x18"[..]));
    /// # Ok::<(), Error>(())
    /// ```
    pub fn view(&self, key: SceneKey, member: Membership) -> Result<Scene<'_>, Error> {
        // SAFETY: the table is sound, by the invariant of `Scenes`.
        self.scene(unsafe { ffi::unchecked::view(self.state(), self.lent(), key, member.number()) })
    }

    /// What a recall applies: the time that counts and the scene's fields. The host applies them, and then ends the recall by
    /// [`recall`](Scenes::recall).
    ///
    /// ```
    /// use scenes::{Applied, Error, Membership, SceneKey, Scenes, Transition};
    ///
    /// let mut table = Scenes::<16>::new();
    /// let key = SceneKey { fabric: 1, endpoint: 1, group: 0, scene: 5 };
    /// table.add(key, 1000, Membership::Yes, &[], b"\x18")?;
    /// let scene = table.recall_lookup(key, Membership::Yes, Transition::Given(300))?;
    /// assert_eq!((scene.time, scene.fields), (300, &b"\x18"[..]));
    /// assert!(table.recall(key, Membership::Yes, Applied::Yes)?.save);
    /// # Ok::<(), Error>(())
    /// ```
    pub fn recall_lookup(&self, key: SceneKey, member: Membership, transition: Transition) -> Result<Scene<'_>, Error> {
        let (given, time) = transition.numbers();
        // SAFETY: the table is sound, by the invariant of `Scenes`.
        self.scene(unsafe { ffi::unchecked::recall_lookup(self.state(), self.lent(), key, member.number(), given, time) })
    }

    /// Ends a recall: a scene that the host has applied becomes the fabric's current one.
    pub fn recall(&mut self, key: SceneKey, member: Membership, applied: Applied) -> Result<Done, Error> {
        let (state, lent) = self.lend();
        // SAFETY: the table is sound, by the invariant of `Scenes`.
        let done = unsafe { ffi::unchecked::recall(state, lent, key, member.number(), applied.number()) };
        self.done(done)
    }

    /// Removes a scene.
    ///
    /// ```
    /// use scenes::{Error, Membership, SceneKey, Scenes};
    ///
    /// let mut table = Scenes::<16>::new();
    /// let key = SceneKey { fabric: 1, endpoint: 1, group: 0, scene: 5 };
    /// table.add(key, 1000, Membership::Yes, &[], b"\x18")?;
    /// assert!(table.remove(key, Membership::Yes)?.save);
    /// assert_eq!(table.remove(key, Membership::Yes), Err(Error::NotFound));
    /// # Ok::<(), Error>(())
    /// ```
    pub fn remove(&mut self, key: SceneKey, member: Membership) -> Result<Done, Error> {
        let (state, lent) = self.lend();
        // SAFETY: the table is sound, by the invariant of `Scenes`.
        let done = unsafe { ffi::unchecked::remove(state, lent, key, member.number()) };
        self.done(done)
    }

    /// Removes all scenes of a group on an endpoint. Nothing is to be saved where there were none.
    ///
    /// ```
    /// use scenes::{Error, GroupKey, Membership, Scenes};
    ///
    /// let mut table = Scenes::<16>::new();
    /// let group = GroupKey { fabric: 1, endpoint: 1, group: 0 };
    /// assert!(!table.remove_all(group, Membership::Yes)?.save);
    /// # Ok::<(), Error>(())
    /// ```
    pub fn remove_all(&mut self, key: GroupKey, member: Membership) -> Result<Done, Error> {
        let (state, lent) = self.lend();
        // SAFETY: the table is sound, by the invariant of `Scenes`.
        let done = unsafe { ffi::unchecked::remove_all(state, lent, key, member.number()) };
        self.done(done)
    }

    /// Copies a scene, or with [`CopyRequest::ALL`] a whole group. A whole group that runs out midway answers
    /// [`Error::InsufficientSpace`] and keeps the copies that it made.
    ///
    /// ```
    /// use scenes::{CopyRequest, Error, GroupScene, Membership, SceneKey, Scenes};
    ///
    /// let mut table = Scenes::<16>::new();
    /// let key = SceneKey { fabric: 1, endpoint: 1, group: 2, scene: 5 };
    /// table.add(key, 1000, Membership::Yes, &[], b"\x18")?;
    /// let from = GroupScene { group: 2, scene: 5 };
    /// let to = GroupScene { group: 3, scene: 6 };
    /// let request = CopyRequest { fabric: 1, endpoint: 1, mode: 0, from, to };
    /// assert!(table.copy(request, Membership::Yes, Membership::Yes)?.save);
    /// assert_eq!(table.entries(), 2);
    /// # Ok::<(), Error>(())
    /// ```
    pub fn copy(&mut self, request: CopyRequest, source: Membership, target: Membership) -> Result<Done, Error> {
        let (state, lent) = self.lend();
        // SAFETY: the table is sound, by the invariant of `Scenes`.
        let done = unsafe { ffi::unchecked::copy(state, lent, request, source.number(), target.number()) };
        self.done(done)
    }

    /// The remaining capacity of a fabric, and the scene ids of a group, written to the front of a buffer. [`MAX_SCENES`] bytes are
    /// always enough.
    ///
    /// ```
    /// use scenes::{Error, GroupKey, Membership, SceneKey, Scenes};
    ///
    /// let mut table = Scenes::<16>::new();
    /// let key = SceneKey { fabric: 1, endpoint: 1, group: 2, scene: 5 };
    /// table.add(key, 1000, Membership::Yes, &[], b"\x18")?;
    /// let group = GroupKey { fabric: 1, endpoint: 1, group: 2 };
    /// let mut ids = [0; 16];
    /// let list = table.get_membership(group, Membership::Yes, &mut ids)?;
    /// assert_eq!((list.remaining, list.ids), (6, &[5][..]));
    /// # Ok::<(), Error>(())
    /// ```
    pub fn get_membership<'a>(&self, key: GroupKey, member: Membership, ids: &'a mut [u8]) -> Result<SceneList<'a>, Error> {
        // SAFETY: the table is sound, by the invariant of `Scenes`.
        let read = unsafe { ffi::unchecked::get_membership(self.state(), self.lent(), ids, key, member.number()) };
        if read.status != 0 {
            return Err(Error::of(read.status));
        }
        Ok(SceneList { remaining: read.remaining, ids: ids.get(..read.len).unwrap_or(&[]) })
    }

    /// The fabric's row of FabricSceneInfo on an endpoint, if it has scenes there or a current one. `single` says that one list element
    /// was asked for, which is refused.
    ///
    /// ```
    /// use scenes::{Error, Scenes};
    ///
    /// let table = Scenes::<16>::new();
    /// assert_eq!(table.read_info(1, 1, false), Ok(None));
    /// assert_eq!(table.read_info(1, 1, true), Err(Error::SingleElement));
    /// ```
    pub fn read_info(&self, fabric: u8, endpoint: u16, single: bool) -> Result<Option<InfoRow>, Error> {
        // SAFETY: the table is sound, by the invariant of `Scenes`.
        let read = unsafe { ffi::unchecked::read_info(self.state(), self.lent(), fabric, endpoint, single.into()) };
        if read.status != 0 {
            return Err(Error::of(read.status));
        }
        if read.present == 0 {
            return Ok(None);
        }
        Ok(Some(InfoRow {
            count: read.count,
            group: read.group,
            scene: read.scene,
            valid: read.valid != 0,
            remaining: read.remaining,
            fabric: read.fabric,
        }))
    }

    /// The field bytes of the scene at a position: none past the entries.
    ///
    /// ```
    /// assert_eq!(scenes::Scenes::<16>::new().field_bytes(0), b"");
    /// ```
    pub fn field_bytes(&self, at: usize) -> &[u8] {
        // SAFETY: the table is sound, by the invariant of `Scenes`.
        let found = unsafe { ffi::unchecked::field_bytes(self.state(), self.lent(), at) };
        let bytes = self.memory.fields.as_flattened();
        bytes.get(found.offset..).and_then(|rest| rest.get(..found.len)).unwrap_or(&[])
    }

    /// A scenable attribute changed on an endpoint: no current scene there is valid any more.
    ///
    /// ```
    /// use scenes::{Error, Membership, SceneKey, Scenes};
    ///
    /// let mut table = Scenes::<16>::new();
    /// let key = SceneKey { fabric: 1, endpoint: 1, group: 0, scene: 5 };
    /// table.store(key, Membership::Yes, b"")?;
    /// assert!(!table.attribute_changed(1)?.save);
    /// assert!(table.read_info(1, 1, false)?.is_some_and(|row| !row.valid));
    /// # Ok::<(), Error>(())
    /// ```
    pub fn attribute_changed(&mut self, endpoint: u16) -> Result<Done, Error> {
        let (state, lent) = self.lend();
        // SAFETY: the table is sound, by the invariant of `Scenes`.
        let done = unsafe { ffi::unchecked::attribute_changed(state, lent, endpoint) };
        self.done(done)
    }

    /// A fabric left: its scenes and its current scene go, and nobody else's.
    pub fn remove_fabric(&mut self, fabric: u8) -> Result<Done, Error> {
        let (state, lent) = self.lend();
        // SAFETY: the table is sound, by the invariant of `Scenes`.
        let done = unsafe { ffi::unchecked::remove_fabric(state, lent, fabric) };
        self.done(done)
    }

    /// A factory reset: an empty table, and a step of the data version. The host drops what it had saved.
    pub fn factory_reset(&mut self) -> Result<Done, Error> {
        // SAFETY: the table is sound, by the invariant of `Scenes`.
        let done = unsafe { ffi::unchecked::factory_reset(self.state(), self.lent()) };
        self.done(done)
    }

    /// A startup without a saved table: an empty table at the data version that it had.
    pub fn startup(&mut self) -> Result<Done, Error> {
        // SAFETY: the table is sound, by the invariant of `Scenes`.
        let done = unsafe { ffi::unchecked::startup(self.state(), self.lent()) };
        self.done(done)
    }

    /// The fail-safe was committed: nothing changes.
    pub fn fail_safe_commit(&mut self) -> Result<Done, Error> {
        // SAFETY: the table is sound, by the invariant of `Scenes`.
        let done = unsafe { ffi::unchecked::fail_safe_commit(self.state(), self.lent()) };
        self.done(done)
    }

    /// The fail-safe expired: nothing changes.
    pub fn fail_safe_expiry(&mut self) -> Result<Done, Error> {
        // SAFETY: the table is sound, by the invariant of `Scenes`.
        let done = unsafe { ffi::unchecked::fail_safe_expiry(self.state(), self.lent()) };
        self.done(done)
    }

    pub(crate) fn state(&self) -> State {
        let Memory { entries, recorded, dataver, modes, .. } = self.memory;
        State { size: N, entries, recorded, dataver, modes }
    }

    pub(crate) fn lent(&self) -> Lent<'_> {
        let memory = &self.memory;
        Lent { keys: &memory.keys, times: &memory.times, fields: memory.fields.as_flattened(), records: &memory.records }
    }

    pub(crate) fn lend(&mut self) -> (State, LentMut<'_>) {
        let state = self.state();
        let memory = &mut self.memory;
        let fields = memory.fields.as_flattened_mut();
        (state, LentMut { keys: &mut memory.keys, times: &mut memory.times, fields, records: &mut memory.records })
    }

    // Keeps the head that came back. The fence is no instruction: it has the two counts read one by one, as the call wrote them. Read at once, they
    // were waited for until both had reached the cache, and a notice took 40 % longer.
    pub(crate) fn keep(&mut self, state: State) {
        self.memory.entries = state.entries;
        compiler_fence(Ordering::SeqCst);
        self.memory.recorded = state.recorded;
        self.memory.dataver = state.dataver;
        self.memory.modes = state.modes;
    }

    // A refusal has a head to be kept too: a whole-group copy that ran out has changed it.
    pub(crate) fn done(&mut self, outcome: Outcome) -> Result<Done, Error> {
        self.keep(outcome.state);
        if outcome.status == 0 {
            Ok(Done { save: outcome.save != 0 })
        } else {
            Err(Error::of(outcome.status))
        }
    }

    pub(crate) fn scene(&self, read: SceneRead) -> Result<Scene<'_>, Error> {
        if read.status != 0 {
            return Err(Error::of(read.status));
        }
        let bytes = self.memory.fields.get(read.at).and_then(|entry| entry[1..].get(..read.len));
        Ok(Scene { time: read.time, at: read.at, fields: bytes.unwrap_or(&[]) })
    }
}
