//! A table with memberships beside it: a method for each call that asks them or changes them, and the table's others.
use crate::answers::{Done, Error, InfoRow, Scene, SceneList, Stored};
use crate::ffi::{self, BothOutcome, Groups, GroupsMut, GroupsState, LentMut, Outcome, State};
use crate::fields::{ask_pairs, pairs_max, Asked};
use crate::requests::{Applied, CopyRequest, GroupKey, SceneKey, Transition};
use crate::table::{Scenes, MAX_FIELDS};

/// The most memberships that are held.
pub const MAX_MEMBERSHIPS: usize = 256;

/// A table of at most `N` scenes and at most [`MAX_MEMBERSHIPS`] memberships, for a host without a group cluster. It owns the memory of both.
/// A membership is a fabric, an endpoint and a group. Commands take none: they ask the memberships that are held.
///
/// ```
/// use scenes::{Error, GroupKey, GroupedScenes, SceneKey};
///
/// let mut table = GroupedScenes::<16>::new();
/// let group = GroupKey { fabric: 1, endpoint: 1, group: 7 };
/// let key = SceneKey { fabric: 1, endpoint: 1, group: 7, scene: 5 };
/// assert_eq!(table.store(key, b"\x15\x18"), Err(Error::InvalidCommand));
///
/// table.join(group)?;
/// assert!(table.store(key, b"\x15\x18")?.save);
/// assert_eq!(table.view(key)?.fields, b"\x15\x18\x18");
///
/// // With the group its scenes go.
/// assert!(table.leave(group)?.save);
/// assert_eq!((table.is_member(group)?, table.scenes().entries()), (false, 0));
/// # Ok::<(), Error>(())
/// ```
///
/// Its calls that ask or change memberships test the table and the memberships: [`Error::Unsound`] if a stray write has damaged either.
// INVARIANT: the table is sound, as `Scenes` has it: calls that ask and calls that change both leave a sound table sound too (`StaysSound` of
// crates/group_observation/specs/Promises.antt). The memory is lent to these and to calls of `Scenes`.
#[derive(Clone, Debug, PartialEq, Eq)]
pub struct GroupedScenes<const N: usize> {
    pub(crate) scenes: Scenes<N>,
    pub(crate) held: usize,
    pub(crate) words: [u64; MAX_MEMBERSHIPS],
}

impl<const N: usize> Default for GroupedScenes<N> {
    fn default() -> Self {
        Self::new()
    }
}

// The membership of a word.
fn key_of_word(word: u64) -> GroupKey {
    GroupKey { fabric: (word >> 40) as u8, endpoint: (word >> 24) as u16, group: (word >> 8) as u16 }
}

impl<const N: usize> GroupedScenes<N> {
    /// No scenes, no modes and no memberships, at data version 0.
    ///
    /// ```
    /// let table = scenes::GroupedScenes::<16>::new();
    /// assert_eq!((table.scenes().entries(), table.memberships().count()), (0, 0));
    /// ```
    pub fn new() -> Self {
        Self::beside(Scenes::new())
    }

    /// The same with [`modes`](crate::modes).
    ///
    /// ```
    /// use scenes::{modes, GroupedScenes};
    ///
    /// assert_eq!(GroupedScenes::<5>::with_modes(modes::SHARE).scenes().modes(), modes::SHARE);
    /// ```
    pub fn with_modes(modes: u8) -> Self {
        Self::beside(Scenes::with_modes(modes))
    }

    // No memberships beside a table.
    fn beside(scenes: Scenes<N>) -> Self {
        GroupedScenes { scenes, held: ffi::groups::new().held, words: [0; MAX_MEMBERSHIPS] }
    }

    /// A table and the memberships of words that were copied by [`words`](GroupedScenes::words), in their order. [`Error::Unsound`] if there are
    /// more than [`MAX_MEMBERSHIPS`] or if one is no word of a membership.
    ///
    /// ```
    /// use scenes::{Error, GroupKey, GroupedScenes, Scenes};
    ///
    /// let mut table = GroupedScenes::<16>::new();
    /// table.join(GroupKey { fabric: 1, endpoint: 2, group: 3 })?;
    /// assert_eq!(table.words(), [0x1_0002_0003_00]);
    /// assert_eq!(GroupedScenes::from_words(Scenes::new(), table.words())?, table);
    /// assert_eq!(GroupedScenes::from_words(Scenes::<16>::new(), &[0x2_0003_00]), Err(Error::Unsound));
    /// # Ok::<(), Error>(())
    /// ```
    pub fn from_words(scenes: Scenes<N>, words: &[u64]) -> Result<Self, Error> {
        let mut table = Self::beside(scenes);
        table.words.get_mut(..words.len()).ok_or(Error::Unsound)?.copy_from_slice(words);
        table.held = words.len();
        if ffi::groups::is_sound(table.groups()) {
            Ok(table)
        } else {
            Err(Error::Unsound)
        }
    }

    /// The words of the memberships, in order, each fabric × 2^40 + endpoint × 2^24 + group × 2^8. An image does not have them: a host that keeps
    /// memberships over a power failure keeps these words.
    pub fn words(&self) -> &[u64] {
        self.words.get(..self.held).unwrap_or(&[])
    }

    /// The memberships that are held, in the order in which they were joined.
    ///
    /// ```
    /// use scenes::{Error, GroupKey, GroupedScenes};
    ///
    /// let mut table = GroupedScenes::<16>::new();
    /// let groups = [7, 5, 6].map(|group| GroupKey { fabric: 1, endpoint: 1, group });
    /// groups.into_iter().try_for_each(|group| table.join(group))?;
    /// assert!(table.memberships().eq(groups));
    /// # Ok::<(), Error>(())
    /// ```
    pub fn memberships(&self) -> impl DoubleEndedIterator<Item = GroupKey> + ExactSizeIterator + '_ {
        self.words().iter().map(|&word| key_of_word(word))
    }

    /// The table without the memberships, to be read: its counts, its data version, its modes and its memory.
    pub fn scenes(&self) -> &Scenes<N> {
        &self.scenes
    }

    /// Whether the table and the memberships are sound, as [`Scenes::is_sound`].
    ///
    /// ```
    /// assert!(scenes::GroupedScenes::<16>::new().is_sound());
    /// ```
    pub fn is_sound(&self) -> bool {
        self.scenes.is_sound() && ffi::groups::is_sound(self.groups())
    }

    /// Joins a group. A membership that is held stays as it is. Group 0 cannot be joined, and where all memberships are taken no new one can.
    ///
    /// ```
    /// use scenes::{Error, GroupKey, GroupedScenes};
    ///
    /// let mut table = GroupedScenes::<16>::new();
    /// let key = |group| GroupKey { fabric: 1, endpoint: 1, group };
    /// assert_eq!(table.join(key(0)), Err(Error::ConstraintError));
    /// (1..=256).try_for_each(|group| table.join(key(group)))?;
    /// assert_eq!(table.join(key(257)), Err(Error::MembershipsFull));
    /// assert_eq!(table.join(key(256)), Ok(()));
    /// # Ok::<(), Error>(())
    /// ```
    pub fn join(&mut self, key: GroupKey) -> Result<(), Error> {
        let joined = ffi::groups::join(self.both().2, key);
        self.held = joined.state.held;
        if joined.status == 0 {
            Ok(())
        } else {
            Err(Error::of(joined.status))
        }
    }

    /// Leaves a group: the membership goes, and its scenes and records fare as by [`remove_all`](GroupedScenes::remove_all). Group 0 cannot be
    /// left, and a membership that is not held is [`Error::NotFound`]. That something is to be saved is said of the scenes alone.
    pub fn leave(&mut self, key: GroupKey) -> Result<Done, Error> {
        let (state, lent, groups) = self.both();
        let left = ffi::groups::leave(state, lent, groups, key);
        self.kept(left)
    }

    /// Whether a membership is held: no for group 0.
    pub fn is_member(&self, key: GroupKey) -> Result<bool, Error> {
        let read = ffi::groups::is_member(self.groups(), key);
        if read.status == 0 {
            Ok(read.held != 0)
        } else {
            Err(Error::of(read.status))
        }
    }

    /// [`Scenes::add`], asking.
    pub fn add(&mut self, key: SceneKey, time: u32, pairs: &[u8], fields: &[u8]) -> Result<Done, Error> {
        let (state, lent, groups) = self.asking();
        let done = ffi::groups::add(state, lent, groups, key, time, pairs, fields);
        self.scenes.done(done)
    }

    /// [`Scenes::add_read`], asking for the membership too.
    ///
    /// ```
    /// use scenes::{pair, Error, GroupKey, GroupedScenes, SceneKey};
    ///
    /// let fields = b"\x15\x24\x00\x06\x36\x01\x15\x24\x00\x01\x18\x18\x18\x18";
    /// let mut table = GroupedScenes::<16>::new();
    /// table.join(GroupKey { fabric: 1, endpoint: 1, group: 7 })?;
    /// let key = SceneKey { fabric: 1, endpoint: 1, group: 7, scene: 5 };
    /// assert!(table.add_read(key, 1000, fields, |_, _| pair::SCENABLE)?.save);
    /// assert_eq!(table.add_read(key, 1000, &fields[..13], |_, _| pair::SCENABLE), Err(Error::BadFieldSets));
    /// # Ok::<(), Error>(())
    /// ```
    pub fn add_read(&mut self, key: SceneKey, time: u32, fields: &[u8], ask: impl FnMut(u32, u32) -> u8) -> Result<Done, Error> {
        match ask_pairs(fields, &mut [0; pairs_max(MAX_FIELDS)], ask) {
            Asked::Read(pairs) => self.add_answered(key, time, pairs, fields),
            Asked::Listed(pairs) => self.add(key, time, pairs, fields),
        }
    }

    /// [`Scenes::add_answered`], asking for the membership.
    pub fn add_answered(&mut self, key: SceneKey, time: u32, pairs: &[u8], fields: &[u8]) -> Result<Done, Error> {
        let (state, lent, groups) = self.asking();
        let done = ffi::groups::add_read(state, lent, groups, key, time, pairs, fields);
        self.scenes.done(done)
    }

    /// [`Scenes::store`], asking.
    pub fn store(&mut self, key: SceneKey, captured: &[u8]) -> Result<Stored, Error> {
        let (state, lent, groups) = self.asking();
        let stored = ffi::groups::store(state, lent, groups, key, captured);
        let ffi::Stored { state, status, save, compared } = stored;
        let Done { save } = self.scenes.done(Outcome { state, status, save })?;
        Ok(Stored { save, compared })
    }

    /// [`Scenes::view`], asking.
    pub fn view(&self, key: SceneKey) -> Result<Scene<'_>, Error> {
        self.scenes.scene(ffi::groups::view(self.scenes.state(), self.scenes.lent(), self.groups(), key))
    }

    /// [`Scenes::recall_lookup`], asking.
    pub fn recall_lookup(&self, key: SceneKey, transition: Transition) -> Result<Scene<'_>, Error> {
        let (given, time) = transition.numbers();
        let table = &self.scenes;
        table.scene(ffi::groups::recall_lookup(table.state(), table.lent(), self.groups(), key, given, time))
    }

    /// [`Scenes::recall`], asking.
    pub fn recall(&mut self, key: SceneKey, applied: Applied) -> Result<Done, Error> {
        let (state, lent, groups) = self.asking();
        let done = ffi::groups::recall(state, lent, groups, key, applied.number());
        self.scenes.done(done)
    }

    /// [`Scenes::remove`], asking.
    pub fn remove(&mut self, key: SceneKey) -> Result<Done, Error> {
        let (state, lent, groups) = self.asking();
        let done = ffi::groups::remove(state, lent, groups, key);
        self.scenes.done(done)
    }

    /// [`Scenes::remove_all`], asking. The membership stays.
    pub fn remove_all(&mut self, key: GroupKey) -> Result<Done, Error> {
        let (state, lent, groups) = self.asking();
        let done = ffi::groups::remove_all(state, lent, groups, key);
        self.scenes.done(done)
    }

    /// [`Scenes::copy`], asking for both groups.
    pub fn copy(&mut self, request: CopyRequest) -> Result<Done, Error> {
        let (state, lent, groups) = self.asking();
        let done = ffi::groups::copy(state, lent, groups, request);
        self.scenes.done(done)
    }

    /// [`Scenes::get_membership`], asking: the scene ids of a group. The memberships themselves are
    /// [`memberships`](GroupedScenes::memberships).
    pub fn get_membership<'a>(&self, key: GroupKey, ids: &'a mut [u8]) -> Result<SceneList<'a>, Error> {
        let table = &self.scenes;
        let read = ffi::groups::get_membership(table.state(), table.lent(), self.groups(), ids, key);
        if read.status != 0 {
            return Err(Error::of(read.status));
        }
        Ok(SceneList { remaining: read.remaining, ids: ids.get(..read.len).unwrap_or(&[]) })
    }

    /// [`Scenes::read_info`].
    pub fn read_info(&self, fabric: u8, endpoint: u16, single: bool) -> Result<Option<InfoRow>, Error> {
        self.scenes.read_info(fabric, endpoint, single)
    }

    /// [`Scenes::field_bytes`].
    pub fn field_bytes(&self, at: usize) -> &[u8] {
        self.scenes.field_bytes(at)
    }

    /// [`Scenes::attribute_changed`].
    pub fn attribute_changed(&mut self, endpoint: u16) -> Result<Done, Error> {
        self.scenes.attribute_changed(endpoint)
    }

    /// A fabric left: its scenes, its current scene and its memberships go, and nobody else's. That something is to be saved is said of the scenes
    /// alone.
    ///
    /// ```
    /// use scenes::{Done, Error, GroupKey, GroupedScenes};
    ///
    /// let mut table = GroupedScenes::<16>::new();
    /// let key = |fabric| GroupKey { fabric, endpoint: 1, group: 7 };
    /// table.join(key(1))?;
    /// table.join(key(2))?;
    /// assert_eq!(table.remove_fabric(1), Ok(Done { save: false }));
    /// assert!(table.memberships().eq([key(2)]));
    /// # Ok::<(), Error>(())
    /// ```
    pub fn remove_fabric(&mut self, fabric: u8) -> Result<Done, Error> {
        let (state, lent, groups) = self.both();
        let done = ffi::groups::remove_fabric(state, lent, groups, fabric);
        self.kept(done)
    }

    /// A factory reset: an empty table, a step of the data version, and no memberships.
    pub fn factory_reset(&mut self) -> Result<Done, Error> {
        let done = ffi::groups::factory_reset(self.scenes.state(), self.scenes.lent(), self.groups());
        self.kept(done)
    }

    /// [`Scenes::startup`]. The memberships stay.
    pub fn startup(&mut self) -> Result<Done, Error> {
        self.scenes.startup()
    }

    /// [`Scenes::fail_safe_commit`].
    pub fn fail_safe_commit(&mut self) -> Result<Done, Error> {
        self.scenes.fail_safe_commit()
    }

    /// [`Scenes::fail_safe_expiry`].
    pub fn fail_safe_expiry(&mut self) -> Result<Done, Error> {
        self.scenes.fail_safe_expiry()
    }

    /// No image of this table has more bytes.
    pub const IMAGE_MAX: usize = Scenes::<N>::IMAGE_MAX;

    /// [`Scenes::save`]. An image does not have the memberships: their [`words`](GroupedScenes::words) are for that.
    pub fn save<'a>(&self, buffer: &'a mut [u8]) -> Result<&'a [u8], Error> {
        self.scenes.save(buffer)
    }

    /// [`Scenes::load`]. The memberships stay.
    ///
    /// ```
    /// use scenes::{Error, GroupKey, GroupedScenes, SceneKey};
    ///
    /// let mut table = GroupedScenes::<16>::new();
    /// table.join(GroupKey { fabric: 1, endpoint: 1, group: 7 })?;
    /// table.store(SceneKey { fabric: 1, endpoint: 1, group: 7, scene: 5 }, b"")?;
    /// table.load(b"")?;
    /// assert_eq!((table.scenes().entries(), table.memberships().count()), (0, 1));
    /// # Ok::<(), Error>(())
    /// ```
    pub fn load(&mut self, image: &[u8]) -> Result<Done, Error> {
        self.scenes.load(image)
    }

    pub(crate) fn groups(&self) -> Groups<'_> {
        Groups { state: GroupsState { held: self.held }, words: &self.words }
    }

    // The table to be written, with the memberships to be read, and with both to be written.
    fn asking(&mut self) -> (State, LentMut<'_>, Groups<'_>) {
        let (state, lent) = self.scenes.lend();
        (state, lent, Groups { state: GroupsState { held: self.held }, words: &self.words })
    }

    pub(crate) fn both(&mut self) -> (State, LentMut<'_>, GroupsMut<'_>) {
        let (state, lent) = self.scenes.lend();
        (state, lent, GroupsMut { state: GroupsState { held: self.held }, words: &mut self.words })
    }

    // Keeps both heads that came back.
    fn kept(&mut self, outcome: BothOutcome) -> Result<Done, Error> {
        let BothOutcome { state, groups, status, save } = outcome;
        self.held = groups.held;
        self.scenes.done(Outcome { state, status, save })
    }
}
