//! The readers of the second model: each definition as it is said, over whole numbers, with a hurried
//! builder's faults on request.

use super::{number, Fault, Listed, Model, Name, Verdict, View};
use super::{VERSION_1_0, VERSION_2_0, VERSION_2_1};
use crate::images::listed;
use crate::library::Reader;

/// The words of a reader that fits, and its image.
pub(super) struct Fitting<'a> {
    model: &'a Model,
    image: &'a [u8],
    frames: u128,
    names: u128,
    entries: u128,
    index: u128,
    namelist: u128,
    size: u128,
    version: u128,
}

/// "key(f, i) = 65536 * f + i."
fn key(frame: u128, id: u128) -> u128 {
    65_536 * frame + id
}

impl Model {
    /// The words that an opening gives, where these were before.
    pub(super) fn reader_words(&self, image: &[u8], view: &View, before: &Reader) -> Reader {
        let names = view.names.len() as u128;
        let running: usize = view.names.iter().map(|(_, length)| length + 1).sum();
        let list = view.list_end as u128;
        let size = match self.fault {
            Some(Fault::ReaderSizeOfBlock) => 64 * view.segments,
            Some(Fault::ReaderSizeWithoutLastZero) => list.saturating_sub(1),
            Some(Fault::ReaderSizeIsPlace) => view.names_at + list,
            Some(Fault::ReaderRunningSizeIn1_0) => running as u128,
            _ => list,
        };
        let entries = match self.fault {
            Some(Fault::ReaderCountsSlots) => view.slots,
            _ => view.entries.len() as u128,
        };
        let version = match self.fault {
            Some(Fault::ReaderVersionOfEightBytes) => number(image, 40, 8),
            _ => view.version,
        };
        let spare = if self.has(Fault::ReaderKeepsLastWord) { before[7].into() } else { 0 };
        let words = [view.frames, names, entries, view.index, view.names_at, size, version, spare];
        words.map(|word| word as u64)
    }

    /// 33 where the reader does not fit; and before it, by those who err, what they test first.
    pub(super) fn fit<'a>(&'a self, reader: &Reader, image: &'a [u8]) -> Verdict<Fitting<'a>> {
        if self.has(Fault::ReaderOpensAgain) {
            self.view(image)?;
        }
        let [frames, names, entries, index, namelist, size, version, spare] =
            reader.map(u128::from);
        let mut words =
            Fitting { model: self, image, frames, names, entries, index, namelist, size, version };
        if self.has(Fault::ReaderVersionIn32Bits) {
            words.version %= 1 << 32;
        }
        if self.has(Fault::ReaderVersionUnknownIs2_1) && !words.version_known() {
            words.version = VERSION_2_1;
        }
        if !words.fits() || self.has(Fault::ReaderLastWordTested) && spare != 0 {
            return Err(33);
        }
        words.follow_image()?;
        Ok(words)
    }
}

impl Fitting<'_> {
    fn has(&self, fault: Fault) -> bool {
        self.model.has(fault)
    }

    fn version_known(&self) -> bool {
        [VERSION_1_0, VERSION_2_0, VERSION_2_1].contains(&self.version)
    }

    /// "len(img) <= 2^30, version is one of the three, names <= 1024, index + 32 * entries <= len(img),
    /// namelist + size <= len(img)."
    fn fits(&self) -> bool {
        let length = self.image.len() as u128;
        let wrap = |fault, number| self.model.wrap(fault, number);
        let slots = wrap(Fault::ReaderSlotsWrap, 32 * self.entries);
        let index_end = wrap(Fault::ReaderIndexEndWraps, self.index + slots);
        let list_end = wrap(Fault::ReaderListEndWraps, self.namelist + self.size);
        let most = match self.model.fault {
            Some(Fault::ReaderNamesUpTo1023) => 1023,
            Some(Fault::ReaderNamesUpTo1025) => 1025,
            Some(Fault::ReaderNamesNotTested) => u128::MAX,
            _ => 1024,
        };
        let also = match self.model.fault {
            Some(Fault::ReaderShortImageRefused) => length >= 256,
            Some(Fault::ReaderIndexEndInside) => index_end < length,
            Some(Fault::ReaderListEndInside) => list_end < length,
            Some(Fault::ReaderPlacesFrom256) => self.index >= 256 && self.namelist >= 256,
            Some(Fault::ReaderBlocksApart) => {
                let (index, list) = ((self.index, index_end), (self.namelist, list_end));
                !self.model.shares(index, list, false)
            }
            Some(Fault::ReaderFramesNeedEntries) => self.entries > 0 || self.frames == 0,
            _ => true,
        };
        length <= 1 << 30
            && self.version_known()
            && self.names <= most
            && index_end <= length
            && list_end <= length
            && also
    }

    /// A reader answers as of its moment; some builders look at the header as it is now.
    fn follow_image(&mut self) -> Verdict<()> {
        let image = self.image;
        if self.model.fault.is_none() || image.len() < 256 {
            return Ok(());
        }
        let [index, namelist] = [8, 24].map(|at| number(image, at, 8));
        match self.model.fault {
            Some(Fault::ReaderHeaderCompared)
                if [index, namelist] != [self.index, self.namelist] =>
            {
                return Err(33);
            }
            Some(Fault::ReaderVersionOfImage) => self.version = number(image, 44, 4),
            Some(Fault::ReaderEntriesOfImage) => self.entries = listed(image).into(),
            _ => {}
        }
        let Ok(view) = Model { fault: None }.view(image) else {
            return Ok(());
        };
        match self.model.fault {
            Some(Fault::ReaderFramesOfImage) => self.frames = view.frames,
            Some(Fault::ReaderIndexOfImage) => self.index = view.index,
            Some(Fault::ReaderNamelistOfImage) => self.namelist = view.names_at,
            Some(Fault::ReaderNamesOfImage) => {
                (self.names, self.size) = (view.names.len() as u128, view.list_end as u128);
            }
            Some(Fault::ReaderGrownImageRefused) if view.frames > self.frames => return Err(33),
            _ => {}
        }
        Ok(())
    }

    /// "The `entries` 32-byte slots from `index`, whatever they hold."
    fn slots(&self) -> Vec<Listed> {
        let slot = |n: u128| Listed::at(self.image, (self.index + 32 * n) as usize);
        let all = (0..self.entries).map(slot);
        if self.has(Fault::ReaderSlotsEndAtZero) {
            return all.take_while(|slot| slot.location != 0).collect();
        }
        all.collect()
    }

    /// "The first `names` (at most) of" the names in the `size` bytes from `namelist`.
    fn names(&self) -> Vec<Name> {
        let segments = match self.model.fault {
            Some(Fault::ReaderRunningNamesIn1_0) => false,
            Some(Fault::ReaderSegmentNamesIn2_0) => self.version != VERSION_2_1,
            _ => self.version == VERSION_1_0,
        };
        let mut names = if segments { self.segment_names() } else { self.running_names() };
        if !self.has(Fault::ReaderNamesNotCounted) {
            names.truncate(self.names as usize);
        }
        names
    }

    /// "A name goes up to its zero; an empty name, or one whose zero does not come within these bytes,
    /// ends the list."
    fn running_names(&self) -> Vec<Name> {
        let end = match self.model.fault {
            Some(Fault::ReaderListNotCut) => self.image.len(),
            _ => (self.namelist + self.size) as usize,
        };
        let mut names = Vec::new();
        let mut at = self.namelist as usize;
        while at < end {
            let close = (at..end).find(|&place| self.image[place] == 0);
            match close {
                Some(close) if close > at => names.push((at, close - at)),
                Some(_) if self.has(Fault::ReaderEmptyNameSkipped) => {}
                Some(_) if self.has(Fault::ReaderEmptyNameListed) => names.push((at, 0)),
                None if self.has(Fault::ReaderUnclosedNameListed) => names.push((at, end - at)),
                _ => break,
            }
            at = close.map_or(end, |close| close + 1);
        }
        names
    }

    /// "A segment that begins with zero ends the list; a name goes up to the first zero of its segment, or
    /// is all 64 bytes where it has none."
    fn segment_names(&self) -> Vec<Name> {
        let count = match self.model.fault {
            Some(Fault::ReaderSegmentsRoundedUp) => self.size.div_ceil(64),
            _ => self.size / 64,
        };
        let mut names = Vec::new();
        for n in 0..count {
            let at = (self.namelist + 64 * n) as usize;
            let segment = &self.image[at..self.image.len().min(at + 64)];
            let zero = segment.iter().position(|&byte| byte == 0);
            match zero {
                Some(0) if self.has(Fault::ReaderEmptySegmentSkipped) => {}
                Some(0) => break,
                Some(zero) => names.push((at, zero)),
                None if self.has(Fault::ReaderFullSegmentEndsList) => break,
                None if self.has(Fault::ReaderFullSegmentCut) => names.push((at, 63)),
                None => names.push((at, segment.len())),
            }
        }
        names
    }

    /// "33 if !fits; 44 if n >= len(names); else its place."
    pub(super) fn name(&self, n: u64) -> Verdict<[u64; 2]> {
        let names = self.names();
        if self.has(Fault::ReaderNthNameByCount)
            && n as usize >= names.len()
            && self.names > n.into()
        {
            return Ok([(self.namelist + self.size) as u64, 0]);
        }
        match usize::try_from(n).ok().and_then(|n| names.get(n)) {
            Some(&(at, length)) => Ok([at as u64, length as u64]),
            None => Err(44),
        }
    }

    /// "44 if n >= entries; else slot n."
    pub(super) fn entry(&self, n: u64) -> Verdict<Listed> {
        let slots = self.slots();
        let n = if self.has(Fault::ReaderNthIn32Bits) { n % (1 << 32) } else { n };
        if u128::from(n) >= slots.len() as u128 {
            return Err(44);
        }
        let entry = slots[n as usize];
        if self.has(Fault::ReaderEntryMustHold) {
            self.held(&entry)?;
        }
        Ok(entry)
    }

    /// "The place of the FIRST equal one", else 41.
    pub(super) fn id(&self, name: &[u8]) -> Verdict<u128> {
        let names = self.names();
        let equal = |&(at, length): &Name| {
            let listed = &self.image[at..at + length];
            match self.model.fault {
                Some(Fault::ReaderStartOfNameFound) => listed.starts_with(name),
                Some(Fault::ReaderLongerNameFound) => name.starts_with(listed),
                Some(Fault::ReaderNameLengthsIn8Bits) => {
                    let short = length.min(name.len());
                    length % 256 == name.len() % 256 && listed[..short] == name[..short]
                }
                _ => listed == name,
            }
        };
        let place = match self.model.fault {
            Some(Fault::ReaderLastEqualName) => names.iter().rposition(equal),
            Some(Fault::ReaderEmptyNameFound) if name.is_empty() => Some(names.len()),
            _ => names.iter().position(equal),
        };
        place.map(|place| place as u128).ok_or(41)
    }

    /// "40 if frame >= frames; 41 if id >= names (word 1)."
    fn there(&self, frame: u128, id: u128) -> Verdict<()> {
        let most = match self.model.fault {
            Some(Fault::FindByListedNames) => self.names().len() as u128,
            Some(Fault::FindAnyId) => u128::MAX,
            _ => self.names,
        };
        if id >= most && self.has(Fault::ReaderFortyOneFirst) {
            return Err(41);
        }
        if frame >= self.frames {
            return Err(40);
        }
        if id >= most {
            return Err(41);
        }
        Ok(())
    }

    pub(super) fn find(&self, frame: u64, id: u64) -> Verdict<Listed> {
        let id = if self.has(Fault::FindIdIn16Bits) { id % 65_536 } else { id };
        let (frame, id) = (u128::from(frame), u128::from(id));
        match self.there(frame, id) {
            Err(40) if self.has(Fault::FindBehindLastFrame) && id < self.names => {}
            there => there?,
        }
        let found = self.search(frame, id)?;
        if self.has(Fault::FoundMustHold) {
            self.held(&found)?;
        }
        Ok(found)
    }

    /// "40 if frame >= frames; 41 if not in names."
    pub(super) fn lookup(&self, frame: u64, name: &[u8]) -> Verdict<Listed> {
        let frame = u128::from(frame);
        let id = self.id(name);
        if self.has(Fault::ReaderFortyOneFirst) {
            id?;
        }
        if frame >= self.frames {
            return Err(40);
        }
        let found = self.search(frame, id?)?;
        if self.has(Fault::ReaderLookupMustHold) {
            self.held(&found)?;
        }
        Ok(found)
    }

    /// "Today's search of a lookup, over slots that may be in any order."
    fn search(&self, frame: u128, id: u128) -> Verdict<Listed> {
        let slots = self.slots();
        let here = |slot: &&Listed| slot.frame == frame && slot.id == id;
        if self.has(Fault::ReaderGoesThroughSlots) {
            return slots.iter().find(here).copied().ok_or(42);
        }
        let old = self.version == VERSION_1_0;
        let first = match self.model.fault {
            Some(Fault::ReaderHalvesToIdIn1_0) => id,
            Some(Fault::ReaderHalvesToFrame) => 0,
            _ if old => 0,
            _ => id,
        };
        let from = self.halved(&slots, key(frame, first));
        let found = if old || self.has(Fault::ReaderWalksIn2) {
            let amid = |slot: &&Listed| slot.frame == frame;
            match self.model.fault {
                Some(Fault::ReaderWalkGoesOn) => slots[from..].iter().find(here),
                Some(Fault::ReaderWalkOneShort) => {
                    slots[from..].iter().take_while(amid).take(2).find(here)
                }
                _ => slots[from..].iter().take_while(amid).find(here),
            }
        } else {
            slots.get(from).filter(here)
        };
        match found {
            Some(found) if found.location == 0 && self.has(Fault::ReaderLocationZeroIsNone) => {
                Err(42)
            }
            found => found.copied().ok_or(42),
        }
    }

    /// "lo = 0, n = count; while n > 0 { half = n / 2; mid = lo + half; .."
    fn halved(&self, slots: &[Listed], least: u128) -> usize {
        let wrap = |key| self.model.wrap(Fault::ReaderKeyWraps, key);
        let (mut lo, mut n) = (0, slots.len());
        while n > 0 {
            let half = if self.has(Fault::ReaderMiddleBelow) { (n - 1) / 2 } else { n / 2 };
            let slot = slots[lo + half];
            if wrap(key(slot.frame, slot.id)) < wrap(least) {
                (lo, n) = (lo + half + 1, n - half - 1);
            } else {
                n = half;
            }
        }
        lo
    }

    /// "From that place DOWN the first slot met whose id is `id`."
    pub(super) fn newest(&self, frame: u64, id: u64) -> Verdict<Listed> {
        let (mut frame, id) = (u128::from(frame), u128::from(id));
        if self.has(Fault::NewestOfLastFrame) && self.frames > 0 {
            frame = frame.min(self.frames - 1);
        }
        self.there(frame, id)?;
        let slots = self.slots();
        let old = self.version == VERSION_1_0;
        let behind = match self.model.fault {
            Some(Fault::NewestBelowFrame) => 0,
            Some(Fault::NewestBelowId) => id,
            Some(Fault::NewestToIdIn1_0) => id + 1,
            Some(Fault::NewestToFrameIn2) => 65_536,
            _ if old => 65_536,
            _ => id + 1,
        };
        let place = self.halved(&slots, key(frame, behind));
        let mut down = slots[..place].iter().rev();
        let of_id = |slot: &&Listed| slot.id == id;
        let found = match self.model.fault {
            Some(Fault::NewestIsOldest) => slots[..place].iter().find(of_id),
            Some(Fault::NewestIsNeighbour) => down.next().filter(of_id),
            Some(Fault::NewestFromPlaceItself) => {
                slots[..slots.len().min(place + 1)].iter().rev().find(of_id)
            }
            Some(Fault::NewestOfFrameAlone) => down.find(of_id).filter(|slot| slot.frame == frame),
            Some(Fault::NewestInEmptyFrameIsNone) => {
                let empty = slots.iter().all(|slot| slot.frame != frame);
                down.find(of_id).filter(|_| !empty)
            }
            Some(Fault::NewestGoesThroughSlots) => {
                slots.iter().rev().find(|slot| slot.id == id && slot.frame <= frame)
            }
            Some(Fault::NewestIsGreatest) => {
                let below = slots.iter().filter(|slot| slot.id == id && slot.frame <= frame);
                below.max_by_key(|slot| slot.frame)
            }
            _ => down.find(of_id),
        };
        let found = *found.ok_or(42_u64)?;
        if self.has(Fault::NewestMustHold) {
            self.held(&found)?;
        }
        Ok(found)
    }

    /// "33 if the found entry does not HOLD: its type is known in the reader's version, and location +
    /// N * M * size(type) <= len(img)."
    fn held(&self, entry: &Listed) -> Verdict<()> {
        let length = self.image.len() as u128;
        let version = match self.model.fault {
            Some(Fault::ReaderTypeByImage) if length >= 48 => number(self.image, 44, 4),
            _ => self.version,
        };
        let known = match (entry.kind, self.model.fault) {
            (11, Some(Fault::ReaderCharacterIn2_0)) => version != VERSION_1_0,
            (11, Some(Fault::ReaderCharacterIn1_0)) => version != VERSION_2_0,
            (11, Some(Fault::ReaderCharacterNever)) => false,
            (0 | 12.., Some(Fault::ReaderTypeNotTested)) => true,
            (1..=10, _) => true,
            (11, _) => version == VERSION_2_1,
            _ => false,
        };
        let bytes = self.model.wrap(Fault::ReaderChunkSizeWraps, entry.length());
        let end = self.model.wrap(Fault::ReaderChunkEndWraps, entry.location + bytes);
        let inside = match self.model.fault {
            Some(Fault::ReaderChunkNotTested) => true,
            Some(Fault::ReaderChunkEndInside) => end < length,
            Some(Fault::ReaderChunkStartTested) => entry.location <= length,
            Some(Fault::ReaderEmptyChunkAnywhere) => end <= length || bytes == 0,
            Some(Fault::ReaderChunkFrom256) => entry.location >= 256 && end <= length,
            _ => end <= length,
        };
        if known && inside {
            Ok(())
        } else {
            Err(33)
        }
    }

    pub(super) fn chunk(&self, frame: u64, name: &[u8]) -> Verdict<[u64; 2]> {
        let found = self.lookup(frame, name)?;
        self.held(&found)?;
        Ok([found.location, found.length()].map(|number| number as u64))
    }

    /// "Lookup's number; 33 as chunk; 43 if k >= N * M; else kind and bits."
    pub(super) fn element(&self, frame: u64, name: &[u8], k: u64) -> Verdict<[u64; 2]> {
        let found = self.lookup(frame, name)?;
        if self.has(Fault::ReaderFortyThreeFirst) && u128::from(k) >= found.n * found.m {
            return Err(43);
        }
        self.held(&found)?;
        self.model.element_of(self.image, &found, k)
    }
}
