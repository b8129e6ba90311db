//! The table, changed in place. Tickets stand site by site, so that one ticket is compared with those of all slots at
//! once; sets of slots are the bits of a word; the arrows among kept rows are kept up to date at each commit.

pub const SLOTS: usize = 32;
pub const SITES: usize = 8;

pub enum Answer {
    Ok,
    Begin(u32),
    Commit(u32),
    Cycle(u32),
    Swept(u32),
    Good,
    Bad,
    Refused(u32),
}

pub struct Table {
    sites: usize,
    last: u32,
    high: [u32; SITES],
    active: u32,
    kept: u32,
    number: [u32; SLOTS],
    /// The last number begun at the commit.
    noted: [u32; SLOTS],
    listed: [u8; SLOTS],
    ticketed: [u8; SLOTS],
    prepared: [u8; SLOTS],
    base: [[u32; SITES]; SLOTS],
    ticket: [[u32; SLOTS]; SITES],
    /// The kept rows that a kept row has an arrow to, and those that have one to it.
    after: [u32; SLOTS],
    before: [u32; SLOTS],
}

/// The places of the ones in a word, lowest first.
fn places(mut set: u32) -> impl Iterator<Item = usize> {
    std::iter::from_fn(move || {
        (set != 0).then(|| {
            let i = set.trailing_zeros() as usize;
            set &= set - 1;
            i
        })
    })
}

/// The slots of a column for which a test holds.
fn slots_where(column: &[u32; SLOTS], test: impl Fn(u32) -> bool) -> u32 {
    let mut set = 0;
    for (i, &x) in column.iter().enumerate() {
        set |= u32::from(test(x)) << i;
    }
    set
}

impl Table {
    pub fn closed() -> Table {
        Table {
            sites: 0,
            last: 0,
            high: [0; SITES],
            active: 0,
            kept: 0,
            number: [0; SLOTS],
            noted: [0; SLOTS],
            listed: [0; SLOTS],
            ticketed: [0; SLOTS],
            prepared: [0; SLOTS],
            base: [[0; SITES]; SLOTS],
            ticket: [[0; SLOTS]; SITES],
            after: [0; SLOTS],
            before: [0; SLOTS],
        }
    }

    pub fn is_closed(&self) -> bool {
        self.sites == 0
    }

    fn find(&self, n: u32) -> Option<usize> {
        let hit = slots_where(&self.number, |x| x == n) & (self.active | self.kept);
        (hit != 0).then(|| hit.trailing_zeros() as usize)
    }

    fn is_active(&self, i: usize) -> bool {
        self.active >> i & 1 == 1
    }

    fn free(&mut self, i: usize) {
        for s in places(u32::from(self.listed[i])) {
            self.ticket[s][i] = 0;
        }
        for j in places(self.after[i]) {
            self.before[j] &= !(1 << i);
        }
        for j in places(self.before[i]) {
            self.after[j] &= !(1 << i);
        }
        self.after[i] = 0;
        self.before[i] = 0;
        self.active &= !(1 << i);
        self.kept &= !(1 << i);
    }

    pub fn open(&mut self, first: u32, floors: &[u8]) -> Answer {
        let count = floors.len() / 4;
        if self.sites != 0 {
            return Answer::Refused(4);
        }
        if count == 0 || count > SITES || first == 0 {
            return Answer::Refused(1);
        }
        for (high, floor) in self.high.iter_mut().zip(floors.chunks_exact(4)) {
            *high = u32::from_be_bytes([floor[0], floor[1], floor[2], floor[3]]);
        }
        self.sites = count;
        self.last = first - 1;
        Answer::Ok
    }

    pub fn begin(&mut self, list: u8) -> Answer {
        if list == 0 || u32::from(list) >> self.sites != 0 {
            return Answer::Refused(3);
        }
        if self.last == u32::MAX {
            return Answer::Refused(8);
        }
        let free = !(self.active | self.kept);
        if free == 0 {
            return Answer::Refused(7);
        }
        let i = free.trailing_zeros() as usize;
        self.last += 1;
        self.active |= 1 << i;
        self.number[i] = self.last;
        self.listed[i] = list;
        self.ticketed[i] = 0;
        self.prepared[i] = 0;
        self.base[i] = self.high;
        Answer::Begin(self.last)
    }

    pub fn ticket(&mut self, n: u32, site: u8, k: u32) -> Answer {
        let Some(i) = self.find(n) else { return Answer::Refused(2) };
        let s = usize::from(site);
        if s >= SITES || self.listed[i] >> s & 1 == 0 {
            return Answer::Refused(3);
        }
        if self.ticketed[i] >> s & 1 == 1 {
            return Answer::Refused(4);
        }
        if k <= self.base[i][s] {
            return Answer::Refused(5);
        }
        if slots_where(&self.ticket[s], |x| x == k) != 0 {
            return Answer::Refused(6);
        }
        self.ticketed[i] |= 1 << s;
        self.ticket[s][i] = k;
        Answer::Ok
    }

    pub fn prepared(&mut self, n: u32, site: u8) -> Answer {
        let Some(i) = self.find(n) else { return Answer::Refused(2) };
        let s = usize::from(site);
        if s >= SITES || self.listed[i] >> s & 1 == 0 {
            return Answer::Refused(3);
        }
        if self.ticketed[i] & !self.prepared[i] & 1 << s == 0 {
            return Answer::Refused(4);
        }
        self.prepared[i] |= 1 << s;
        Answer::Ok
    }

    pub fn abort(&mut self, n: u32) -> Answer {
        let Some(i) = self.find(n) else { return Answer::Refused(2) };
        if !self.is_active(i) {
            return Answer::Refused(4);
        }
        self.free(i);
        Answer::Ok
    }

    /// What is in the set or behind it along arrows.
    fn reached(&self, from: u32) -> u32 {
        let (mut all, mut fresh) = (from, from);
        while fresh != 0 {
            let i = fresh.trailing_zeros() as usize;
            let more = self.after[i] & !all;
            all |= more;
            fresh = fresh & (fresh - 1) | more;
        }
        all
    }

    pub fn decide(&mut self, n: u32) -> Answer {
        let Some(i) = self.find(n) else { return Answer::Refused(2) };
        if !self.is_active(i) || self.prepared[i] != self.listed[i] {
            return Answer::Refused(4);
        }
        let (mut after, mut before) = (0, 0);
        for s in places(u32::from(self.listed[i])) {
            let x = self.ticket[s][i];
            after |= slots_where(&self.ticket[s], |y| x < y);
            before |= slots_where(&self.ticket[s], |y| y.wrapping_sub(1) < x - 1);
        }
        after &= self.kept;
        before &= self.kept;
        // The kept rows make no cycle by themselves, so a cycle goes through the candidate.
        if before != 0 && self.reached(after) & before != 0 {
            self.free(i);
            return Answer::Cycle(n);
        }
        self.active &= !(1 << i);
        self.kept |= 1 << i;
        self.noted[i] = self.last;
        self.after[i] = after;
        self.before[i] = before;
        for j in places(after) {
            self.before[j] |= 1 << i;
        }
        for j in places(before) {
            self.after[j] |= 1 << i;
        }
        for s in places(u32::from(self.listed[i])) {
            self.high[s] = self.high[s].max(self.ticket[s][i]);
        }
        Answer::Commit(n)
    }

    /// The smallest number of an active one, above all numbers if there is none.
    fn oldest(&self) -> u64 {
        places(self.active).map(|i| u64::from(self.number[i])).min().unwrap_or(u64::MAX)
    }

    pub fn forget(&mut self, n: u32) -> Answer {
        let Some(i) = self.find(n) else { return Answer::Refused(2) };
        if self.is_active(i) {
            return Answer::Refused(4);
        }
        if self.before[i] != 0 || self.oldest() <= u64::from(self.noted[i]) {
            return Answer::Refused(9);
        }
        self.free(i);
        Answer::Ok
    }

    pub fn sweep(&mut self) -> Answer {
        let oldest = self.oldest();
        let held = places(self.kept).filter(|&i| oldest <= u64::from(self.noted[i])).fold(0, |set, i| set | 1 << i);
        let gone = self.kept & !self.reached(held);
        places(gone).for_each(|i| self.free(i));
        Answer::Swept(gone.count_ones())
    }

    pub fn propose(&self, numbers: &[u8]) -> Answer {
        if numbers.len() / 4 != self.kept.count_ones() as usize {
            return Answer::Bad;
        }
        let mut placed = 0;
        for n in numbers.chunks_exact(4) {
            let Some(i) = self.find(u32::from_be_bytes([n[0], n[1], n[2], n[3]])) else { return Answer::Bad };
            if self.is_active(i) || placed >> i & 1 == 1 || self.before[i] & !placed != 0 {
                return Answer::Bad;
            }
            placed |= 1 << i;
        }
        Answer::Good
    }

    /// Each number of the order in turn: the smallest of those with nothing left before them.
    pub fn order(&self, mut tell: impl FnMut(u32)) {
        let mut left = self.kept;
        while left != 0 {
            let roots = places(left).filter(|&i| self.before[i] & left == 0);
            let Some(next) = roots.min_by_key(|&i| self.number[i]) else { return };
            tell(self.number[next]);
            left &= !(1 << next);
        }
    }
}
