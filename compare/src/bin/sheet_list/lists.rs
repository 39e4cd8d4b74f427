//! Lists of calls of all kinds, with good and bad arguments, on sheets opened or changed by hand.

use compare::inputs::NANS;
use compare::mirror::part_words;
use compare::model::{Part, Sheet, PLACES};

use crate::Play;

impl Play {
    /// Foreign values in all cells: one number everywhere, NaN, or many different ones.
    fn foreign(&mut self) {
        match self.args.below(4) {
            0 => self.fill(0x7ff8_0000_0000_0000, 0),
            1 => self.fill(0xc000_0000_0000_0000, 0x0000_1234_5678_9abc),
            2 => {
                let (a, b) = (self.args.random.bits(), self.args.random.bits());
                self.fill(a, b);
            }
            _ => self.fill(0x3ff0_0000_0000_0000, 1),
        }
    }

    /// A sheet of so many columns, opened and accepted.
    pub fn opened(&mut self, count: usize) {
        self.foreign();
        if let Some(finishes) = self.finishes {
            let roughnesses = self.args.roughnesses(u64::MAX);
            self.finishes(finishes, roughnesses);
        }
        for at in 0..count {
            let column = self.args.a_column(u64::MAX);
            self.column(at, column);
        }
        let d = self.args.house(0.001, 100.0, 1.0, u64::MAX);
        let roughness = self.args.house(0.0, 1.0, 1e-4, u64::MAX);
        let b = match self.args.below(4) {
            0 => self.args.random.pick(&[1e-320, 1e300, 1.0, 0.5]),
            _ => self.args.random.between(1.0, 30.0),
        };
        self.settings(d, roughness, b, count);
        let (enough, room) = (self.sheet.settings.cells(), self.room());
        let cell_count = match self.args.below(3) {
            0 => room,
            1 => enough,
            _ => enough + self.args.below(room - enough + 1),
        };
        self.lend(cell_count);
        if self.marked {
            self.any_marks();
        }
        assert_eq!(self.open().refusal, 0);
    }

    /// One call of any kind on the sheet as it stands.
    fn any_call(&mut self, bad: u64, odd: u64) {
        let parts = self.sheet.design.count;
        let columns = self.sheet.settings.count;
        match self.args.below(16) {
            0..=3 => {
                let place = match self.args.below(6) {
                    0 => self.args.a_place(parts),
                    _ => self.args.below(parts + 1),
                };
                let part = self.args.a_part(bad, odd);
                self.insert(place, part);
            }
            4..=7 => {
                let place = self.args.a_place(parts);
                let part = self.args.a_part(bad, odd);
                self.replace(place, part);
            }
            8 => {
                let place = self.args.a_place(parts);
                self.remove(place);
            }
            9 if self.args.one_in(12) => {
                self.open();
            }
            12..=14 => {
                let n = self.a_nozzle(bad);
                self.ignite(n);
            }
            15 => {
                self.burnout();
            }
            _ => {
                let at = self.args.a_place(columns);
                let column = self.args.a_column(bad);
                self.set_column(at, column);
            }
        }
    }

    /// A nozzle around the last part's d, or around 0 without parts.
    fn a_nozzle(&mut self, bad: u64) -> f64 {
        let design = &self.sheet.design;
        let last = design.parts[..design.count.min(PLACES)].last();
        self.args
            .a_nozzle(last.map_or(0.0, |part| part.aft_diameter), bad)
    }

    /// Each kind of call once, on a sheet that was changed by hand.
    fn each_kind(&mut self) {
        let count = self.sheet.design.count;
        let part = self.args.a_part(8, 8);
        self.insert(count.min(2), part);
        let part = self.args.a_part(8, 8);
        let place = self.args.a_place(count.min(PLACES));
        self.replace(place, part);
        let place = self.args.a_place(count.min(PLACES));
        self.remove(place);
        let column = self.args.a_column(8);
        self.set_column(0, column);
        let n = self.a_nozzle(8);
        self.ignite(n);
        self.burnout();
    }

    /// A sheet given that no call would hand back: settings, counts, nozzle and held parts out of
    /// range.
    fn broken_sheet(&mut self) {
        let whole = self.sheet;
        let cell_count = self.cell_count;
        for _ in 0..3 {
            for _ in 0..1 + self.args.below(3) {
                self.break_one(&whole);
            }
            self.each_kind();
        }
        self.mend(&whole);
        self.lend(cell_count);
    }

    /// One thing of the sheet out of range.
    fn break_one(&mut self, whole: &Sheet) {
        let count = whole.settings.count;
        if self.finishes.is_some() && self.args.one_in(4) {
            let (finishes, roughnesses) = (self.args.a_finish_count(3), self.args.roughnesses(4));
            return self.finishes(finishes, roughnesses);
        }
        match self.args.below(9) {
            0 => {
                let d = self.args.house(0.001, 100.0, 1.0, 2);
                let roughness = self.args.house(0.0, 1.0, 0.01, 2);
                let list = [0.0, -1.0, NANS[5], f64::INFINITY, 4.0];
                let b = self.args.random.pick(&list);
                let c = [count, count, 33, usize::MAX][self.args.below(4)];
                self.settings(d, roughness, b, c);
            }
            1 if count > 0 => {
                let (at, column) = (self.args.below(count), self.args.a_column(2));
                self.column(at, column);
            }
            2 if count > 0 => {
                let short = self.args.below(whole.settings.cells());
                self.lend(short);
            }
            3 => self.many_parts(whole.design.count),
            4 | 5 => {
                let n = self.a_nozzle(2);
                self.nozzle(n);
            }
            6 => {
                // A held part's roughness alone.
                let place = self.args.below(whole.design.count.max(1));
                let roughness = Some(self.args.house(0.0, 1.0, 1e-3, 1));
                let held = whole.design.parts[place];
                self.hold(place, Part { roughness, ..held });
            }
            _ => {
                let place = self.args.below(whole.design.count.max(1));
                let part = self.args.a_part(2, 4);
                self.hold(place, part);
            }
        }
    }

    /// A count of 16 or more. What stands past the count is nobody's: a part is put there first.
    fn many_parts(&mut self, count: usize) {
        let many = [17, 18, usize::MAX, 16][self.args.below(4)];
        for place in count..PLACES {
            let part = self.args.a_part(40, 40);
            self.hold(place, part);
        }
        self.parts(many);
    }

    /// Back to the whole sheet, so that the list goes on.
    fn mend(&mut self, whole: &Sheet) {
        let s = whole.settings;
        let is = self.sheet.settings;
        let same = is.roughnesses[1..].iter().map(|x| x.to_bits());
        let same = same.eq(s.roughnesses[1..].iter().map(|x| x.to_bits()));
        if is.finishes != s.finishes || !same {
            self.finishes(s.finishes, s.roughnesses);
        }
        let [roughness, ..] = s.roughnesses;
        self.settings(s.reference_diameter, roughness, s.body_fineness, s.count);
        for at in 0..s.count {
            let (is, was) = (self.sheet.settings.columns[at], s.columns[at]);
            let same = is.mach.to_bits() == was.mach.to_bits();
            if !(same && is.reynolds.to_bits() == was.reynolds.to_bits()) {
                self.column(at, was);
            }
        }
        if self.sheet.nozzle_diameter.to_bits() != whole.nozzle_diameter.to_bits() {
            self.nozzle(whole.nozzle_diameter);
        }
        for place in 0..whole.design.count {
            let is = part_words(&self.sheet.design.parts[place], f64::to_bits);
            let was = part_words(&whole.design.parts[place], f64::to_bits);
            if is != was {
                self.hold(place, whole.design.parts[place]);
            }
        }
        if self.sheet.design.count != whole.design.count {
            self.parts(whole.design.count);
        }
    }

    /// Calls of all kinds after an accepted open, with cells changed in between, and marks where they
    /// count.
    pub fn list(&mut self, columns: usize, calls: usize, bad: u64, odd: u64) {
        self.opened(columns);
        for _ in 0..calls {
            if self.args.one_in(25) && columns > 0 {
                let at = self.args.below(self.sheet.settings.cells());
                let list = [NANS[2], 1.0, -0.0, f64::INFINITY, -3.5, 1e308];
                let value = self.args.random.pick(&list);
                self.poke(at, value);
            }
            if self.marked && columns > 0 && self.args.one_in(8) {
                let at = self.args.below(self.sheet.settings.cells());
                let mark = [0, 1, 2, 128, 255][self.args.below(5)];
                self.poke_mark(at, mark);
            }
            if self.args.one_in(40) {
                self.broken_sheet();
            }
            self.any_call(bad, odd);
            let enough = self.sheet.settings.cells();
            if self.cell_count < enough {
                self.lend(enough);
            }
            if self.mark_count < enough {
                self.any_marks();
            }
        }
    }
}
