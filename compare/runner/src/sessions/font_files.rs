//! Font files in a session: its font is written to its file, and the file, often damaged, is read to its font.

use super::Session;
use crate::font_files::{damage, FILE, SORTS};
use crate::lent::Lent;
use crate::library::Library;
use crate::pages::FONT;
use osd_model::font_file;

impl<L: Library> Session<'_, L> {
    /// A font written or read, mostly with buffers of the right length, or the file damaged.
    pub(super) fn font_file(&mut self) {
        let wrong = [FONT, FILE].map(|len| self.random.one_in(12).then(|| self.wrong_length(len)));
        match self.random.below(8) {
            0..=2 => self.write_font(wrong),
            3..=4 => {
                let sort = self.random.below(SORTS);
                self.damage_file(sort);
                self.read_font(wrong)
            }
            _ => self.read_font(wrong),
        };
    }

    /// The font written and read, and its file read with damage of each sort; then each choice of wrong lengths.
    pub(super) fn font_files(&mut self) {
        for sort in 0..SORTS {
            self.write_font([None; 2]);
            if sort == 0 {
                let answer = self.read_font([Some(FONT), None]);
                self.same("a font that was written is read", answer, 0);
            }
            self.damage_file(sort);
            self.read_font([None; 2]);
        }
        for wrong in 1..4 {
            let lens = [(1, FONT), (2, FILE)].map(|(bit, len)| (wrong & bit != 0).then(|| self.wrong_length(len)));
            let answers = [self.write_font(lens), self.read_font(lens)];
            self.same("font files of wrong lengths", answers, [15 << 16; 2]);
        }
    }

    fn damage_file(&mut self, sort: u64) {
        damage(&mut self.random, &mut self.model_file, sort);
        self.file.get_mut().copy_from_slice(&self.model_file);
    }

    /// The font written to the file; a buffer of another length in the place of either.
    fn write_font(&mut self, lens: [Option<usize>; 2]) -> u32 {
        let [font, mut file] = lens.map(|len| len.map(|len| Lent::new(&mut self.random, len)));
        let [font_before, mut other_model] = [&font, &file].map(|lent| lent.as_ref().map(|lent| lent.get().to_vec()));
        let lent_font = font.as_ref().unwrap_or(&self.font);
        let model_file = other_model.as_mut().unwrap_or(&mut self.model_file);
        let model = font_file::write_bytes(lent_font.get(), model_file);
        let ours = self.library.font_write(lent_font, file.as_mut().unwrap_or(&mut self.file));
        self.same("writing: another file", file.as_ref().map(Lent::get), other_model.as_deref());
        self.same("writing: another font", font.as_ref().map(Lent::get), font_before.as_deref());
        let held = [&font, &file].into_iter().flatten().all(Lent::guards_hold);
        self.same("bytes around the font or the file", held, true);
        self.check("font written", ours, model);
        ours
    }

    /// The file read to the font; another buffer of such a length in the place of either. Now and then it is read to another one in any
    /// case. The session goes on with what was read.
    fn read_font(&mut self, lens: [Option<usize>; 2]) -> u32 {
        let to_another = self.random.one_in(4).then_some(FONT);
        let [mut font, file] = [lens[0].or(to_another), lens[1]].map(|len| len.map(|len| Lent::new(&mut self.random, len)));
        let [mut other_model, file_before] = [&font, &file].map(|lent| lent.as_ref().map(|lent| lent.get().to_vec()));
        let lent_file = file.as_ref().unwrap_or(&self.file);
        let model_font = other_model.as_mut().unwrap_or(&mut self.model_font);
        let model = font_file::read_bytes(lent_file.get(), model_font);
        let ours = self.library.font_read(lent_file, font.as_mut().unwrap_or(&mut self.font));
        self.same("reading: another font", font.as_ref().map(Lent::get), other_model.as_deref());
        self.same("reading: another file", file.as_ref().map(Lent::get), file_before.as_deref());
        let held = [&font, &file].into_iter().flatten().all(Lent::guards_hold);
        self.same("bytes around the font or the file", held, true);
        if let (0, Some(font), Some(model_font)) = (model, font, other_model) {
            (self.font, self.model_font) = (font, model_font);
        }
        self.check("font read", ours, model);
        ours
    }
}
