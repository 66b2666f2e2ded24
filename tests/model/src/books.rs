// Holds: the books of one site and of all sites, filled into a lent slice.
// Rests on: board, sound, posting, refusal.

use crate::board::Board;
use crate::posting::{effect, FIGURES};
use crate::refusal::Refusal;

impl Board {
    /// Fills the first 64 numbers of the slice.
    pub fn books(&self, site: u64, lent: &mut [i64]) -> Result<(), Refusal> {
        self.judge_sound()?;
        if site >= u64::from(self.n) {
            return Err(Refusal::NoSuchSite);
        }
        let figures = lent.first_chunk_mut().ok_or(Refusal::SliceShort)?;
        self.fill(site as usize, figures);
        Ok(())
    }

    /// Fills 64 numbers for each site, those of site s from 64s on.
    pub fn books_of_all(&self, lent: &mut [i64]) -> Result<(), Refusal> {
        self.judge_sound()?;
        let n = usize::from(self.n);
        if lent.len() < FIGURES * n {
            return Err(Refusal::SliceShort);
        }
        let (parts, _) = lent.as_chunks_mut();
        for (site, figures) in parts.iter_mut().take(n).enumerate() {
            self.fill(site, figures);
        }
        Ok(())
    }

    /// Posts the record of one site of a sound board, from zeros.
    pub fn fill(&self, site: usize, figures: &mut [i64; FIGURES]) {
        figures.fill(0);
        for &m in &self.sites[site].record {
            effect(&self.postings[usize::from(m)], figures);
        }
    }
}
