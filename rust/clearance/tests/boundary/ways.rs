//! Ways of one boat and of convoys, with slices that a lender lends.

use clearance::{Passage, Refusal};
use surveys::asked::{questions, Asked};
use surveys::boats::{convoy_questions, Convoy};
use surveys::lent::short_numbers;
use surveys::refusals::{of_boats, of_question, OPEN_AT_BOX};
use surveys::survey::Record;
use surveys::Survey;

use crate::number::number;
use crate::Lent;

impl Lent<'_> {
    /// Asks the questions of a seed about a survey with this refusal for drawing, which 12 is for alone. Gives back how many ways were shown.
    pub fn assert_ways(&self, survey: &Survey, refusal: u32, seed: u64) -> usize {
        let first = if refusal == OPEN_AT_BOX { 0 } else { refusal };
        let is_shown = |asked: &Asked| {
            let [start, end] = asked.ends;
            let in_vectors = clearance::way_to_vec(self.tables(), self.clearance, start, end);
            self.is_shown(asked, first, in_vectors, |way, work| {
                clearance::way(self.tables(), self.clearance, start, end, way, work)
            })
        };
        questions(seed, survey, 3).iter().filter(|asked| is_shown(asked)).count()
    }

    /// The same for the convoys of a seed, whose clearances are lent for reading only.
    pub fn assert_convoys(&self, survey: &Survey, seed: u64) -> usize {
        let is_shown = |Convoy { clearances, asked }: &Convoy| {
            let [start, end] = asked.ends;
            let lent = self.lender.table(clearances);
            let in_vectors = clearance::convoy_to_vec(self.tables(), &lent, start, end);
            self.is_shown(asked, of_boats(survey, clearances), in_vectors, |way, work| {
                clearance::convoy(self.tables(), &lent, start, end, way, work)
            })
        };
        convoy_questions(seed, survey, 3).iter().filter(|convoy| is_shown(convoy)).count()
    }

    /// Slices hold what the vectors do, and behind it, or if the question is refused, what they held before. The first refusal is that of the survey and the
    /// clearances.
    fn is_shown(
        &self,
        &Asked { ends, rooms }: &Asked,
        first: u32,
        in_vectors: Result<Passage, Refusal>,
        call: impl FnOnce(&mut [u16], &mut [u16]) -> Result<Option<usize>, Refusal>,
    ) -> bool {
        let what = &format!("{}, between {ends:?} with room for {rooms:?}", self.what);
        let before = rooms.map(|room| short_numbers(room, None));
        let [mut way, mut work] = before.clone().map(|elements| self.lender.slice(elements));
        let result = call(&mut way, &mut work);
        let corners = self.corners.len() / Record::BYTES;
        assert_eq!(number(result), of_question(first, corners, ends, rooms), "{what}");
        let mut expected = before;
        if let Ok(count) = result {
            let Passage { way, steps } = in_vectors.expect(what);
            let shown = way.unwrap_or_default();
            let steps: Vec<u16> = steps.iter().map(|steps| steps.map_or(0, |steps| steps + 1)).collect();
            assert_eq!(count.unwrap_or(0), shown.len(), "{what}");
            expected[0][..shown.len()].copy_from_slice(&shown);
            expected[1][..corners].copy_from_slice(&steps);
        }
        assert_eq!([way.to_vec(), work.to_vec()], expected, "{what}");
        result.is_ok_and(|count| count.is_some())
    }
}
