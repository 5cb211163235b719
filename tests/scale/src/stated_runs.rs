//! The runs over stated cases.

use crate::call::Call;
use crate::cases::{self, Case, Limit};
use crate::exhaustive::{self, Solution};
use crate::expect::{self, Expected};
use crate::heading_cases;
use crate::lock_cases::{self, CurveCase};
use crate::outline;
use crate::report::Stop;
use crate::rules::Refusal;
use crate::runs::{Runner, WAYS};

impl Runner {
    pub(crate) fn case_g(&mut self) -> Result<(), Stop> {
        self.start('a');
        for way in WAYS {
            let case = cases::case_g(way);
            self.stated(&case, cases::curve_of_g(way))?;
        }
        self.report.line("a. case G");
        Ok(())
    }

    /// A case's answer and marks are as they are stated.
    fn stated(&mut self, case: &Case, columns: Vec<[u32; 2]>) -> Result<(), Stop> {
        let outline = outline::bytes(&case.records);
        let call = Call::roomy(outline, case.count, case.way, &mut self.rng);
        let marks = case.marks();
        let mut expected = Expected::selection(Solution { columns, marks });
        let taxa = case.chosen.len() as u32;
        expected.answer = [0, 0, case.diversity, case.cost, taxa, case.spare];
        self.choose(&call, &expected)?;
        Ok(())
    }

    pub(crate) fn cases(&mut self) -> Result<(), Stop> {
        self.start('b');
        self.stated_cases(&cases::starred())?;
        self.stated_limits(&cases::limits())?;
        self.report.line("b. cases A1 to F");
        Ok(())
    }

    pub(crate) fn heading_cases(&mut self) -> Result<(), Stop> {
        self.start('j');
        self.stated_cases(&heading_cases::all())?;
        self.stated_limits(&heading_cases::limits())?;
        self.report
            .line("j. our cases with headings, worked by hand");
        Ok(())
    }

    pub(crate) fn lock_cases(&mut self) -> Result<(), Stop> {
        self.start('k');
        for CurveCase { case, columns } in lock_cases::all() {
            self.stated(&case, columns)?;
        }
        self.stated_limits(&lock_cases::limits())?;
        for stated in lock_cases::finds() {
            self.stated_find(&stated.outline, stated.plate, stated.record)?;
        }
        self.report.line("k. our cases with locks, worked by hand");
        Ok(())
    }

    fn stated_cases(&mut self, cases: &[Case]) -> Result<(), Stop> {
        for case in cases {
            let order = exhaustive::subsets(outline::taxa(&case.records).len());
            let found = exhaustive::search(&case.records, case.way, case.count, &order);
            self.stated(case, found.expect("a set that fits").columns)?;
        }
        Ok(())
    }

    fn stated_limits(&mut self, limits: &[Limit]) -> Result<(), Stop> {
        for limit in limits {
            for way in WAYS {
                self.limit(limit, way)?;
            }
        }
        Ok(())
    }

    fn limit(&mut self, limit: &Limit, way: u32) -> Result<(), Stop> {
        let outline = limit.outline.clone();
        let call = Call::roomy(outline, limit.count, way, &mut self.rng);
        let refusal = Refusal {
            number: limit.number,
            place: limit.place,
        };
        if limit.number == 0 {
            self.choose(&call, &expect::by_table(&call))?;
        } else {
            self.choose(&call, &Expected::refused(refusal))?;
        }
        self.check(&limit.outline)
    }
}
