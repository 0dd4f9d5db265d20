// Appended to windowed_filter.rs: a look at the three estimates, and a filter
// that has them.

impl<T: Copy, I: Copy, D> WindowedFilter<T, I, D> {
    /// Sample and time of the three estimates, if the filter isn't empty.
    pub fn held(&self) -> Option<[(T, I); 3]> {
        let [Some(best), Some(second), Some(third)] = self.estimates else {
            assert!(self.estimates.iter().all(|e| e.is_none()));
            return None;
        };
        Some([best, second, third].map(|e| (e.sample, e.time)))
    }

    /// A filter with these estimates, empty if there are none.
    pub fn holding(window_length: D, held: Option<[(T, I); 3]>) -> Self {
        let estimate = |(sample, time): (T, I)| Some(Sample { sample, time });
        WindowedFilter {
            window_length,
            estimates: held.map_or([None; 3], |held| held.map(estimate)),
        }
    }
}
