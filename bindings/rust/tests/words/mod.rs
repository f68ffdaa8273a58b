//! The words of a row, as arguments and as an answer. The places are those of `oracle/src/words.rs`.

use fogatise::*;

/// What is left of a row.
pub struct Row {
    words: Vec<u64>,
    at: usize,
}

impl Row {
    pub fn new(line: &str) -> Row {
        Row { words: line.split(' ').map(|word| u64::from_str_radix(word, 16).expect("a hexadecimal word")).collect(), at: 0 }
    }

    pub fn word(&mut self) -> u64 {
        self.at += 1;
        self.words[self.at - 1]
    }

    pub fn rest(&self) -> &[u64] {
        &self.words[self.at..]
    }

    pub fn size(&mut self) -> usize {
        self.word() as usize
    }

    pub fn float(&mut self) -> f64 {
        f64::from_bits(self.word())
    }

    pub fn floats(&mut self) -> Vec<f64> {
        (0..self.word()).map(|_| self.float()).collect()
    }

    pub fn bins(&mut self) -> Vec<u32> {
        (0..self.word()).map(|_| self.word() as u32).collect()
    }

    pub fn error(&mut self) -> ErrorModel {
        [ErrorModel::FreeSingletonWeibull, ErrorModel::SingletonPareto][usize::from(self.word() != 0)]
    }

    pub fn genome(&mut self) -> GenomeModel {
        [GenomeModel::NegativeBinomial, GenomeModel::ShelfNegativeBinomial][usize::from(self.word() != 0)]
    }

    pub fn configuration(&mut self) -> Configuration {
        Configuration { error: self.error(), genome: self.genome() }
    }

    pub fn shelf(&mut self) -> Shelf {
        Shelf { share: self.float(), alpha: self.float(), beta: self.float() }
    }

    pub fn shelf_part(&mut self) -> Option<Shelf> {
        let present = self.word() != 0;
        Some(self.shelf()).filter(|_| present)
    }

    fn three(&mut self) -> [f64; 3] {
        [self.float(), self.float(), self.float()]
    }

    pub fn fit(&mut self) -> SpectrumFit {
        let (error_model, genome_model) = (self.error(), self.genome());
        let (shaped, shelved) = (self.word() != 0, self.word() != 0);
        SpectrumFit {
            error_model,
            genome_model,
            fit_window_end: self.size(),
            best_iterations: self.word(),
            w_error: self.float(),
            w_single: self.float(),
            w_repeat: self.float(),
            mean: self.float(),
            dispersion: self.float(),
            target_mode: self.float(),
            error_params: ErrorParams {
                singleton_probability: self.float(),
                tail_exponent: self.float(),
                weibull_shape: Some(self.float()).filter(|_| shaped),
            },
            shelf: Some(self.shelf()).filter(|_| shelved),
            repeat_ratio: self.float(),
            genome_kmers: self.float(),
            error_kmers: self.float(),
            repeat_kmers: self.float(),
            log_likelihood: self.float(),
            bic: self.float(),
            deviance: self.float(),
            component_log_window_masses: self.three(),
            component_log_totals: self.three(),
            observed_total: self.float(),
            full_distinct_total: self.float(),
        }
    }

    pub fn attempt(&mut self) -> FitAttempt {
        let (error_model, genome_model) = (self.error(), self.genome());
        let (found, rejected, reason) = (self.word() != 0, self.word() != 0, self.word());
        FitAttempt {
            error_model,
            genome_model,
            rejection: Some(rejection(reason)).filter(|_| rejected),
            total_iterations: self.word(),
            capped_starts: self.word() as u32,
            candidate: Some(self.fit()).filter(|_| found),
        }
    }
}

fn rejection(number: u64) -> FitRejection {
    let rules = [
        FitRejection::NonFiniteLikelihood,
        FitRejection::InvalidComponents,
        FitRejection::InvalidWindowMass,
        FitRejection::ComponentMassExceeded,
        FitRejection::UnstableModeParameterisation,
        FitRejection::GenomeLobeOutsideFitWindow,
        FitRejection::ErrorModePastValley,
        FitRejection::PrimaryModeOutsideBand,
        FitRejection::RepeatModeTooEarly,
        FitRejection::PositiveLogLikelihood,
    ];
    rules.into_iter().find(|rule| u64::from(rule.number()) == number).unwrap_or(FitRejection::OptimisationFailed)
}

enum Word {
    Whole(u64),
    Real(f64),
}

/// The words that this crate answers with.
#[derive(Default)]
pub struct Answer {
    words: Vec<Word>,
}

impl Answer {
    /// NaNs are one value.
    pub fn is(&self, row: &[u64]) -> bool {
        let same = |(answer, &wanted): (&Word, &u64)| match *answer {
            Word::Whole(n) => n == wanted,
            Word::Real(x) => x.to_bits() == wanted || (x.is_nan() && f64::from_bits(wanted).is_nan()),
        };
        self.words.len() == row.len() && self.words.iter().zip(row).all(same)
    }

    pub fn whole(&mut self, n: u64) {
        self.words.push(Word::Whole(n));
    }

    pub fn size(&mut self, n: usize) {
        self.whole(n as u64);
    }

    pub fn real(&mut self, x: f64) {
        self.words.push(Word::Real(x));
    }

    pub fn reals(&mut self, entries: &[f64]) {
        entries.iter().for_each(|&x| self.real(x));
    }

    pub fn refusal(&mut self, refusal: Option<&Refusal>) {
        self.whole(refusal.map_or(0, |refusal| refusal.number()).into());
    }

    pub fn number(&mut self, answer: Result<f64, Refusal>) {
        self.refusal(answer.as_ref().err());
        self.real(answer.unwrap_or(0.0));
    }

    pub fn count(&mut self, answer: Result<u64, Refusal>) {
        self.refusal(answer.as_ref().err());
        self.whole(answer.unwrap_or(0));
    }

    pub fn cutoff(&mut self, answer: Result<Option<u16>, Refusal>) {
        self.refusal(answer.as_ref().err());
        self.cutoff_part(answer.unwrap_or(None));
    }

    /// No cutoff is 0.
    pub fn cutoff_part(&mut self, cutoff: Option<u16>) {
        assert_ne!(cutoff, Some(0));
        self.whole(cutoff.unwrap_or(0).into());
    }

    pub fn written<T>(&mut self, answer: Result<&mut [T], Refusal>) {
        self.count(answer.map(|part| part.len() as u64));
    }

    pub fn fit_answer(&mut self, answer: Result<SpectrumFit, Refusal>) {
        self.refusal(answer.as_ref().err());
        self.fit(answer.ok());
    }

    pub fn selected(&mut self, fit: Option<SpectrumFit>) {
        self.whole(fit.is_some().into());
        self.fit(fit);
    }

    fn fit(&mut self, fit: Option<SpectrumFit>) {
        let fit = match fit {
            None => return (0..33).for_each(|_| self.whole(0)),
            Some(fit) => fit,
        };
        let (errors, shelf) = (fit.error_params, fit.shelf.unwrap_or(Shelf { share: 0.0, alpha: 0.0, beta: 0.0 }));
        self.whole((fit.error_model == ErrorModel::SingletonPareto).into());
        self.whole((fit.genome_model == GenomeModel::ShelfNegativeBinomial).into());
        self.whole(errors.weibull_shape.is_some().into());
        self.whole(fit.shelf.is_some().into());
        self.size(fit.fit_window_end);
        self.whole(fit.best_iterations);
        self.reals(&[fit.w_error, fit.w_single, fit.w_repeat, fit.mean, fit.dispersion, fit.target_mode]);
        self.reals(&[errors.singleton_probability, errors.tail_exponent, errors.weibull_shape.unwrap_or(0.0)]);
        self.reals(&[shelf.share, shelf.alpha, shelf.beta, fit.repeat_ratio]);
        self.reals(&[fit.genome_kmers, fit.error_kmers, fit.repeat_kmers, fit.log_likelihood, fit.bic, fit.deviance]);
        self.reals(&fit.component_log_window_masses);
        self.reals(&fit.component_log_totals);
        self.reals(&[fit.observed_total, fit.full_distinct_total]);
    }
}
