//! What the yard is told.

#[derive(Clone, Copy, Debug, PartialEq, Eq)]
pub struct Answer {
    pub number: usize,
    pub a: usize,
    pub b: usize,
}

#[derive(Clone, Copy, Debug, PartialEq, Eq)]
pub struct CardAnswer {
    pub number: usize,
    pub a: usize,
    pub b: usize,
    pub mark: usize,
    pub steps: usize,
    pub tracks: usize,
    pub room: usize,
    pub cars: usize,
    pub trains: usize,
}

#[derive(Clone, Copy, Debug)]
pub struct Timings {
    pub pull: f64,
    pub push: f64,
}

#[derive(Clone, Copy, Debug)]
pub struct PriceAnswer {
    pub number: usize,
    pub a: usize,
    pub b: usize,
    pub price: f64,
}

/// A number other than 0 with its details.
#[derive(Clone, Copy, Debug, PartialEq, Eq)]
pub struct Refusal {
    pub number: usize,
    pub a: usize,
    pub b: usize,
}

/// A refusal whose detail B is unused.
pub fn refuse(number: usize, a: usize) -> Refusal {
    Refusal { number, a, b: 0 }
}

impl Answer {
    pub fn done(a: usize, b: usize) -> Answer {
        Answer { number: 0, a, b }
    }
}

impl From<Refusal> for Answer {
    fn from(refusal: Refusal) -> Answer {
        Answer {
            number: refusal.number,
            a: refusal.a,
            b: refusal.b,
        }
    }
}

impl From<Refusal> for CardAnswer {
    fn from(refusal: Refusal) -> CardAnswer {
        CardAnswer {
            number: refusal.number,
            a: refusal.a,
            b: refusal.b,
            mark: 0,
            steps: 0,
            tracks: 0,
            room: 0,
            cars: 0,
            trains: 0,
        }
    }
}

impl From<Refusal> for PriceAnswer {
    fn from(refusal: Refusal) -> PriceAnswer {
        PriceAnswer {
            number: refusal.number,
            a: refusal.a,
            b: refusal.b,
            price: 0.0,
        }
    }
}

/// Prices are the same only bit by bit: a negative zero is not a positive one.
impl PartialEq for PriceAnswer {
    fn eq(&self, other: &PriceAnswer) -> bool {
        (self.number, self.a, self.b) == (other.number, other.a, other.b)
            && self.price.to_bits() == other.price.to_bits()
    }
}
