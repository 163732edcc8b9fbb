//! The third part of the list: incision and talus as direct calls.
use crate::incisions::incisions;
use crate::list::List;
use crate::random::Random;
use crate::slides::slides;

pub fn list(l: &mut List, r: &mut Random) {
    incisions(l, r);
    slides(l, r);
}
