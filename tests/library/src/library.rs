//! The library's calls as the reference names them.

use crate::lent::Lent;
use jirvents::{Params, Refusal};
use reference::calls::{Move, Sending};
use reference::cases::Calls;
use reference::{Arrangement, Blame};

pub struct Library;

fn size(number: u64) -> usize {
    usize::try_from(number).expect("a size of 64 bits")
}

/// An arrangement as the library has it.
pub fn params(a: &Arrangement) -> Params {
    Params {
        k: size(a.shape.k),
        r: size(a.shape.r),
        w: size(a.shape.w),
        n: size(a.shape.n),
        b: size(a.b),
    }
}

fn shape(shape: &reference::Shape) -> jirvents::Shape {
    jirvents::Shape {
        k: size(shape.k),
        r: size(shape.r),
        w: size(shape.w),
        n: size(shape.n),
    }
}

fn number<T>(result: Result<T, Refusal>) -> u64 {
    result.map_or_else(|refusal| refusal.number().into(), |_| 0)
}

impl Calls for Library {
    fn inverse(&self, side: u64, matrix: &[u8], out: &mut [u8]) -> (u64, Option<u64>) {
        let (from, mut to) = (Lent::new(matrix), Lent::new(out));
        let result = jirvents::invert(size(side), from.items(), to.items_mut());
        from.test_unchanged(matrix);
        to.give_back(out);
        match result {
            Ok(()) => (0, None),
            Err(jirvents::InvertError::Refused(refusal)) => (refusal.number().into(), None),
            Err(jirvents::InvertError::Singular { column }) => (15, Some(column as u64)),
        }
    }

    fn setup(
        &self,
        a: &Arrangement,
        message: &[u8],
        slack: &[u8],
        record: &mut [u8],
        serials: &mut [u32],
    ) -> u64 {
        let (x, v) = (Lent::new(message), Lent::new(slack));
        let (mut codeword, mut kept) = (Lent::new(record), Lent::new(serials));
        let result = jirvents::encode(
            params(a),
            x.items(),
            v.items(),
            codeword.items_mut(),
            kept.items_mut(),
        );
        x.test_unchanged(message);
        v.test_unchanged(slack);
        codeword.give_back(record);
        kept.give_back(serials);
        number(result)
    }

    fn reading(&self, a: &Arrangement, record: &[u8], read: u32, out: &mut [u8]) -> u64 {
        let (codeword, mut to) = (Lent::new(record), Lent::new(out));
        let result = jirvents::decode(params(a), codeword.items(), read, to.items_mut());
        codeword.test_unchanged(record);
        to.give_back(out);
        number(result)
    }

    fn difference(&self, a: &Arrangement, d: &[u8], write: u32, out: &mut [u8]) -> u64 {
        let (change, mut to) = (Lent::new(d), Lent::new(out));
        let result = jirvents::delta(params(a), change.items(), write, to.items_mut());
        change.test_unchanged(d);
        to.give_back(out);
        number(result)
    }

    fn change(
        &self,
        a: &Arrangement,
        record: &mut [u8],
        serials: &mut [u32],
        given: &Sending,
    ) -> u64 {
        let (mut codeword, mut kept) = (Lent::new(record), Lent::new(serials));
        let change = Lent::new(given.d);
        let result = jirvents::update(
            params(a),
            codeword.items_mut(),
            kept.items_mut(),
            change.items(),
            given.write,
            given.serial,
            given.reached,
        );
        change.test_unchanged(given.d);
        codeword.give_back(record);
        kept.give_back(serials);
        number(result)
    }

    fn rebuild(
        &self,
        a: &Arrangement,
        record: &mut [u8],
        serials: &mut [u32],
        read: u32,
        lost: u32,
    ) -> u64 {
        let (mut codeword, mut kept) = (Lent::new(record), Lent::new(serials));
        let result = jirvents::repair(
            params(a),
            codeword.items_mut(),
            kept.items_mut(),
            read,
            lost,
        );
        codeword.give_back(record);
        kept.give_back(serials);
        number(result)
    }

    fn rearrangement(
        &self,
        a: &Arrangement,
        record: &[u8],
        serials: &[u32],
        given: &Move,
        new: &mut [u8],
        new_serials: &mut [u32],
    ) -> u64 {
        let (codeword, kept) = (Lent::new(record), Lent::new(serials));
        let message = Lent::new(given.message);
        let (mut out, mut out_serials) = (Lent::new(new), Lent::new(new_serials));
        let result = jirvents::reconfigure(
            params(a),
            shape(&given.to),
            codeword.items(),
            kept.items(),
            given.read,
            given.write,
            message.items(),
            out.items_mut(),
            out_serials.items_mut(),
        );
        codeword.test_unchanged(record);
        kept.test_unchanged(serials);
        message.test_unchanged(given.message);
        out.give_back(new);
        out_serials.give_back(new_serials);
        number(result)
    }

    fn check(&self, a: &Arrangement, record: &[u8], budget: u64) -> (u64, Option<Blame>) {
        let codeword = Lent::new(record);
        let result = jirvents::check(params(a), codeword.items(), size(budget));
        codeword.test_unchanged(record);
        let blame = result.ok().map(|found| Blame {
            set: found.set,
            tried: found.tried as u64,
            distance: found.distance as u64,
        });
        (number(result), blame)
    }

    fn view<'r>(&self, a: &Arrangement, record: &'r [u8], trap: u64) -> (u64, &'r [u8]) {
        let node = u8::try_from(trap).expect("a node of one byte");
        let codeword = Lent::new(record);
        let result = jirvents::view(params(a), codeword.items(), node);
        let start = |part: &[u8]| part.as_ptr() as usize - codeword.items().as_ptr() as usize;
        let part = result.map_or(0..0, |part| start(part)..start(part) + part.len());
        let number = number(result);
        codeword.test_unchanged(record);
        (number, &record[part])
    }
}
