//! The boundary to the archive: the exported functions of `include/hds.h`, and the controller over them.

use hds_engine::steps::with_lent_counts;
use hds_engine::{Answer, Controller, Counts, Lists, NewNode, Seen};

extern "C" {
    fn hds_open(table: *mut i64, len: usize, rate: i64, depth: i64) -> i64;
    fn hds_join(
        table: *mut i64,
        len: usize,
        node: i64,
        parent: i64,
        sort: i64,
        kind: i64,
        share: i64,
        depth: i64,
        port: i64,
    ) -> i64;
    fn hds_leave(table: *mut i64, len: usize, node: i64) -> i64;
    fn hds_change_share(table: *mut i64, len: usize, node: i64, kind: i64, share: i64) -> i64;
    fn hds_change_rate(table: *mut i64, len: usize, rate: i64) -> i64;
    fn hds_request(table: *mut i64, len: usize, client: i64, tag: i64, size: i64) -> i64;
    fn hds_tick(
        table: *mut i64,
        len: usize,
        first: *mut i64,
        first_len: usize,
        second: *mut i64,
        second_len: usize,
        counts: *mut Counts,
    ) -> i64;
    fn hds_look(table: *const i64, len: usize, node: i64, seen: *mut Seen) -> i64;
    fn hds_same(first: *const i64, first_len: usize, second: *const i64, second_len: usize) -> i64;
    fn hds_plan_read(table: *mut i64, len: usize, plan: *const u8, plan_len: usize) -> i64;
    fn hds_plan_write(
        table: *const i64,
        len: usize,
        edition: i64,
        buffer: *mut u8,
        buffer_len: usize,
    ) -> i64;
    fn hds_plan_check(plan: *const u8, plan_len: usize) -> u32;
    fn hds_set_minute(
        table: *mut i64,
        len: usize,
        plan: *const u8,
        plan_len: usize,
        windows: *const i64,
        windows_len: usize,
        minute: i64,
    ) -> i64;
}

/// Our archive as a controller.
#[derive(Clone, Copy, Debug, Default)]
pub struct Cabinet;

/// The answer of a number: 0 or more is accepted, less is the negated number of a refusal.
fn answer(number: i64) -> Answer<i64> {
    if number >= 0 {
        Ok(number)
    } else {
        Err(-number)
    }
}

/// What stands in `seen` before a look; a refused look must leave it.
const BEFORE: Seen = [-31, -32, -33, -34];

// Each call lends its slices for the time of the call only, and the archive's contract is to write within them.
impl Controller for Cabinet {
    fn open(&mut self, table: &mut [i64], rate: i64, depth: i64) -> Answer<i64> {
        answer(unsafe { hds_open(table.as_mut_ptr(), table.len(), rate, depth) })
    }

    fn join(&mut self, table: &mut [i64], new: &NewNode) -> Answer<i64> {
        let NewNode { node, parent, sort, kind, share, depth, port } = *new;
        let (numbers, len) = (table.as_mut_ptr(), table.len());
        answer(unsafe { hds_join(numbers, len, node, parent, sort, kind, share, depth, port) })
    }

    fn leave(&mut self, table: &mut [i64], node: i64) -> Answer<i64> {
        answer(unsafe { hds_leave(table.as_mut_ptr(), table.len(), node) })
    }

    fn change_share(&mut self, table: &mut [i64], node: i64, kind: i64, share: i64) -> Answer<i64> {
        answer(unsafe { hds_change_share(table.as_mut_ptr(), table.len(), node, kind, share) })
    }

    fn change_rate(&mut self, table: &mut [i64], rate: i64) -> Answer<i64> {
        answer(unsafe { hds_change_rate(table.as_mut_ptr(), table.len(), rate) })
    }

    fn request(&mut self, table: &mut [i64], client: i64, tag: i64, size: i64) -> Answer<i64> {
        answer(unsafe { hds_request(table.as_mut_ptr(), table.len(), client, tag, size) })
    }

    fn tick(&mut self, table: &mut [i64], lists: Lists) -> Answer<Counts> {
        let (numbers, len) = (table.as_mut_ptr(), table.len());
        let [(first, first_len), (second, second_len)] =
            lists.map(|list| (list.as_mut_ptr(), list.len()));
        let told = with_lent_counts(|counts| unsafe {
            hds_tick(numbers, len, first, first_len, second, second_len, counts)
        });
        told.unwrap_or_else(|what| panic!("{what}"))
    }

    fn look(&mut self, table: &[i64], node: i64) -> Answer<Seen> {
        let mut seen = BEFORE;
        let told = answer(unsafe { hds_look(table.as_ptr(), table.len(), node, &mut seen) });
        match told {
            Ok(number) => assert_eq!(number, 0, "an accepted look answers 0"),
            Err(_) => assert_eq!(seen, BEFORE, "a refused look wrote its buffer"),
        }
        told.map(|_| seen)
    }

    fn same(&mut self, first: &[i64], second: &[i64]) -> Answer<bool> {
        let told =
            answer(unsafe { hds_same(first.as_ptr(), first.len(), second.as_ptr(), second.len()) });
        told.map(|number| {
            assert!(number <= 1, "an accepted same answers 0 or 1");
            number == 1
        })
    }

    fn plan_read(&mut self, plan: &[u8], table: &mut [i64]) -> Answer<i64> {
        let (numbers, len) = (table.as_mut_ptr(), table.len());
        let told = answer(unsafe { hds_plan_read(numbers, len, plan.as_ptr(), plan.len()) });
        assert!(!matches!(told, Ok(..=0 | 3..)), "an accepted plan read answers 1 or 2");
        told
    }

    fn plan_write(&mut self, table: &[i64], edition: i64, buffer: &mut [u8]) -> Answer<i64> {
        let (numbers, len) = (table.as_ptr(), table.len());
        answer(unsafe { hds_plan_write(numbers, len, edition, buffer.as_mut_ptr(), buffer.len()) })
    }

    fn plan_check(&mut self, plan: &[u8]) -> i64 {
        i64::from(unsafe { hds_plan_check(plan.as_ptr(), plan.len()) })
    }

    fn set_minute(
        &mut self,
        table: &mut [i64],
        plan: &[u8],
        windows: &[i64],
        minute: i64,
    ) -> Answer<i64> {
        let (numbers, len) = (table.as_mut_ptr(), table.len());
        let (bytes, bytes_len) = (plan.as_ptr(), plan.len());
        let (list, list_len) = (windows.as_ptr(), windows.len());
        let told = answer(unsafe {
            hds_set_minute(numbers, len, bytes, bytes_len, list, list_len, minute)
        });
        assert!(!matches!(told, Ok(1..)), "an accepted set minute answers 0");
        told
    }
}
