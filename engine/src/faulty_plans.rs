//! Reading and writing of plans with a fault. Without one they are the documents' once
//! more.

use crate::controller::NewNode;
use crate::faulty::{Editions, Fault, Ports, Stated};
use crate::faulty_ports;
use crate::plan::{Edition, Form, Plan, MARK};
use crate::refusal::*;
use crate::table::*;

/// Plan read with that fault. The table has the right length.
pub(crate) fn read(fault: Fault, bytes: &[u8], table: &mut [i64]) -> Answer<i64> {
    let edition = edition_met(fault, bytes);
    let mut plan = form_read(fault, edition).decode(bytes)?;
    misread_numbers(fault, edition, &mut plan);
    let mut fresh = joined(fault, &plan)?;
    if let Fault::WrongPorts(wrong) = fault {
        faulty_ports::put_after_read(wrong, table, &mut fresh);
    }
    table.copy_from_slice(&fresh);
    Ok(match fault {
        Fault::WrongEditions(Editions::SaysOne) => 1,
        Fault::WrongEditions(Editions::SaysNothing) => 0,
        Fault::WrongEditions(Editions::SaysByKind) => 1 + i64::from(plan.has_stated()),
        _ => edition.number(),
    })
}

/// The edition that the bytes are taken for.
fn edition_met(fault: Fault, bytes: &[u8]) -> Edition {
    let is_second = match fault {
        Fault::WrongEditions(Editions::ThreeMarks) => bytes.starts_with(&MARK[..3]),
        Fault::WrongEditions(Editions::OneMark) => bytes.starts_with(&MARK[..1]),
        Fault::WrongEditions(Editions::ByLength) => {
            let form = Edition::First.form();
            form.count(bytes).is_none_or(|count| bytes.len() != form.plan_len(count))
        }
        _ => return Edition::of(bytes),
    };
    if is_second {
        Edition::Second
    } else {
        Edition::First
    }
}

/// The form in which a plan of an edition is written.
fn form_written(fault: Fault, edition: Edition) -> Form {
    let form = edition.form();
    if edition == Edition::First {
        return form;
    }
    match fault {
        Fault::WrongEditions(Editions::OffsetsFromHead) => {
            Form { offsets_from: Some(form.mark_len), ..form }
        }
        Fault::WrongEditions(Editions::ShortShares) => Form { share_len: 2, ..form },
        Fault::WrongEditions(Editions::NoMark) => Form { mark_len: 0, ..form },
        _ => form,
    }
}

/// The form in which a plan of an edition is read.
fn form_read(fault: Fault, edition: Edition) -> Form {
    let form = edition.form();
    match fault {
        Fault::IgnoresOffsets => Form { offsets_from: None, ..form },
        Fault::WrongEditions(Editions::OldKinds) => Form { has_stated: false, ..form },
        Fault::WrongEditions(Editions::FirstHasStated) => Form { has_stated: true, ..form },
        Fault::WrongEditions(Editions::NoMark) => form,
        _ => form_written(fault, edition),
    }
}

/// The numbers of a plan as that fault takes them, in reading and in writing.
fn misread_numbers(fault: Fault, edition: Edition, plan: &mut Plan) {
    if edition == Edition::First {
        return;
    }
    for new in &mut plan.nodes {
        match fault {
            Fault::WrongEditions(Editions::LowShares) => new.share %= 0x1_0000,
            Fault::WrongEditions(Editions::KindsExchanged) if new.kind == STATED => {
                new.sort = CLASS + CLIENT - new.sort;
            }
            _ => {}
        }
    }
}

/// Opens a table and joins the entries.
fn joined(fault: Fault, plan: &Plan) -> Answer<[i64; TABLE_LEN]> {
    if fault == Fault::PlanOrderFirst {
        let rising = plan
            .nodes
            .windows(2)
            .all(|pair| pair[0].parent != pair[1].parent || pair[0].node < pair[1].node);
        require(rising, PLAN_OUT_OF_ORDER)?;
    }
    let answer = plan.joined();
    if answer != Err(STATED_WRONG) {
        return answer;
    }
    match (fault, without_stated(plan).joined()) {
        (Fault::WrongEditions(Editions::OrderBeforeSixteen), Err(PLAN_OUT_OF_ORDER)) => {
            Err(PLAN_OUT_OF_ORDER)
        }
        (Fault::WrongEditions(Editions::SixteenBehindJoins), Err(number))
            if number != PLAN_OUT_OF_ORDER =>
        {
            Err(number)
        }
        _ => answer,
    }
}

/// The plan with weights for its stated nodes, save for those outside the limits.
fn without_stated(plan: &Plan) -> Plan {
    let mut plan = plan.clone();
    let is_lawful = |new: &&mut NewNode| new.kind == STATED && share_is_lawful(STATED, new.share);
    for new in plan.nodes.iter_mut().filter(is_lawful) {
        new.kind = WEIGHTED;
        new.share = 1;
    }
    plan
}

/// The edition that the writer is told.
pub(crate) fn edition_told(fault: Fault, number: i64) -> Answer<Edition> {
    match (fault, Edition::of_number(number)) {
        (Fault::WrongEditions(Editions::AlwaysFirst), Some(_)) => Ok(Edition::First),
        (Fault::WrongEditions(Editions::AlwaysSecond), Some(_)) => Ok(Edition::Second),
        (_, Some(edition)) => Ok(edition),
        (Fault::WrongEditions(Editions::OthersAsFirst), None) => Ok(Edition::First),
        (Fault::WrongEditions(Editions::OthersAsSecond), None) => Ok(Edition::Second),
        (_, None) => Err(OUTSIDE_LIMITS),
    }
}

/// Plan write with that fault. The table is in order.
pub(crate) fn write(fault: Fault, table: &[i64], edition: i64, buffer: &mut [u8]) -> Answer<i64> {
    let mut plan = Plan::of_table(table);
    let is_on_second = |new: &NewNode| port(table, new.node as usize) == 1;
    let has_second = plan.nodes.iter().any(is_on_second);
    if fault == Fault::WrongPorts(Ports::WriteLeavesOut) {
        plan.nodes.retain(|new| !is_on_second(new));
    }
    let count = plan.nodes.len();
    if fault == Fault::WrongEditions(Editions::NumberBehindLength) {
        let edition = Edition::of_number(edition).unwrap_or(Edition::First);
        require(buffer.len() >= edition.plan_len(count), BUFFER_SHORT)?;
    }
    let mut edition = edition_told(fault, edition)?;
    if fault == Fault::WrongEditions(Editions::SecondInstead) && plan.has_stated() {
        edition = Edition::Second;
    }
    let is_refused = is_refused(fault, edition, &plan);
    if fault == Fault::WrongStated(Stated::WriteBeforeLength) {
        require(!is_refused, STATED_WRONG)?;
    }
    if fault == Fault::WritesByNumber {
        plan.nodes.sort_by_key(|new| new.node);
    }
    misread_numbers(fault, edition, &mut plan);
    let form = form_written(fault, edition);
    let mut bytes = form.encode(&plan);
    if fault == Fault::WrongPorts(Ports::WriteMarks) {
        for (index, _) in plan.nodes.iter().enumerate().filter(|(_, new)| is_on_second(new)) {
            bytes[form.body_at(count, index)] += 6;
        }
    }
    let needed = match fault {
        Fault::WrongEditions(Editions::LengthOfFirst) => Edition::First.plan_len(count),
        Fault::WrongEditions(Editions::LengthOfSecond) => Edition::Second.plan_len(count),
        _ => bytes.len(),
    };
    require(buffer.len() >= needed, BUFFER_SHORT)?;
    require(!is_refused, STATED_WRONG)?;
    require(!has_second || fault != Fault::WrongPorts(Ports::WriteRefuses), STATED_WRONG)?;
    let written = bytes.len().min(buffer.len());
    buffer[..written].copy_from_slice(&bytes[..written]);
    Ok(bytes.len() as i64)
}

/// Whether the edition is refused to a tree with 16.
fn is_refused(fault: Fault, edition: Edition, plan: &Plan) -> bool {
    let has_kinds = match fault {
        Fault::WrongStated(Stated::Written) => true,
        Fault::WrongEditions(Editions::SecondRefused) => false,
        _ => edition == Edition::Second,
    };
    plan.has_stated() && !has_kinds
}
