//! What is measured, and work on it.

use crate::records::{MIXED, RECORDS};
use paper::form::Form;
use paper::inside;
use paper::lds::Lds;
use paper::refusal::LONGEST;
use shared::details::Details;
use shared::grouped::grouped;
use shared::insides::{self, Inside};
use shared::night::LONG;
use shared::worst::Worst;

/// The work of a contender on a job, ready to be done again and again.
pub type Work = Box<dyn FnMut()>;

#[derive(Clone, Copy, PartialEq, Eq)]
pub enum Job {
    /// One digest of so many octets.
    Digest(usize),
    /// One text read, and its entry written.
    ReadText,
    /// One text of this form read, and its entry written.
    ReadForm(Form),
    /// One text read that may be damaged, and its entry written or it refused.
    ReadMixed,
    /// One entry of a run read.
    NextEntry,
    /// One entry read, and every field of its record handed out.
    OpenEntry,
    /// One entry read, and its text written.
    WriteText,
    /// One of these calls, over passports with data or without.
    Passport(Call, Data),
    /// One presentation of this version read, and its entry written. As LDS 1.7 it has so many octets, as 1.8 the same files.
    ReadPresentation(Lds, usize),
    /// The digests of that presentation's group files, and nothing else.
    DigestFiles(usize),
    /// One presentation read that gives the most to do beside digests. It is refused when all of it was looked at.
    ReadWorst(Worst),
    /// The file of a group looked for in it that is not there.
    FindInWorst(Worst),
    /// The file of a group looked into.
    LookInside(Inside),
    /// A detail of group 11 found in its file, or the file refused.
    ReadDetail(Details),
    /// The full name found in the file of group 11 or in a text.
    FullName(NameIn),
    /// A list of a night, all of it.
    List(Over),
    /// One seal read, and its entry written.
    ReadSeal,
    /// The text of that seal read alone, and the same entry written.
    ReadSealText,
    /// One seal of version 03 read or written, with its reference's length and its signature's.
    Seal(Way, usize, usize),
}

/// A seal to an entry, or an entry to a seal.
#[derive(Clone, Copy, Debug, PartialEq, Eq)]
pub enum Way {
    Read,
    Written,
}

/// A call over texts or entries.
#[derive(Clone, Copy, Debug, PartialEq, Eq)]
pub enum Call {
    Read,
    Next,
    Open,
    Write,
}

/// Which of the two that are lent has the full name.
#[derive(Clone, Copy, Debug, PartialEq, Eq)]
pub enum NameIn {
    File,
    Text,
}

/// What is done with all entries of a list.
#[derive(Clone, Copy, Debug, PartialEq, Eq)]
pub enum Over {
    /// Looked over.
    All,
    /// Looked over, and those of a house found.
    House,
    /// Read one after another, by a call each.
    Each,
}

/// What stands in the field of the issuer's own data: nothing, or as much as a passport has room for.
#[derive(Clone, Copy, Debug, PartialEq, Eq)]
pub enum Data {
    Empty,
    Full,
}

impl Job {
    /// One block, two sizes between, and the longest input.
    pub const DIGESTS: [Job; 4] = [Job::Digest(64), Job::Digest(1_024), Job::Digest(16_384), Job::Digest(65_535)];
    pub const RECORDS: [Job; 8] = [
        Job::ReadText,
        Job::ReadMixed,
        Job::ReadForm(Form::Td3),
        Job::ReadForm(Form::MrvA),
        Job::ReadForm(Form::MrvB),
        Job::NextEntry,
        Job::OpenEntry,
        Job::WriteText,
    ];
    /// Each call without data and with.
    pub const PASSPORTS: [Job; 8] = [
        Job::Passport(Call::Read, Data::Empty),
        Job::Passport(Call::Read, Data::Full),
        Job::Passport(Call::Next, Data::Empty),
        Job::Passport(Call::Next, Data::Full),
        Job::Passport(Call::Open, Data::Empty),
        Job::Passport(Call::Open, Data::Full),
        Job::Passport(Call::Write, Data::Empty),
        Job::Passport(Call::Write, Data::Full),
    ];
    /// 2, 16 and 60 KB.
    pub const PRESENTATIONS: [Job; 6] = [
        Job::ReadPresentation(Lds::V17, 2_048),
        Job::ReadPresentation(Lds::V18, 2_048),
        Job::ReadPresentation(Lds::V17, 16_384),
        Job::ReadPresentation(Lds::V18, 16_384),
        Job::ReadPresentation(Lds::V17, 61_440),
        Job::ReadPresentation(Lds::V18, 61_440),
    ];
    /// Each with the call that it gives the most to do.
    pub const WORST: [Job; 6] = [
        Job::ReadWorst(Worst::TinyFiles),
        Job::FindInWorst(Worst::TinyFiles),
        Job::ReadWorst(Worst::RandomTags),
        Job::FindInWorst(Worst::RandomTags),
        Job::ReadWorst(Worst::OneGroup),
        Job::ReadWorst(Worst::LongestList),
    ];
    /// A face, and those that give the most to do.
    pub const INSIDES: [Job; 7] = [
        Job::LookInside(Inside::Face),
        Job::LookInside(Inside::Empty),
        Job::LookInside(Inside::EmptyBefore),
        Job::LookInside(Inside::EmptyConstructed),
        Job::LookInside(Inside::Mixed),
        Job::LookInside(Inside::Chains),
        Job::LookInside(Inside::Templates),
    ];
    pub const DETAILS: [Job; 4] = [
        Job::ReadDetail(Details::Printed),
        Job::ReadDetail(Details::Empty),
        Job::FullName(NameIn::File),
        Job::FullName(NameIn::Text),
    ];
    pub const LISTS: [Job; 3] = [Job::List(Over::All), Job::List(Over::House), Job::List(Over::Each)];
    pub const SEALS: [Job; 2] = [Job::ReadSeal, Job::ReadSealText];
    /// The same seals read and written: as the papers have one, with the longest reference, and with the longest signature.
    pub const WRITTEN: [Job; 6] = [
        Job::Seal(Way::Read, 5, 64),
        Job::Seal(Way::Written, 5, 64),
        Job::Seal(Way::Read, 255, 64),
        Job::Seal(Way::Written, 255, 64),
        Job::Seal(Way::Read, 5, 65_461),
        Job::Seal(Way::Written, 5, 65_461),
    ];

    pub fn kind(self) -> String {
        let kind = match self {
            Job::Digest(_) => "digest",
            Job::ReadText => "read_text",
            Job::ReadForm(form) => return format!("read_{form:?}"),
            Job::ReadMixed => "read_mixed",
            Job::NextEntry => "next_entry",
            Job::OpenEntry => "open_entry",
            Job::WriteText => "write_text",
            Job::Passport(call, data) => return format!("passport_{call:?}_{data:?}"),
            Job::ReadPresentation(Lds::V17, _) => "read_presentation",
            Job::ReadPresentation(Lds::V18, _) => "read_newer_presentation",
            Job::DigestFiles(_) => "digest_files",
            Job::ReadWorst(worst) => return format!("read_{worst:?}"),
            Job::FindInWorst(worst) => return format!("find_in_{worst:?}"),
            Job::LookInside(inside) => return format!("look_inside_{inside:?}"),
            Job::ReadDetail(details) => return format!("read_detail_{details:?}"),
            Job::FullName(name_in) => return format!("full_name_{name_in:?}"),
            Job::List(over) => return format!("list_{over:?}"),
            Job::ReadSeal => "read_seal",
            Job::ReadSealText => "read_seal_text",
            Job::Seal(way, reference, signature) => return format!("seal_{way:?}_{reference}_{signature}"),
        };
        kind.into()
    }

    /// What its row in a table begins with.
    pub fn title(self) -> String {
        match self {
            Job::Digest(size) | Job::DigestFiles(size) => grouped(size as u64),
            Job::ReadPresentation(Lds::V17, size) => grouped(size as u64),
            Job::ReadPresentation(Lds::V18, size) => format!("{}, as LDS 1.8", grouped(size as u64)),
            Job::ReadText => "texts read, entries written".into(),
            Job::ReadForm(form) => format!("texts of {} read, entries written", named(form)),
            Job::ReadMixed => "texts read, half of them refused".into(),
            Job::NextEntry => "entries read".into(),
            Job::OpenEntry => "entries opened".into(),
            Job::WriteText => "texts written from entries".into(),
            Job::Passport(call, data) => format!("{}{}", done(call), with(data)),
            Job::ReadWorst(worst) => format!("{}, read", told(worst)),
            Job::FindInWorst(worst) => format!("{}, a file looked for", told(worst)),
            Job::LookInside(inside) => held(inside).into(),
            Job::ReadDetail(Details::Printed) => "the last of five details found".into(),
            Job::ReadDetail(Details::Empty) => "65,539 octets of empty elements refused".into(),
            Job::FullName(NameIn::File) => "full name found in the file".into(),
            Job::FullName(NameIn::Text) => "full name found in the text".into(),
            Job::List(Over::All) => "lamphudet_look_over".into(),
            Job::List(Over::House) => "lamphudet_house_entries".into(),
            Job::List(Over::Each) => "lamphudet_next_entry, for each".into(),
            Job::ReadSeal => "seal of 134 octets read, entry written".into(),
            Job::ReadSealText => "its text of 72 characters read, entry written".into(),
            Job::Seal(way, reference, signature) => {
                let way = if way == Way::Read { "read" } else { "written" };
                format!("reference of {reference}, signature of {}, {way}", grouped(signature as u64))
            }
        }
    }

    /// 0 for a job that has no size.
    pub fn size(self) -> usize {
        match self {
            Job::Digest(size) | Job::ReadPresentation(_, size) | Job::DigestFiles(size) => size,
            Job::ReadWorst(_) | Job::FindInWorst(_) => LONGEST,
            Job::LookInside(Inside::Face) => insides::FACE,
            Job::LookInside(_) | Job::ReadDetail(Details::Empty) => inside::LONGEST,
            _ => 0,
        }
    }

    /// How many entries are read where it is done once; 1 for a job that is not told by entries.
    pub fn entries(self) -> usize {
        match self {
            Job::List(_) => LONG,
            _ => 1,
        }
    }

    /// The digest of as many octets, or of the most that are digested.
    pub fn beside(self) -> Job {
        Job::Digest(self.size().min(LONGEST))
    }

    /// How often it is done for each of its inputs to be taken once, and at least so often that it can be counted.
    pub fn turns(self) -> usize {
        match self {
            Job::ReadMixed => MIXED,
            Job::List(_) => 1,
            _ if self.size() > 0 => 16,
            _ => RECORDS,
        }
    }

    pub fn named(kind: &str, size: &str) -> Job {
        let size = size.parse().expect("a size");
        let digested = Job::PRESENTATIONS.map(|job| Job::DigestFiles(job.size()));
        let octets = Job::DIGESTS.into_iter().chain(Job::PRESENTATIONS).chain(digested).chain(Job::WORST);
        let insides = Job::INSIDES.into_iter().chain(Job::INSIDES.map(Job::beside));
        let entries = Job::RECORDS.into_iter().chain(Job::PASSPORTS).chain(Job::LISTS);
        let seals = Job::SEALS.into_iter().chain(Job::WRITTEN);
        let mut jobs = octets.chain(insides).chain(Job::DETAILS).chain(entries).chain(seals);
        let found = jobs.find(|job| job.kind() == kind && job.size() == size);
        found.expect("the name of a job")
    }
}

fn done(call: Call) -> &'static str {
    match call {
        Call::Read => "texts read, entries written",
        Call::Next => "entries read",
        Call::Open => "entries opened",
        Call::Write => "texts written from entries",
    }
}

fn with(data: Data) -> &'static str {
    match data {
        Data::Empty => "",
        Data::Full => ", with data",
    }
}

fn named(form: Form) -> &'static str {
    match form {
        Form::Td1 => "TD1",
        Form::Td2 => "TD2",
        Form::Td3 => "TD3",
        Form::MrvA => "MRV-A",
        Form::MrvB => "MRV-B",
    }
}

fn held(inside: Inside) -> &'static str {
    match inside {
        Inside::Face => "a face of 20,480 octets",
        Inside::Empty => "empty elements",
        Inside::EmptyBefore => "empty elements before the templates",
        Inside::EmptyConstructed => "empty constructed elements",
        Inside::Mixed => "small elements of all kinds",
        Inside::Chains => "elements eight deep",
        Inside::Templates => "templates without end",
    }
}

fn told(worst: Worst) -> &'static str {
    match worst {
        Worst::TinyFiles => "tiny files",
        Worst::RandomTags => "tiny files, random tags",
        Worst::OneGroup => "entries for one group",
        Worst::LongestList => "the longest tag list",
    }
}
