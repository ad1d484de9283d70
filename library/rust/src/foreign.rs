//! The calls of the archive, each with its slices taken apart. All that is unsafe stands here.

use crate::{Place, Refusal};

extern "C" {
    fn slushferret_version() -> u32;
    fn slushferret_check_scheme(
        scheme: *const u8,
        scheme_length: usize,
        report: *mut usize,
        report_length: usize,
    ) -> u8;

    fn slushferret_check_matrix(
        scheme: *const u8,
        scheme_length: usize,
        matrix: *const u8,
        matrix_length: usize,
        report: *mut usize,
        report_length: usize,
    ) -> u8;

    fn slushferret_run(
        scheme: *const u8,
        scheme_length: usize,
        matrix: *const u8,
        matrix_length: usize,
        requests: *const u8,
        requests_length: usize,
        answers: *mut u8,
        answers_length: usize,
        out: *mut u8,
        out_length: usize,
        report: *mut usize,
        report_length: usize,
    ) -> u8;

    fn slushferret_convert_scheme(
        scheme: *const u8,
        scheme_length: usize,
        out: *mut u8,
        out_length: usize,
        report: *mut usize,
        report_length: usize,
    ) -> u8;

    fn slushferret_convert_matrix(
        scheme: *const u8,
        scheme_length: usize,
        matrix: *const u8,
        matrix_length: usize,
        out: *mut u8,
        out_length: usize,
        report: *mut usize,
        report_length: usize,
    ) -> u8;

    fn slushferret_hold(
        scheme: *const u8,
        scheme_length: usize,
        matrix: *const u8,
        matrix_length: usize,
        id: u16,
        out: *mut u8,
        out_length: usize,
        report: *mut usize,
        report_length: usize,
    ) -> u8;

    fn slushferret_release(
        scheme: *const u8,
        scheme_length: usize,
        matrix: *const u8,
        matrix_length: usize,
        id: u16,
        out: *mut u8,
        out_length: usize,
        report: *mut usize,
        report_length: usize,
    ) -> u8;

    fn slushferret_forward(
        scheme: *const u8,
        scheme_length: usize,
        old: *const u8,
        old_length: usize,
        out: *mut u8,
        out_length: usize,
        report: *mut usize,
        report_length: usize,
    ) -> u8;

    fn slushferret_back(
        scheme: *const u8,
        scheme_length: usize,
        matrix: *const u8,
        matrix_length: usize,
        out: *mut u8,
        out_length: usize,
        report: *mut usize,
        report_length: usize,
    ) -> u8;

    fn slushferret_write_request(
        command: u8,
        ids: *const u16,
        ids_length: usize,
        out: *mut u8,
        out_length: usize,
        at: usize,
        report: *mut usize,
        report_length: usize,
    ) -> u8;
}

/// The five numbers that a call puts into the lent report.
pub struct Report {
    numbers: [usize; 5],
}

impl Report {
    pub fn new() -> Report {
        Report { numbers: [0; 5] }
    }

    pub fn position(&self) -> usize {
        self.numbers[1]
    }

    pub fn answers(&self) -> usize {
        self.numbers[2]
    }

    pub fn written(&self) -> usize {
        self.numbers[3]
    }

    /// The record that ended a list, if one did.
    pub fn record(&self) -> Option<Refusal> {
        // proved to be a refusal number of a record, or 0
        self.result(self.numbers[4] as u8).err()
    }

    /// What the number means, with the place that was told.
    pub fn result(&self, number: u8) -> Result<(), Refusal> {
        if number == 0 {
            return Ok(());
        }
        let place = match self.numbers[0] {
            1 => Place::Scheme,
            2 => Place::Matrix,
            3 => Place::Requests,
            4 => Place::Answers,
            // proved to be 5: a refusal has one of the five places
            _ => Place::Output,
        };
        Err(Refusal {
            number,
            place,
            at: self.position(),
        })
    }
}

pub fn check_scheme(scheme: &[u8], report: &mut Report) -> u8 {
    let report = &mut report.numbers;
    // SAFETY: each pointer with its length is one slice that lives as long as the call; the report is lent to it alone.
    unsafe {
        slushferret_check_scheme(
            scheme.as_ptr(),
            scheme.len(),
            report.as_mut_ptr(),
            report.len(),
        )
    }
}

pub fn check_matrix(scheme: &[u8], matrix: &[u8], report: &mut Report) -> u8 {
    let report = &mut report.numbers;
    // SAFETY: as in `check_scheme`; what is only read may overlap.
    unsafe {
        slushferret_check_matrix(
            scheme.as_ptr(),
            scheme.len(),
            matrix.as_ptr(),
            matrix.len(),
            report.as_mut_ptr(),
            report.len(),
        )
    }
}

pub fn run(
    scheme: &[u8],
    matrix: &[u8],
    requests: &[u8],
    answers: &mut [u8],
    out: &mut [u8],
    report: &mut Report,
) -> u8 {
    let report = &mut report.numbers;
    // SAFETY: as in `check_scheme`; answers and output are borrowed mutably, so that they overlap nothing else.
    unsafe {
        slushferret_run(
            scheme.as_ptr(),
            scheme.len(),
            matrix.as_ptr(),
            matrix.len(),
            requests.as_ptr(),
            requests.len(),
            answers.as_mut_ptr(),
            answers.len(),
            out.as_mut_ptr(),
            out.len(),
            report.as_mut_ptr(),
            report.len(),
        )
    }
}

pub fn convert_scheme(scheme: &[u8], out: &mut [u8], report: &mut Report) -> u8 {
    let report = &mut report.numbers;
    // SAFETY: as in `check_scheme`; the output is borrowed mutably, so that it overlaps nothing else.
    unsafe {
        slushferret_convert_scheme(
            scheme.as_ptr(),
            scheme.len(),
            out.as_mut_ptr(),
            out.len(),
            report.as_mut_ptr(),
            report.len(),
        )
    }
}

pub fn convert_matrix(scheme: &[u8], matrix: &[u8], out: &mut [u8], report: &mut Report) -> u8 {
    let report = &mut report.numbers;
    // SAFETY: as in `convert_scheme`.
    unsafe {
        slushferret_convert_matrix(
            scheme.as_ptr(),
            scheme.len(),
            matrix.as_ptr(),
            matrix.len(),
            out.as_mut_ptr(),
            out.len(),
            report.as_mut_ptr(),
            report.len(),
        )
    }
}

/// Holds or releases: both are lent the same.
pub fn mark(
    held: bool,
    scheme: &[u8],
    matrix: &[u8],
    id: u16,
    out: &mut [u8],
    report: &mut Report,
) -> u8 {
    let report = &mut report.numbers;
    let call = if held {
        slushferret_hold
    } else {
        slushferret_release
    };
    // SAFETY: as in `convert_scheme`.
    unsafe {
        call(
            scheme.as_ptr(),
            scheme.len(),
            matrix.as_ptr(),
            matrix.len(),
            id,
            out.as_mut_ptr(),
            out.len(),
            report.as_mut_ptr(),
            report.len(),
        )
    }
}

/// Moves forward or back: both are lent the same.
pub fn move_image(
    forward: bool,
    scheme: &[u8],
    image: &[u8],
    out: &mut [u8],
    report: &mut Report,
) -> u8 {
    let report = &mut report.numbers;
    let call = if forward {
        slushferret_forward
    } else {
        slushferret_back
    };
    // SAFETY: as in `convert_scheme`.
    unsafe {
        call(
            scheme.as_ptr(),
            scheme.len(),
            image.as_ptr(),
            image.len(),
            out.as_mut_ptr(),
            out.len(),
            report.as_mut_ptr(),
            report.len(),
        )
    }
}

pub fn write_request(
    command: u8,
    ids: &[u16],
    out: &mut [u8],
    at: usize,
    report: &mut Report,
) -> u8 {
    let report = &mut report.numbers;
    // SAFETY: as in `convert_scheme`; a position past the output's end is refused by the function itself.
    unsafe {
        slushferret_write_request(
            command,
            ids.as_ptr(),
            ids.len(),
            out.as_mut_ptr(),
            out.len(),
            at,
            report.as_mut_ptr(),
            report.len(),
        )
    }
}

pub fn version() -> u32 {
    // SAFETY: it takes nothing.
    unsafe { slushferret_version() }
}
