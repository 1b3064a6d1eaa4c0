//! The static library, linked. All unsafe code of the Rust side is here.

#![allow(unsafe_code)]

use crate::{Answer, Position, Ran, Stepped, Written, NUMBERS};
use std::io;

// As include/sverdhyll.h declares them.
extern "C" {
    /// The checker: returns the answer's number, and puts the numbers of the answer where the last pointer leads.
    fn sverdhyll_answer(
        script: *const u8,
        script_len: usize,
        response: *const u8,
        response_len: usize,
        points: *const u64,
        points_len: usize,
        budget: u64,
        shown: *mut u16,
        shown_len: usize,
        answer: *mut u64,
    ) -> u8;
    /// The texts' own answer: returns its number, and puts the numbers of the answer where the last pointer leads.
    fn sverdhyll_read(
        script: *const u8,
        script_len: usize,
        response: *const u8,
        response_len: usize,
        answer: *mut u64,
    ) -> u8;
    /// The enquiry for a word.
    fn sverdhyll_word(text: *const u8, text_len: usize, at: usize) -> usize;
    /// The enquiry for a place: puts its line and its column where the last two pointers lead.
    fn sverdhyll_position(
        text: *const u8,
        text_len: usize,
        place: usize,
        line: *mut u64,
        column: *mut u64,
    );
    /// The steps of a body: returns the answer's number, writes the list to the area, and puts the number of steps and the numbers of the answer where the last
    /// two pointers lead.
    fn sverdhyll_steps(
        script: *const u8,
        script_len: usize,
        response: *const u8,
        response_len: usize,
        points: *const u64,
        points_len: usize,
        budget: u64,
        function: u64,
        area: *mut u64,
        area_len: usize,
        count: *mut usize,
        answer: *mut u64,
    ) -> u8;
    /// The runner: returns the answer's number, and puts the place, the value and its sort where the last three pointers lead.
    fn sverdhyll_run(
        sorts: *const u64,
        sorts_len: usize,
        arguments: *const u64,
        arguments_len: usize,
        steps: *const u64,
        steps_len: usize,
        place: *mut u64,
        value: *mut u64,
        sort: *mut u64,
    ) -> u8;
    /// The writer of evidence: returns the answer's number, writes the file to the area, and puts its length and the numbers of the answer where the last two
    /// pointers lead.
    fn sverdhyll_write_evidence(
        script: *const u8,
        script_len: usize,
        response: *const u8,
        response_len: usize,
        area: *mut u8,
        area_len: usize,
        length: *mut usize,
        answer: *mut u64,
    ) -> u8;
    /// The check of evidence: returns the answer's number, and puts the numbers of the answer where the last pointer leads.
    fn sverdhyll_check_evidence(file: *const u8, file_len: usize, answer: *mut u64) -> u8;
}

/// The linked library, which keeps nothing between calls.
pub struct Held;

impl Held {
    /// There is nothing to make ready.
    pub fn open() -> io::Result<Held> {
        Ok(Held)
    }

    /// Calls `sverdhyll_answer`.
    pub fn check(
        &mut self,
        script: &[u8],
        response: &[u8],
        points: &[u64],
        budget: u64,
        shown: &mut [u16],
    ) -> io::Result<Answer> {
        let mut numbers = [0; NUMBERS];
        // SAFETY: each pointer is that of a slice with its length or of the sixteen numbers, and the library keeps none of them.
        unsafe {
            sverdhyll_answer(
                script.as_ptr(),
                script.len(),
                response.as_ptr(),
                response.len(),
                points.as_ptr(),
                points.len(),
                budget,
                shown.as_mut_ptr(),
                shown.len(),
                numbers.as_mut_ptr(),
            )
        };
        Ok(Answer::of(numbers))
    }

    /// Calls `sverdhyll_read`.
    pub fn read(&mut self, script: &[u8], response: &[u8]) -> io::Result<Answer> {
        let mut numbers = [0; NUMBERS];
        // SAFETY: each pointer is that of a slice with its length, which is only read, or of the sixteen numbers, and the library keeps none of them.
        unsafe {
            sverdhyll_read(
                script.as_ptr(),
                script.len(),
                response.as_ptr(),
                response.len(),
                numbers.as_mut_ptr(),
            )
        };
        Ok(Answer::of(numbers))
    }

    /// Calls `sverdhyll_word`.
    pub fn word(&mut self, text: &[u8], at: usize) -> io::Result<usize> {
        // SAFETY: the pointer is that of a slice with its length, which is only read.
        Ok(unsafe { sverdhyll_word(text.as_ptr(), text.len(), at) })
    }

    /// Calls `sverdhyll_position`, and `sverdhyll_word` for the end.
    pub fn position(&mut self, text: &[u8], place: usize) -> io::Result<Position> {
        let (mut line, mut column) = (0, 0);
        // SAFETY: the first pointer is that of a slice with its length, which is only read, and the others are those of numbers that are written.
        unsafe { sverdhyll_position(text.as_ptr(), text.len(), place, &mut line, &mut column) };
        let end = (place + self.word(text, place)?) as u64;
        Ok(Position { end, line, column })
    }

    /// Calls `sverdhyll_steps`.
    pub fn steps(
        &mut self,
        texts: [&[u8]; 2],
        points: &[u64],
        budget: u64,
        function: u64,
        area: &mut [u64],
    ) -> io::Result<Stepped> {
        let [script, response] = texts;
        let (mut count, mut numbers) = (0, [0; NUMBERS]);
        // SAFETY: each pointer is that of a slice with its length, of the count or of the sixteen numbers, and the library keeps none of them.
        unsafe {
            sverdhyll_steps(
                script.as_ptr(),
                script.len(),
                response.as_ptr(),
                response.len(),
                points.as_ptr(),
                points.len(),
                budget,
                function,
                area.as_mut_ptr(),
                area.len(),
                &mut count,
                numbers.as_mut_ptr(),
            )
        };
        let answer = Answer::of(numbers);
        Ok(Stepped { answer, count })
    }

    /// Calls `sverdhyll_run`.
    pub fn run(&mut self, sorts: &[u64], arguments: &[u64], steps: &[u64]) -> io::Result<Ran> {
        let (mut place, mut value, mut sort) = (0, 0, 0);
        // SAFETY: the first three pointers are those of slices with their lengths, which are only read, and the others are those of numbers that are written.
        let number = unsafe {
            sverdhyll_run(
                sorts.as_ptr(),
                sorts.len(),
                arguments.as_ptr(),
                arguments.len(),
                steps.as_ptr(),
                steps.len(),
                &mut place,
                &mut value,
                &mut sort,
            )
        };
        Ok(Ran::of([number.into(), place, value, sort]))
    }

    /// Calls `sverdhyll_write_evidence`.
    pub fn write_evidence(
        &mut self,
        script: &[u8],
        response: &[u8],
        area: &mut [u8],
    ) -> io::Result<Written> {
        let (mut length, mut numbers) = (0, [0; NUMBERS]);
        // SAFETY: each pointer is that of a slice with its length, of the file's length or of the sixteen numbers, and the library keeps none of them.
        unsafe {
            sverdhyll_write_evidence(
                script.as_ptr(),
                script.len(),
                response.as_ptr(),
                response.len(),
                area.as_mut_ptr(),
                area.len(),
                &mut length,
                numbers.as_mut_ptr(),
            )
        };
        let answer = Answer::of(numbers);
        Ok(Written { answer, length })
    }

    /// Calls `sverdhyll_check_evidence`.
    pub fn check_evidence(&mut self, file: &[u8]) -> io::Result<Answer> {
        let mut numbers = [0; NUMBERS];
        // SAFETY: the first pointer is that of a slice with its length, which is only read, the other that of the sixteen numbers, and the library keeps neither.
        unsafe { sverdhyll_check_evidence(file.as_ptr(), file.len(), numbers.as_mut_ptr()) };
        Ok(Answer::of(numbers))
    }

    /// The digest of the library that was linked, by build.rs.
    pub fn digest(&self) -> &str {
        env!("SVERDHYLL_LIBRARY")
    }
}
