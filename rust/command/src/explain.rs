//! The page of an answer.

/// docs/ANSWERS.md, in which the page of an answer begins with `## ` and its number.
const PAGES: &str = include_str!("../../../docs/ANSWERS.md");

/// The page of an answer, where there is one.
pub fn page(number: u64) -> Option<String> {
    let begins = format!("{number}: ");
    let mut pages = PAGES.split("\n## ").skip(1);
    let page = pages.find(|page| page.starts_with(&begins))?;
    Some(format!("Answer {}\n", page.trim_end()))
}

#[cfg(test)]
mod tests {
    use super::*;
    use crate::answers::meaning;

    #[test]
    fn every_answer_has_a_page_under_its_meaning() {
        for number in 0..=22 {
            let page = page(number.into()).expect("a page");
            let heading = format!("Answer {number}: {}", meaning(number));
            assert_eq!(page.lines().next(), Some(heading.as_str()));
            assert!(page.lines().count() > 2);
        }
        assert_eq!(page(23), None);
    }
}
