//! The library's answer to a start or a format, and the tool's explanation beside it.

use crate::explain::Finding;
use lane::Refusal;
use std::fmt;

/// The library's answer, and what was found beside it.
#[derive(Clone, Debug, PartialEq)]
pub struct Verdict {
    pub refusal: Option<Refusal>,
    pub finding: Option<Finding>,
}

impl Verdict {
    /// The number is the library's own.
    pub fn number(&self) -> Option<u32> {
        self.refusal.map(Refusal::number)
    }

    fn found(&self) -> Option<u32> {
        self.finding.as_ref().map(|finding| finding.number)
    }

    /// Says so where the finding is not of the library's number.
    pub fn defect(&self) -> Option<String> {
        if self.found() == self.number() {
            return None;
        }
        let library = match self.number() {
            Some(number) => format!("the library refuses {number}"),
            None => "the library accepts it".into(),
        };
        let found = match &self.finding {
            Some(finding) => format!("the tool finds {finding}"),
            None => "the tool finds no reason".into(),
        };
        Some(format!("a defect of this tool: {library}, {found}"))
    }
}

/// What is said of a refused card, in lines: question, numbers behind it.
impl fmt::Display for Verdict {
    fn fmt(&self, f: &mut fmt::Formatter<'_>) -> fmt::Result {
        match &self.refusal {
            Some(refusal) => write!(f, "{refusal}")?,
            None => write!(f, "accepted")?,
        }
        match (self.defect(), &self.finding) {
            (Some(defect), _) => write!(f, "\n{defect}"),
            (None, Some(finding)) => write!(f, "\n{finding}"),
            (None, None) => Ok(()),
        }
    }
}

#[cfg(test)]
mod tests {
    use super::*;

    fn finding_of(number: u32) -> Option<Finding> {
        let text = "so it is".into();
        Some(Finding { number, text })
    }

    #[test]
    fn a_finding_of_another_number_is_called_a_defect() {
        let mut verdict = Verdict {
            refusal: Some(Refusal::Trailer),
            finding: finding_of(7),
        };
        assert_eq!(verdict.defect(), None);
        assert!(verdict.to_string().ends_with("\n7: so it is"));
        verdict.finding = finding_of(8);
        let said = "a defect of this tool: the library refuses 7, the tool finds 8: so it is";
        assert!(verdict.to_string().ends_with(said), "{verdict}");
        assert!(verdict.to_string().starts_with("refused 7: "), "{verdict}");
        verdict.finding = None;
        assert!(verdict.to_string().ends_with("finds no reason"));
        verdict.refusal = None;
        assert_eq!(verdict.to_string(), "accepted");
        verdict.finding = finding_of(8);
        let said = "the library accepts it, the tool finds 8: so it is";
        assert!(verdict.to_string().ends_with(said), "{verdict}");
    }
}
