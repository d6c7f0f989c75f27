//! The marked regions of a page.

use std::fmt;

/// The page has no such region.
#[derive(Clone, Debug, PartialEq, Eq)]
pub struct NoRegion(String);

impl fmt::Display for NoRegion {
    fn fmt(&self, formatter: &mut fmt::Formatter<'_>) -> fmt::Result {
        write!(formatter, "the page has no region <!-- swarm {} --> .. <!-- end -->", self.0)
    }
}

impl std::error::Error for NoRegion {}

/// The page with another text between `<!-- swarm NAME -->` and the next `<!-- end -->`.
pub fn replace(page: &str, name: &str, text: &str) -> Result<String, NoRegion> {
    let missing = || NoRegion(name.into());
    let (before, rest) = page.split_once(&format!("<!-- swarm {name} -->")).ok_or_else(missing)?;
    let (_, after) = rest.split_once("<!-- end -->").ok_or_else(missing)?;
    Ok(format!("{before}<!-- swarm {name} -->\n\n{}\n\n<!-- end -->{after}", text.trim()))
}

#[cfg(test)]
mod tests {
    use super::*;

    #[test]
    fn only_the_region_is_replaced() {
        let page = "a\n<!-- swarm x -->old<!-- end -->\nb <!-- swarm y --><!-- end --> c";
        assert_eq!(
            replace(page, "x", "new\n").as_deref(),
            Ok("a\n<!-- swarm x -->\n\nnew\n\n<!-- end -->\nb <!-- swarm y --><!-- end --> c")
        );
        assert_eq!(replace(page, "z", "new"), Err(NoRegion("z".into())));
    }
}
