//! Asks the product and the second program the same, and compares their
//! answers.

use crate::product::Product;
use crate::request::Request;

/// A request with both answers to it.
pub struct Comparison {
    pub request: Request,
    pub expected: String,
    pub answered: String,
}

impl Comparison {
    pub fn differs(&self) -> bool {
        self.expected != self.answered
    }
}

/// One batch, in order: a comparison for each request.
pub fn compare(product: &mut dyn Product, requests: &[Request]) -> Vec<Comparison> {
    let answers = product.answers(requests);
    // Were there fewer, the last requests would pass without a comparison.
    assert_eq!(answers.len(), requests.len(), "an answer for each request");
    let both = requests.iter().zip(answers);
    both.map(|(request, answered)| {
        let expected = product.expected(request);
        Comparison { request: request.clone(), expected, answered }
    })
    .collect()
}
