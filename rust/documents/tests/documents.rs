//! The documents of this repository.

use documents::{claims, contracts, formats, links, names, numbers, versions, Finding, Repository};

/// Fails with every finding of a check, one to a line.
fn none(check: fn(&Repository) -> Vec<Finding>) {
    let findings = check(&Repository::here());
    let lines: Vec<String> = findings.iter().map(Finding::to_string).collect();
    assert!(lines.is_empty(), "\n{}\n", lines.join("\n"));
}

#[test]
fn the_claims_name_what_is_there() {
    none(claims::check);
}

#[test]
fn the_other_documents_name_what_is_there() {
    none(names::check);
}

#[test]
fn every_exception_is_needed() {
    none(names::unneeded);
}

#[test]
fn every_link_leads_somewhere() {
    none(links::check);
}

#[test]
fn no_line_of_the_code_is_too_long() {
    none(contracts::check);
}

#[test]
fn there_is_one_version() {
    none(versions::check);
}

#[test]
fn the_example_of_the_formats_is_as_the_files_have_it() {
    none(formats::check);
}

#[test]
fn every_number_has_its_row() {
    none(numbers::check);
}
