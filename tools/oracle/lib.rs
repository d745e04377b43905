// The Rust as judge, and a second judge for extension bits, id 0, cut codes, the layer page, and rates, sizes and intervals:
// their answers in the numbers of 01, and makers of units, records and lists.
pub mod broken;
pub mod changed_records;
pub mod cut_codes;
pub mod cut_rule;
pub mod definition_units;
pub mod draft;
pub mod extension_rule;
pub mod figures;
pub mod id_rule;
pub mod judges;
pub mod leaves;
pub mod list;
pub mod page;
pub mod random;
pub mod record;
pub mod record_list;
pub mod record_numbers;
pub mod records;
pub mod refusal;
pub mod samples;
pub mod section_list;
pub mod show;
pub mod structures;
pub mod unit_list;
pub mod units;
