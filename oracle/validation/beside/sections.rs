// Stand-in: the parsed extension. The other names are not run.

#[derive(Debug, Clone)]
pub struct ExtensionField {
    pub key: [u8; 2],
    pub value: Vec<u8>,
}

#[derive(Debug, Clone)]
pub struct ParsedExtension {
    pub header_id: [u8; 32],
    pub fields: Vec<ExtensionField>,
}

pub struct ParsedAdProofs;
pub struct ParsedBlockTransactions;

pub fn parse_block_transactions() {}
pub fn parse_extension() {}
pub fn serialize_ad_proofs() {}
pub fn serialize_block_transaction() {}
pub fn serialize_block_transactions() {}
pub fn serialize_extension() {}
