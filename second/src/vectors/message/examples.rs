//! The examples of rules 12 and of RFC 8990.

use super::super::edges::AT_THE_EDGES;
use super::super::unhex;

/// RFC 8990, appendix A: diagnostic notation and wire format.
const APPENDIX_A: &[(&str, &str)] = &[
    (
        "[1, 13948744, h'20010db8f000baaa28ccdc4c97036781', [\"EX1\", 5, 2, 0]]",
        "84011a00d4d7485020010db8f000baaa28ccdc4c970367818463455831050200",
    ),
    (
        "[2, 13948744, h'20010db8f000baaa28ccdc4c97036781', 60000, \
         [103, h'20010db8f000baaaf000baaaf000baaa', 6, 49443]]",
        "85021a00d4d7485020010db8f000baaa28ccdc4c9703678119ea6084186750\
         20010db8f000baaaf000baaaf000baaa0619c123",
    ),
    (
        "[9, 3504974, h'20010db8f000baaa28ccdc4c97036781', 10000, \
         [[\"EX1\", 5, 2, [\"Example 1 value=\", 100]],[] ] ]",
        "85091a00357b4e5020010db8f000baaa28ccdc4c97036781192710\
         828463455831050282704578616d706c6520312076616c75653d186480",
    ),
    (
        "[4, 4038926, [\"EX2\", 5, 5, 0]]",
        "83041a003da10e8463455832050500",
    ),
    (
        "[8, 4038926, [\"EX2\", 5, 5, [\"Example 2 value=\", 200]]]",
        "83081a003da10e8463455832050582704578616d706c6520322076616c75653d18c8",
    ),
    (
        "[3, 802813, [\"EX3\", 3, 6, [\"NZD\", 47]]]",
        "83031a000c3ffd8463455833030682634e5a44182f",
    ),
    ("[6, 802813, [101]]", "83061a000c3ffd811865"),
    (
        "[3, 13767778, [\"EX3\", 3, 6, [\"NZD\", 410]]]",
        "83031a00d214628463455833030682634e5a4419019a",
    ),
    (
        "[5, 13767778, [\"EX3\", 3, 6, [\"NZD\", 80]]]",
        "83051a00d214628463455833030682634e5a441850",
    ),
    (
        "[5, 13767778, [\"EX3\", 3, 5, [\"NZD\", 307]]]",
        "83051a00d214628463455833030582634e5a44190133",
    ),
    ("[7, 13767778, 34965]", "83071a00d21462198895"),
    (
        "[5, 13767778, [\"EX3\", 3, 4, [\"NZD\", 120]]]",
        "83051a00d214628463455833030482634e5a441878",
    ),
    (
        "[5, 13767778, [\"EX3\", 3, 3, [\"NZD\", 246]]]",
        "83051a00d214628463455833030382634e5a4418f6",
    ),
    (
        "[6, 13767778, [102, \"Insufficient funds\"]]",
        "83061a00d2146282186672496e73756666696369656e742066756e6473",
    ),
    ("[6, 13767778, [101]]", "83061a00d21462811865"),
];

/// Its limits on levels and sizes have files of their own.
pub fn bytes_at_the_edges() -> Vec<Vec<u8>> {
    AT_THE_EDGES.iter().map(|encoded| unhex(encoded)).collect()
}

/// As they stand, and cut and followed by a byte.
pub fn appendix_a() -> Vec<Vec<u8>> {
    let mut cases = Vec::new();
    for (_, encoded) in APPENDIX_A {
        let bytes = unhex(encoded);
        let short = bytes[..bytes.len() - 1].to_vec();
        let more = [&bytes[..], &[0x00]].concat();
        cases.extend([bytes, short, more]);
    }
    cases
}
