//! Bytes as text that a person can read.

/// So many bytes of 0 or more are told by their count.
const RUN: usize = 8;
const MOST: usize = 2_000;

/// In hex, where `00*9` is nine bytes of 0; or only how many they are, if they are too many.
pub fn shown(bytes: &[u8]) -> String {
    if bytes.len() > MOST {
        return format!("{} bytes", bytes.len());
    }
    let mut words = Vec::new();
    let mut rest = bytes;
    while let [first, after @ ..] = rest {
        let zeros = rest.iter().take_while(|&&byte| byte == 0).count();
        if zeros >= RUN {
            words.push(format!("00*{}", zeros));
            rest = &rest[zeros..];
        } else {
            words.push(format!("{:02X}", first));
            rest = after;
        }
    }
    format!("[{}]", words.join(" "))
}
