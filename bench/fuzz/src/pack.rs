//! A corpus in one file: of each input its length in two bytes, and then its bytes.

/// The inputs of a file.
pub fn inputs(mut file: &[u8]) -> Vec<Vec<u8>> {
    let mut inputs = Vec::new();
    while let Some((length, rest)) = file.split_first_chunk::<2>() {
        let length = usize::from(u16::from_le_bytes(*length)).min(rest.len());
        inputs.push(rest[..length].to_vec());
        file = &rest[length..];
    }
    inputs
}

/// The most bytes of a file of inputs.
const MOST: usize = 190_000;

/// The file of the first of these inputs, as many as have room.
pub fn file(inputs: &[Vec<u8>]) -> Vec<u8> {
    let mut file = Vec::new();
    for input in inputs {
        let Ok(length) = u16::try_from(input.len()) else { break };
        if file.len() + input.len() + 2 > MOST {
            break;
        }
        file.extend(length.to_le_bytes());
        file.extend(input);
    }
    file
}
