//! Objects of `--json`.

use crate::failure::{words, Failure};
use serde_json::{json, Value};
use std::os::unix::ffi::OsStrExt;
use std::path::Path;

/// A line with an object, the file's name in it. Where that is no UTF-8, its bytes are there too, in hexadecimal: else it could
/// not be found again.
pub fn of_file(path: &Path, mut said: Value) -> String {
    said["file"] = json!(path.to_string_lossy());
    if path.to_str().is_none() {
        let bytes = path.as_os_str().as_bytes();
        said["file_bytes"] = json!(bytes.iter().map(|byte| format!("{:02x}", byte)).collect::<String>());
    }
    said.to_string()
}

/// Why there is no answer to a file.
pub fn failure(failure: &Failure) -> Value {
    match failure {
        Failure::Refused(_, refusal) => {
            json!({ "number": refusal.number, "words": refusal.words(), "place": refusal.place })
        }
        Failure::Io(_, error) => json!({ "error": words(error) }),
        Failure::Unfit(_, words) => json!({ "error": words }),
        other => json!({ "error": other.to_string() }),
    }
}
