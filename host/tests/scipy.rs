//! The library against SciPy itself, where a python3 with SciPy and a C compiler are at hand: runs
//! scipy/compare.py.

use std::io::Write;
use std::path::Path;
use std::process::Command;

/// Whether this can be run to its good end.
fn runs(program: &str, words: &[&str]) -> bool {
    let output = Command::new(program).args(words).output();
    output.is_ok_and(|o| o.status.success())
}

#[test]
fn library_and_scipy() {
    let python = ["python3", "/usr/bin/python3"]
        .into_iter()
        .find(|python| runs(python, &["-c", "import scipy.ndimage"]));
    let said = match python {
        Some(python) if runs("cc", &["--version"]) => {
            let script = Path::new(env!("CARGO_MANIFEST_DIR")).join("scipy/compare.py");
            let output = Command::new(python)
                .arg(script)
                .arg(env!("STAND_ARCHIVE"))
                .output()
                .expect("python3");
            let text = [output.stdout, output.stderr].concat();
            let text = String::from_utf8_lossy(&text).into_owned();
            assert!(output.status.success(), "{text}");
            text
        }
        _ => "skipped: no python3 with SciPy, or no cc; its recorded answers are replayed\n".into(),
    };
    std::io::stderr().write_all(said.as_bytes()).unwrap();
}
