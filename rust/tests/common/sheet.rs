//! Sheets made of their parts.

/// The sheet of this window, these signals and these rules.
pub fn sheet(window: usize, signals: &[&str], rules: &[&str]) -> Vec<u8> {
    let lines = |key: &str, values: &[&str]| values.iter().map(|value| format!("{key}={value}\n")).collect::<String>();
    let (names, formulas) = (lines("signal", signals), lines("rule", rules));
    format!("window={window}\nsignals={}\n{names}rules={}\n{formulas}", signals.len(), rules.len()).into_bytes()
}
