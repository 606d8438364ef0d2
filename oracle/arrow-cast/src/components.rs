
/// The components of an interval text with the default unit of that name: each amount's whole part and its fraction times ten to the
/// fifteenth, and the unit.
pub fn components(value: &str, default_unit: &str) -> Result<Vec<(i64, i64, IntervalUnit)>, ArrowError> {
    let components = parse_interval_components(value, &IntervalParseConfig::new(default_unit.parse()?))?;
    Ok(components.into_iter().map(|(amount, unit)| (amount.integer, amount.frac, unit)).collect())
}
